//! Writes the header's declarations in Rust.

use crate::header::{Field, Item, Pointer, TYPES, own};

/// The Rust text of what a header declares.
pub fn write(items: &[Item]) -> String {
    let mut text = String::new();
    for item in items {
        match item {
            Item::Number { doc, name, value } => text += &number(doc, name, value_type(name, items), value),
            Item::Refusal { number: value, name, words } => text += &number(words, name, "u32", value),
            Item::Alias { doc, name, of } => {
                text += &format!("{}pub type {} = {};\n", docs("", doc), type_of(name), type_of(of));
            }
            Item::Struct { doc, name, fields } => text += &structure(doc, name, fields),
            Item::Function { .. } => {}
        }
    }
    text += &refusals(items);
    text += "unsafe extern \"C\" {\n";
    text.extend(items.iter().map(function));
    text += "}\n";
    text
}

/// The type of a number: that of the field which holds it, or of an array's length.
fn value_type(name: &str, items: &[Item]) -> &'static str {
    let is_length = |field: &Field| field.length.as_deref().and_then(own) == Some(name);
    let in_struct = |item: &Item| matches!(item, Item::Struct { fields, .. } if fields.iter().any(is_length));
    match name {
        _ if items.iter().any(in_struct) => "usize",
        _ if name.starts_with("GROUND_") => "u8",
        _ => "u32",
    }
}

fn number(doc: &str, name: &str, of: &str, value: &str) -> String {
    format!("{}pub const {name}: {of} = {value};\n", docs("", doc))
}

fn refusals(items: &[Item]) -> String {
    let mut rows = String::new();
    let mut count = 0;
    for item in items {
        if let Item::Refusal { name, words, .. } = item {
            rows += &format!("    ({name}, {words:?}),\n");
            count += 1;
        }
    }
    format!(
        "/// The refusals: the number and the words of each.\npub const REFUSALS: [(u32, &str); {count}] = [\n{rows}];\n"
    )
}

fn structure(doc: &str, name: &str, fields: &[Field]) -> String {
    // Arrays of more than 32 entries have no default.
    let is_number = |field: &Field| field.length.is_none() && !field.of.starts_with("codwalet_");
    let default = if fields.iter().all(is_number) { "Default, " } else { "" };
    let mut text = docs("", doc);
    text += &format!("#[repr(C)]\n#[derive(Clone, Copy, Debug, {default}PartialEq, Eq)]\n");
    text += &format!("pub struct {} {{\n", type_of(name));
    for field in fields {
        text += &docs("    ", &field.doc);
        text += &format!("    pub {},\n", declared(field));
    }
    text + "}\n"
}

fn function(item: &Item) -> String {
    let Item::Function { doc, name, result, parameters } = item else {
        return String::new();
    };
    // Without pointers there is nothing that a caller has to keep.
    let safe = if parameters.iter().all(|parameter| parameter.pointer.is_none()) { "safe " } else { "" };
    let parameters: Vec<String> = parameters.iter().map(declared).collect();
    let mut text = docs("    ", doc);
    text += &format!("    pub {safe}fn {name}({}) -> {};\n", parameters.join(", "), type_of(result));
    text
}

fn declared(field: &Field) -> String {
    let of = type_of(&field.of);
    match (&field.pointer, &field.length) {
        (Some(Pointer::Const), _) => format!("{}: *const {of}", field.name),
        (Some(Pointer::Mut), _) => format!("{}: *mut {of}", field.name),
        (None, Some(length)) => format!("{}: [{of}; {}]", field.name, length.replace("CODWALET_", "")),
        (None, None) => format!("{}: {of}", field.name),
    }
}

/// The Rust type for a type of the header: `u32` for `uint32_t`, `Licence` for `codwalet_licence`.
fn type_of(c: &str) -> String {
    match (c.strip_prefix("codwalet_"), TYPES.iter().find(|(number, _)| *number == c)) {
        (Some(name), _) => name[..1].to_uppercase() + &name[1..],
        (None, Some((_, rust))) => rust.to_string(),
        (None, None) => unreachable!("the header's types are read by their names"),
    }
}

fn docs(indent: &str, doc: &str) -> String {
    if doc.is_empty() { String::new() } else { format!("{indent}/// {doc}\n") }
}
