//! Reads the C header: its numbers, its table of refusals, its structs and its functions. It knows the forms that the header
//! uses and no others; what it can't read ends the build.

use crate::tokens::{Kind, Token, tokens};

/// What the header declares. A doc is the comment above it, or behind it on its line.
#[derive(Debug, PartialEq, Eq)]
pub enum Item {
    /// `#define CODWALET_NAME VALUE`, or `CODWALET_NAME = VALUE` in an enum.
    Number {
        doc: String,
        name: String,
        value: String,
    },
    /// `X(NUMBER, NAME, "WORDS")` in the table of refusals.
    Refusal {
        number: String,
        name: String,
        words: String,
    },
    /// `typedef uint16_t codwalet_name;`
    Alias {
        doc: String,
        name: String,
        of: String,
    },
    Struct {
        doc: String,
        name: String,
        fields: Vec<Field>,
    },
    Function {
        doc: String,
        name: String,
        result: String,
        parameters: Vec<Field>,
    },
}

/// A field of a struct or a parameter of a function.
#[derive(Debug, PartialEq, Eq)]
pub struct Field {
    pub doc: String,
    pub name: String,
    /// The C type, as `uint8_t`.
    pub of: String,
    pub pointer: Option<Pointer>,
    /// The length of an array.
    pub length: Option<String>,
}

#[derive(Clone, Copy, Debug, PartialEq, Eq)]
pub enum Pointer {
    Const,
    Mut,
}

/// Where the header can't be read.
#[derive(Debug, PartialEq, Eq)]
pub struct Unread {
    pub line: usize,
}

/// What the header declares, in its order.
pub fn read(text: &str) -> Result<Vec<Item>, Unread> {
    let tokens = tokens(text, 1).map_err(|line| Unread { line })?;
    let mut reader = Reader::new(&tokens);
    while !reader.tokens.is_empty() {
        if reader.item().is_none() {
            return Err(Unread { line: reader.line });
        }
    }
    Ok(reader.items)
}

/// The types of C that the header uses, and Rust's names for them.
pub const TYPES: [(&str, &str); 6] = [
    ("uint8_t", "u8"),
    ("uint16_t", "u16"),
    ("uint32_t", "u32"),
    ("uint64_t", "u64"),
    ("int32_t", "i32"),
    ("size_t", "usize"),
];

/// Takes tokens from the front. A function answers None at what it can't read, with `line` at it.
struct Reader<'t> {
    tokens: &'t [Token],
    /// The line of the token taken last.
    line: usize,
    /// The comment taken last, if nothing that it is about was taken since.
    doc: String,
    items: Vec<Item>,
}

impl<'t> Reader<'t> {
    fn new(tokens: &'t [Token]) -> Reader<'t> {
        Reader { tokens, line: 1, doc: String::new(), items: Vec::new() }
    }

    fn next(&mut self) -> Option<&'t Kind> {
        let (first, rest) = self.tokens.split_first()?;
        (self.tokens, self.line) = (rest, first.line);
        Some(&first.is)
    }

    fn word(&mut self) -> Option<&'t str> {
        let Kind::Word(word) = self.next()? else { return None };
        Some(word)
    }

    /// Takes a word that is due.
    fn keyword(&mut self, due: &str) -> Option<()> {
        (self.word()? == due).then_some(())
    }

    fn symbol(&mut self, due: char) -> Option<()> {
        (*self.next()? == Kind::Symbol(due)).then_some(())
    }

    /// Takes a symbol if it stands next.
    fn takes(&mut self, symbol: char) -> bool {
        let stands = self.tokens.first().is_some_and(|token| token.is == Kind::Symbol(symbol));
        if stands {
            self.next();
        }
        stands
    }

    fn a_type(&mut self) -> Option<&'t str> {
        self.word().filter(|name| is_type(name))
    }

    /// The comment above what comes next.
    fn doc_above(&mut self) -> String {
        std::mem::take(&mut self.doc)
    }

    /// The comment behind what was taken last, on its line.
    fn doc_behind(&mut self) -> String {
        match self.tokens.first() {
            Some(Token { line, is: Kind::Comment(words) }) if *line == self.line => {
                self.next();
                words.clone()
            }
            _ => String::new(),
        }
    }

    fn item(&mut self) -> Option<()> {
        match self.next()? {
            Kind::Comment(words) => self.doc = words.clone(),
            Kind::Directive(directive) => self.directive(directive)?,
            Kind::Word(word) => match word.as_str() {
                "enum" => self.numbers()?,
                "typedef" => self.new_type()?,
                "static" => self.skip_body()?,
                "extern" => self.for_cpp()?,
                result => self.function(result)?,
            },
            Kind::Symbol('}') => {}
            _ => return None,
        }
        Some(())
    }

    /// `extern "C" {`, whose end is passed over too.
    fn for_cpp(&mut self) -> Option<()> {
        (*self.next()? == Kind::Text("C".to_string())).then_some(())?;
        self.symbol('{')
    }

    /// Only `#define` with a value declares something: a number, or the table of refusals.
    fn directive(&mut self, text: &str) -> Option<()> {
        let Some((name, value)) = text.strip_prefix("#define ").and_then(|define| define.split_once(' ')) else {
            return is_passed_over(text).then_some(());
        };
        match name {
            "CODWALET_REFUSALS(X)" => self.refusals(value),
            // The macros with arguments make use of that table.
            _ if name.contains('(') => Some(()),
            _ => self.define(name, value),
        }
    }

    fn define(&mut self, name: &str, value: &str) -> Option<()> {
        let (value, behind) = value.split_once("/*").unwrap_or((value, "*/"));
        let behind = behind.trim_end().strip_suffix("*/")?.trim();
        let doc = if behind.is_empty() { self.doc_above() } else { behind.to_string() };
        let value = read_value(value.trim())?;
        self.items.push(Item::Number { doc, name: own(name)?.to_string(), value });
        Some(())
    }

    fn refusals(&mut self, rows: &str) -> Option<()> {
        let first_line = self.line - rows.trim_end().matches('\n').count();
        let rows = tokens(rows, first_line).map_err(|line| self.line = line).ok()?;
        let mut rows = Reader::new(&rows);
        while !rows.tokens.is_empty() {
            let Some(refusal) = rows.refusal() else {
                self.line = rows.line;
                return None;
            };
            self.items.push(refusal);
        }
        Some(())
    }

    fn refusal(&mut self) -> Option<Item> {
        self.keyword("X")?;
        self.symbol('(')?;
        let number = read_value(self.word()?)?;
        self.symbol(',')?;
        let name = self.word()?.to_string();
        self.symbol(',')?;
        let Kind::Text(words) = self.next()? else { return None };
        self.symbol(')')?;
        Some(Item::Refusal { number, name, words: words.clone() })
    }

    /// The numbers of an enum.
    fn numbers(&mut self) -> Option<()> {
        self.symbol('{')?;
        while !self.takes('}') {
            match self.next()? {
                Kind::Word(name) => self.number(name)?,
                Kind::Directive(directive) => self.directive(directive)?,
                _ => return None,
            }
        }
        self.symbol(';')
    }

    fn number(&mut self, name: &str) -> Option<()> {
        // The table of refusals stands in an enum too, where a macro names its numbers.
        if self.takes('(') {
            self.word()?;
            return self.symbol(')');
        }
        self.symbol('=')?;
        let value = read_value(self.word()?)?;
        self.takes(',');
        let doc = self.doc_behind();
        self.items.push(Item::Number { doc, name: own(name)?.to_string(), value });
        Some(())
    }

    /// A struct, or another name for a type.
    fn new_type(&mut self) -> Option<()> {
        let doc = self.doc_above();
        if self.tokens.first()?.is != Kind::Word("struct".to_string()) {
            let (of, name) = (self.a_type()?.to_string(), self.word()?.to_string());
            self.items.push(Item::Alias { doc, name, of });
            return self.symbol(';');
        }
        self.next();
        self.symbol('{')?;
        let mut fields = Vec::new();
        while !self.takes('}') {
            let field = self.field()?;
            self.symbol(';')?;
            fields.push(Field { doc: self.doc_behind(), ..field });
        }
        let name = self.word()?.to_string();
        self.items.push(Item::Struct { doc, name, fields });
        self.symbol(';')
    }

    /// A type, a name and an array's length.
    fn field(&mut self) -> Option<Field> {
        let (of, name) = (self.a_type()?.to_string(), self.word()?.to_string());
        let length = if self.takes('[') { Some(self.word()?.to_string()) } else { None };
        if length.is_some() {
            self.symbol(']')?;
        }
        Some(Field { doc: String::new(), name, of, pointer: None, length })
    }

    /// A type, a pointer's star and a name.
    fn parameter(&mut self) -> Option<Field> {
        let is_const = self.tokens.first()?.is == Kind::Word("const".to_string());
        if is_const {
            self.next();
        }
        let of = self.a_type()?.to_string();
        let pointer = self.takes('*').then_some(if is_const { Pointer::Const } else { Pointer::Mut });
        let name = self.word()?.to_string();
        Some(Field { doc: String::new(), name, of, pointer, length: None })
    }

    fn function(&mut self, result: &str) -> Option<()> {
        let doc = self.doc_above();
        is_type(result).then_some(())?;
        let name = self.word()?.to_string();
        self.symbol('(')?;
        let mut parameters = Vec::new();
        if self.tokens.first()?.is == Kind::Word("void".to_string()) {
            self.next();
        } else {
            parameters.push(self.parameter()?);
            while self.takes(',') {
                parameters.push(self.parameter()?);
            }
        }
        self.symbol(')')?;
        self.items.push(Item::Function { doc, name, result: result.to_string(), parameters });
        self.symbol(';')
    }

    /// Passes over a function that the header itself defines.
    fn skip_body(&mut self) -> Option<()> {
        self.keyword("inline")?;
        let mut depth = 0;
        loop {
            match self.next()? {
                Kind::Symbol('{') => depth += 1,
                Kind::Symbol('}') if depth == 1 => return Some(()),
                Kind::Symbol('}') => depth -= 1,
                _ => {}
            }
        }
    }
}

/// Whether a word is a type that the header uses: a number's, or one of its own.
fn is_type(word: &str) -> bool {
    word.starts_with("codwalet_") || TYPES.iter().any(|(c, _)| *c == word)
}

/// Whether a directive declares nothing for Rust: the guards, what C includes, and the ends of macros.
fn is_passed_over(directive: &str) -> bool {
    let directive = directive.trim_end();
    ["#ifndef CODWALET_H", "#define CODWALET_H", "#ifdef __cplusplus", "#endif"].contains(&directive)
        || ["#include <", "#undef "].iter().any(|start| directive.starts_with(start))
}

/// The value of a number, which means the same in C and in Rust: decimal, or a product of two names.
fn read_value(value: &str) -> Option<String> {
    let is_decimal =
        |word: &str| word.bytes().all(|byte| byte.is_ascii_digit()) && (word == "0" || !word.starts_with('0'));
    if !value.is_empty() && is_decimal(value) {
        return Some(value.to_string());
    }
    let (one, other) = value.strip_prefix('(')?.strip_suffix(')')?.split_once(" * ")?;
    Some(format!("{} * {}", own(one)?, own(other)?))
}

/// A name without the prefix that all names of the header have.
pub fn own(name: &str) -> Option<&str> {
    name.strip_prefix("CODWALET_")
}
