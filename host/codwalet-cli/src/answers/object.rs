//! JSON objects being written. Every number is below 2^53, so that any reader takes it exactly.

use codwalet::Refusal;

/// A JSON object being written.
pub struct Object(String);

impl Object {
    /// An object without fields.
    pub fn new() -> Object {
        Object("{".to_string())
    }

    /// A field whose value is JSON already.
    pub fn value(&mut self, name: &str, value: String) {
        if self.0.len() > 1 {
            self.0.push(',');
        }
        self.0 += &format!("{}:{value}", quoted(name));
    }

    /// A field with a number.
    pub fn number(&mut self, name: &str, number: impl Into<i128>) {
        self.value(name, number.into().to_string());
    }

    /// A field with a text.
    pub fn text(&mut self, name: &str, text: &str) {
        self.value(name, quoted(text));
    }

    /// The object, with all its fields.
    pub fn end(mut self) -> String {
        self.0.push('}');
        self.0
    }

    /// A refusal, to which more fields may be added.
    pub fn refusal(refusal: &Refusal) -> Object {
        let mut object = Object::new();
        object.number("number", refusal.number());
        object.text("words", refusal.words());
        if let Refusal::IllFormed { flaw: Some(flaw) } = refusal {
            object.text("reason", &flaw.to_string());
        }
        object
    }
}

/// A text in quotes.
pub fn quoted(text: &str) -> String {
    let mut quoted = "\"".to_string();
    for character in text.chars() {
        match character {
            '"' | '\\' => quoted.extend(['\\', character]),
            control if control.is_control() => quoted += &format!("\\u{:04x}", u32::from(character)),
            _ => quoted.push(character),
        }
    }
    quoted.push('"');
    quoted
}

/// A list of values that are JSON already.
pub fn array(values: impl Iterator<Item = String>) -> String {
    format!("[{}]", values.collect::<Vec<_>>().join(","))
}

#[cfg(test)]
mod tests {
    use super::*;

    #[test]
    fn texts_are_escaped() {
        assert_eq!(quoted("a \"b\"\\\n\u{9b}"), "\"a \\\"b\\\"\\\\\\u000a\\u009b\"");
    }
}
