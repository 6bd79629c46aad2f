//! The words of a plan's line.
//!
//! Blanks are between words, and `#` at the start of a word starts a comment. A word in double quotes may hold blanks
//! and `#`; in it, `\"` is a quote and `\\` a backslash. Words are bytes, since the names of files need not be text.

use super::Wrong;
use super::coordinate::{self, Axis, Unreadable, is_digits};
use crate::shown::shown;
use std::ffi::OsStr;
use std::os::unix::ffi::OsStrExt;
use std::path::Path;
use std::str::FromStr;

/// A word of a line, as messages show it, and what is wrong with it.
pub type Fault = (String, Wrong);

/// A word, without its quotes.
#[derive(Clone, Debug, PartialEq, Eq)]
pub struct Word(Vec<u8>);

impl Word {
    /// The word's bytes.
    pub fn bytes(&self) -> &[u8] {
        &self.0
    }

    /// The word as text, if it is text.
    pub fn as_str(&self) -> Option<&str> {
        std::str::from_utf8(&self.0).ok()
    }

    /// The word as the name of a file.
    pub fn path(&self) -> &Path {
        Path::new(OsStr::from_bytes(&self.0))
    }

    /// The word as text; what is none is replaced.
    pub fn text(&self) -> String {
        String::from_utf8_lossy(&self.0).into_owned()
    }

    /// The word for people to read.
    pub fn shown(&self) -> String {
        shown(self.path())
    }

    /// The word as a plan has it, in quotes if it needs them.
    pub fn written(&self) -> String {
        let shown = self.shown();
        if !shown.is_empty() && !shown.starts_with(['#', '"']) && !shown.contains(char::is_whitespace) {
            return shown;
        }
        format!("\"{}\"", shown.replace('\\', "\\\\").replace('"', "\\\""))
    }
}

/// The words of a line.
pub fn split(line: &[u8]) -> Result<Vec<Word>, Fault> {
    let mut words = Vec::new();
    let mut rest = line.trim_ascii_start();
    while !rest.is_empty() && rest[0] != b'#' {
        let (word, behind) = if rest[0] == b'"' { quoted(rest)? } else { plain(rest) };
        if behind.first().is_some_and(|byte| !byte.is_ascii_whitespace()) {
            return Err((word.shown(), Wrong::AfterQuote));
        }
        words.push(word);
        rest = behind.trim_ascii_start();
    }
    Ok(words)
}

/// The first word of a text, and what is behind it.
fn plain(text: &[u8]) -> (Word, &[u8]) {
    let length = text.iter().position(u8::is_ascii_whitespace).unwrap_or(text.len());
    (Word(text[..length].to_vec()), &text[length..])
}

/// The word in quotes that a text starts with, and what is behind it.
fn quoted(text: &[u8]) -> Result<(Word, &[u8]), Fault> {
    let mut word = Vec::new();
    let mut rest = &text[1..];
    loop {
        rest = match rest {
            [b'"', behind @ ..] => return Ok((Word(word), behind)),
            [b'\\', byte @ (b'"' | b'\\'), behind @ ..] | [byte, behind @ ..] => {
                word.push(*byte);
                behind
            }
            [] => return Err((Word(text.to_vec()).shown(), Wrong::OpenQuote)),
        }
    }
}

/// A line's words, taken one after the other.
pub struct Words<'a> {
    rest: &'a [Word],
    /// The word taken last, as messages show it.
    last: String,
}

impl<'a> Words<'a> {
    /// The words of a line, none of them taken.
    pub fn new(words: &'a [Word]) -> Words<'a> {
        Words { rest: words, last: String::new() }
    }

    /// The words that are not taken.
    pub fn rest(&self) -> &'a [Word] {
        self.rest
    }

    /// Takes a word; `due` says what it is for.
    pub fn next(&mut self, due: &'static str) -> Result<&'a Word, Fault> {
        let (word, rest) = self.rest.split_first().ok_or_else(|| (self.last.clone(), Wrong::Missing(due)))?;
        (self.rest, self.last) = (rest, word.shown());
        Ok(word)
    }

    /// Takes an unsigned whole number, up to the largest of its type.
    pub fn number<T: FromStr + Into<u32>>(&mut self, due: &'static str, most: T) -> Result<T, Fault> {
        let word = self.next(due)?;
        let digits = word.as_str().filter(|word| is_digits(word)).ok_or_else(|| self.wrong(Wrong::NotANumber(due)))?;
        digits.parse().map_err(|_| self.wrong(Wrong::TooLarge { due, most: most.into() }))
    }

    /// Takes a coordinate.
    pub fn coordinate(&mut self, due: &'static str, axis: Axis) -> Result<i32, Fault> {
        let text = self.next(due)?.as_str();
        let value = text.map_or(Err(Unreadable::NotACoordinate), |text| coordinate::read(text, axis));
        value.map_err(|why| self.wrong(Wrong::NotACoordinate(due, why)))
    }

    /// Ends the line.
    pub fn end(mut self) -> Result<(), Fault> {
        match self.next("") {
            Ok(_) => Err(self.wrong(Wrong::Extra)),
            Err(_) => Ok(()),
        }
    }

    /// Something that is wrong with the word taken last.
    pub fn wrong(&self, wrong: Wrong) -> Fault {
        (self.last.clone(), wrong)
    }
}

#[cfg(test)]
mod tests {
    use super::*;

    fn words_of(line: &str) -> Vec<String> {
        let words = split(line.as_bytes()).expect("the line has words");
        words.iter().map(|word| word.as_str().expect("the word is text").to_string()).collect()
    }

    #[test]
    fn lines_are_cut_into_words() {
        assert_eq!(words_of(" map\ta#b  c\"d \\e# x # y \"z\r"), ["map", "a#b", "c\"d", "\\e#", "x"]);
        assert_eq!(words_of("\"a # b\" \"\" \"say \\\"x\\\" \\\\ y\""), ["a # b", "", "say \"x\" \\ y"]);
        assert!(words_of("  # all comment \"").is_empty());
    }

    #[test]
    fn quotes_that_go_wrong() {
        let fault = |line: &str| split(line.as_bytes()).expect_err("the line is wrong");
        assert_eq!(fault("map \"a b"), ("\"a b".to_string(), Wrong::OpenQuote));
        assert_eq!(fault("map \"a\\\""), ("\"a\\\"".to_string(), Wrong::OpenQuote));
        assert_eq!(fault("map \"a\"b"), ("a".to_string(), Wrong::AfterQuote));
    }

    #[test]
    fn words_are_written_as_a_plan_has_them() {
        for line in ["a#b c\"d \\", "\"#a\" \"b c\" \"\" \"\\\"\\\\\\\" d\""] {
            let written: Vec<String> =
                split(line.as_bytes()).expect("the line has words").iter().map(Word::written).collect();
            assert_eq!(written.join(" "), line);
        }
        assert_eq!(Word(b"a\xff\x1bb".to_vec()).written(), "a\u{fffd}\u{fffd}b");
    }
}
