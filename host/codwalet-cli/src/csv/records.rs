//! The lines of a CSV text, cut into fields.

use super::{Column, QuoteWrong, Wrong};
use std::borrow::Cow;

/// The fields of a line, without the blanks around them and their quotes.
pub type Record<'a> = Vec<Cow<'a, str>>;

/// The lines of a text that have fields, each with its number. Blank lines and comments are passed over. A field in
/// quotes may go on over several lines; its line is then the one that it starts on.
#[derive(Clone, Debug)]
pub struct Records<'a> {
    rest: &'a str,
    /// The line that `rest` starts on.
    line: usize,
    separator: char,
}

/// A field with a wrong quote.
#[derive(Clone, Debug, PartialEq, Eq)]
pub struct Misquoted {
    /// The field's place in its line.
    pub place: usize,
    /// The field, as it is written.
    word: String,
    why: QuoteWrong,
}

impl Misquoted {
    /// The mistake, in a column if that is known.
    pub fn in_column(self, column: Option<Column>) -> Wrong {
        Wrong::Quote { column, word: self.word, why: self.why }
    }
}

/// What stands behind a field.
#[derive(Clone, Copy, PartialEq, Eq)]
enum End {
    Separator,
    Line,
}

impl<'a> Records<'a> {
    /// The records of a text whose fields are apart by a separator.
    pub fn new(text: &'a str, separator: char) -> Records<'a> {
        // Spreadsheets put a byte order mark before the text.
        Records { rest: text.strip_prefix('\u{feff}').unwrap_or(text), line: 1, separator }
    }

    /// The line that is read next, up to its end.
    fn this_line(&self) -> &'a str {
        self.rest.split('\n').next().unwrap_or("")
    }

    /// Goes on by some bytes.
    fn pass(&mut self, length: usize) -> &'a str {
        let (passed, rest) = self.rest.split_at(length);
        self.line += passed.matches('\n').count();
        self.rest = rest;
        passed
    }

    /// Goes on to the next line.
    fn pass_line(&mut self) {
        self.pass((self.this_line().len() + 1).min(self.rest.len()));
    }

    /// The length of the blanks that come next within a line.
    fn blanks(&self) -> usize {
        let is_blank = |character: char| character.is_whitespace() && character != '\n' && character != self.separator;
        self.rest.len() - self.rest.trim_start_matches(is_blank).len()
    }

    fn record(&mut self) -> Result<Record<'a>, Misquoted> {
        let mut fields = Vec::new();
        loop {
            self.pass(self.blanks());
            let start = self.rest;
            let misquoted = |why, word: &str| Misquoted { place: fields.len(), word: word.to_string(), why };
            let field = self.field().map_err(|why| misquoted(why, self.written_from(start)))?;
            let end = self.end().map_err(|why| misquoted(why, self.written_from(start)))?;
            fields.push(field);
            if end == End::Line {
                return Ok(fields);
            }
        }
    }

    /// The length of what is left of a field without quotes.
    fn field_length(&self) -> usize {
        self.rest.find([self.separator, '\n']).unwrap_or(self.rest.len())
    }

    /// What is written from an earlier place up to the end of the field.
    fn written_from(&self, start: &'a str) -> &'a str {
        let passed = start.len() - self.rest.len();
        start[..passed + self.field_length()].trim_end()
    }

    fn field(&mut self) -> Result<Cow<'a, str>, QuoteWrong> {
        if self.rest.starts_with('"') {
            return self.quoted();
        }
        let length = self.field_length();
        Ok(Cow::Borrowed(self.pass(length).trim_end()))
    }

    /// A field in quotes, where two quotes stand for one.
    fn quoted(&mut self) -> Result<Cow<'a, str>, QuoteWrong> {
        let mut field = String::new();
        let mut from = 1;
        loop {
            let length = self.rest[from..].find('"').ok_or(QuoteWrong::Open)?;
            field += &self.rest[from..from + length];
            from += length + 1;
            if !self.rest[from..].starts_with('"') {
                self.pass(from);
                return Ok(Cow::Owned(field));
            }
            field.push('"');
            from += 1;
        }
    }

    /// Passes what ends a field.
    fn end(&mut self) -> Result<End, QuoteWrong> {
        self.pass(self.blanks());
        match self.rest.chars().next() {
            None => Ok(End::Line),
            Some('\n') => {
                self.pass(1);
                Ok(End::Line)
            }
            Some(character) if character == self.separator => {
                self.pass(character.len_utf8());
                Ok(End::Separator)
            }
            Some(_) => Err(QuoteWrong::NotAtEnd),
        }
    }
}

impl<'a> Iterator for Records<'a> {
    type Item = (usize, Result<Record<'a>, Misquoted>);

    fn next(&mut self) -> Option<Self::Item> {
        while !self.rest.is_empty() {
            let line = self.line;
            if is_passed_over(self.this_line(), self.separator) {
                self.pass_line();
                continue;
            }
            match self.record() {
                // Spreadsheets have lines of separators alone below the last one.
                Ok(fields) if fields.iter().all(|field| field.is_empty()) => continue,
                Ok(fields) => return Some((line, Ok(fields))),
                Err(misquoted) => {
                    self.pass_line();
                    return Some((line, Err(misquoted)));
                }
            }
        }
        None
    }
}

/// Whether a line is blank or a comment. A separator is no blank before a comment: it ends an empty field.
pub fn is_passed_over(line: &str, separator: char) -> bool {
    let is_blank = |character: char| character.is_whitespace() && character != separator;
    line.trim_start_matches(is_blank).starts_with('#') || line.trim().is_empty()
}

#[cfg(test)]
mod tests {
    use super::*;

    /// The records of a text, `|` between fields.
    fn shown(text: &str, separator: char) -> Vec<(usize, String)> {
        let shown = |fields: Record| fields.join("|");
        let misquoted = |Misquoted { place, word, why }: Misquoted| format!("{place} {word} {why:?}");
        let line = |(line, fields): (usize, Result<Record, Misquoted>)| (line, fields.map_or_else(misquoted, shown));
        Records::new(text, separator).map(line).collect()
    }

    fn lines(list: &[(usize, &str)]) -> Vec<(usize, String)> {
        list.iter().map(|&(line, text)| (line, text.to_string())).collect()
    }

    #[test]
    fn fields_are_cut_at_separators() {
        assert_eq!(shown("a, b ,\n\r\n# x,y\n ,, \nc,d\r\n", ','), lines(&[(1, "a|b|"), (5, "c|d")]));
        assert_eq!(shown("a\n \t# x,y\n,#b", ','), lines(&[(1, "a"), (3, "|#b")]));
        assert_eq!(shown(" # x\n\t#b\tc", '\t'), lines(&[(2, "|#b|c")]));
        assert_eq!(shown("\u{feff}1;2,5", ';'), lines(&[(1, "1|2,5")]));
        assert_eq!(shown("1\t\t 3", '\t'), lines(&[(1, "1||3")]));
    }

    #[test]
    fn quotes_hold_separators_quotes_and_lines() {
        let text = "\"a \"\"quoted\"\" field\" , \"x,y\"\n\"two\nlines\",\"\"\nb\"c,5\" high\n";
        let read = lines(&[(1, "a \"quoted\" field|x,y"), (2, "two\nlines|"), (4, "b\"c|5\" high")]);
        assert_eq!(shown(text, ','), read);
    }

    #[test]
    fn reading_goes_on_behind_a_wrong_quote() {
        assert_eq!(shown("a\n \"b\"c ,d\ne\n", ','), lines(&[(1, "a"), (2, "0 \"b\"c NotAtEnd"), (3, "e")]));
        assert_eq!(shown("a\n1,\"b;2\r\nc\n", ','), lines(&[(1, "a"), (2, "1 \"b;2 Open"), (3, "c")]));
    }
}
