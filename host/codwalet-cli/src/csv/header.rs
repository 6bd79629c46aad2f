//! The header of a CSV text: which column is where, and what is between fields.

use super::records::{Record, Records, is_passed_over};
use super::{Column, Found, Wrong};
use crate::answers::word_for;
use crate::shown::start_of;

/// What may be between fields.
const SEPARATORS: [char; 3] = [',', ';', '\t'];

/// Where the columns are.
#[derive(Clone, Debug, PartialEq, Eq)]
pub struct Header {
    /// How many fields each line has.
    pub width: usize,
    /// The columns that a map has no use for; those without a name are not among them.
    unused: Vec<String>,
    /// The places of the columns, in the order of `Column::ALL`.
    places: Vec<usize>,
}

impl Header {
    /// The place of a column among a line's fields.
    pub fn place(&self, column: Column) -> usize {
        self.places[column as usize]
    }

    /// The column at a place, if a map has a use for it.
    pub fn column_at(&self, place: usize) -> Option<Column> {
        Column::ALL.into_iter().find(|&column| self.place(column) == place)
    }

    /// The note on columns that are not used.
    pub fn unused_note(&self) -> Option<String> {
        let names: Vec<String> = self.unused.iter().map(|name| format!("'{}'", start_of(name))).collect();
        let count = names.len() as u64;
        let (noun, verb) = (word_for(count, "column", "columns"), word_for(count, "is", "are"));
        (count > 0).then(|| format!("{noun} {} {verb} not used", names.join(", ")))
    }

    /// The header in some names, or all that is wrong with it.
    fn new(names: &Record) -> Result<Header, Vec<Wrong>> {
        let places_of = |column: Column| (0..names.len()).filter(move |&place| column.is_named(&names[place]));
        let lacking: Vec<Column> =
            Column::ALL.into_iter().filter(|&column| places_of(column).next().is_none()).collect();
        let mut wrong: Vec<Wrong> = Vec::new();
        if !lacking.is_empty() {
            wrong.push(Wrong::HeaderLacks { header: names.join(" "), lacking });
        }
        let twice = Column::ALL.into_iter().filter(|&column| places_of(column).count() > 1);
        wrong.extend(twice.map(Wrong::ColumnTwice));
        if !wrong.is_empty() {
            return Err(wrong);
        }
        let is_unused = |name: &str| !name.is_empty() && column_named(name).is_none();
        let unused = names.iter().filter(|name| is_unused(name)).map(ToString::to_string).collect();
        let places = Column::ALL.into_iter().flat_map(places_of).collect();
        Ok(Header { width: names.len(), unused, places })
    }
}

/// The header of a text, and the lines below it; else all that is wrong with the header, and its line.
pub fn read(text: &str) -> Result<(Header, Records<'_>), Vec<Found>> {
    let mut records = Records::new(text, separator_of(text));
    let (line, names) = records.next().unwrap_or((1, Ok(Vec::new())));
    let header = names.map_err(|misquoted| vec![misquoted.in_column(None)]).and_then(|names| Header::new(&names));
    match header {
        Ok(header) => Ok((header, records)),
        Err(wrong) => Err(wrong.into_iter().map(|wrong| (line, wrong)).collect()),
    }
}

/// The separator by which the header of a text names the most columns.
fn separator_of(text: &str) -> char {
    // The last of equals is taken; a header that names nothing is then cut at commas.
    SEPARATORS.into_iter().rev().max_by_key(|&separator| columns_named(text, separator)).unwrap_or(',')
}

/// How many columns the header of a text names if its fields are apart by a separator.
fn columns_named(text: &str, separator: char) -> usize {
    let names = Records::new(text, separator).next().and_then(|(_, fields)| fields.ok()).unwrap_or_default();
    names.iter().filter(|name| column_named(name).is_some()).count()
}

fn column_named(name: &str) -> Option<Column> {
    Column::ALL.into_iter().find(|column| column.is_named(name))
}

/// Whether bytes start with a header: the first line that is neither blank nor a comment names a column, and up to its
/// end all is text.
pub fn is_header_first(bytes: &[u8]) -> bool {
    let is_text = |line: &[u8]| !line.iter().any(|&byte| byte.is_ascii_control() && byte != b'\t' && byte != b'\r');
    let mut lines = bytes.strip_prefix("\u{feff}".as_bytes()).unwrap_or(bytes).split(|&byte| byte == b'\n');
    loop {
        let line = lines.next().filter(|line| is_text(line)).map(std::str::from_utf8);
        match line {
            // Above the header, tabs may be blanks before a comment.
            Some(Ok(line)) if is_passed_over(line, ',') => continue,
            Some(Ok(line)) => return columns_named(line, separator_of(line)) > 0,
            _ => return false,
        }
    }
}

#[cfg(test)]
mod tests {
    use super::*;

    #[test]
    fn headers_are_found_below_comments() {
        let headers = ["area;x", "\u{feff}# by hand\n\r\n\t # too\n Weight ,name\r\n7", "\"people\"\tb", "row"];
        for text in headers {
            assert!(is_header_first(text.as_bytes()), "{text:?}");
        }
    }

    #[test]
    fn other_bytes_are_no_header() {
        let others = [&b""[..], b"\n\n", b"areas,rows", b"area x", b"7,1,0", b"#area\n", b"area,\xff", b"area,\x01"];
        for bytes in others.iter().chain([&&b"\n#\x00\narea"[..], &&b"\n\x07\x00\narea,row"[..]]) {
            assert!(!is_header_first(bytes), "{bytes:?}");
        }
    }
}
