//! Takes a C header apart into tokens.

/// A token, and the line on which it ends.
#[derive(Clone, Debug, PartialEq, Eq)]
pub struct Token {
    pub line: usize,
    pub is: Kind,
}

#[derive(Clone, Debug, PartialEq, Eq)]
pub enum Kind {
    /// A comment's words, on one line.
    Comment(String),
    /// A line that starts with #, with the lines that it goes on in.
    Directive(String),
    /// A name or a number.
    Word(String),
    /// What stands between two quotes. Nothing in it is escaped.
    Text(String),
    Symbol(char),
}

/// The tokens of a text whose first line has a number, or the line of what is no token here.
pub fn tokens(text: &str, first_line: usize) -> Result<Vec<Token>, usize> {
    let mut tokens = Vec::new();
    let (mut rest, mut line) = (text, first_line);
    while let Some(first) = rest.chars().next() {
        let (is, length) = match first {
            _ if first.is_whitespace() => (None, first.len_utf8()),
            '/' => comment(rest).ok_or(line)?,
            '#' => directive(rest),
            '"' => quoted(rest).ok_or(line)?,
            _ if is_of_word(first) => word(rest),
            _ if "{}()[]*=,:;".contains(first) => (Some(Kind::Symbol(first)), 1),
            _ => return Err(line),
        };
        let ends = line + rest[..length].trim_end().matches('\n').count();
        tokens.extend(is.map(|is| Token { line: ends, is }));
        line += rest[..length].matches('\n').count();
        rest = &rest[length..];
    }
    Ok(tokens)
}

/// What a token is, if it counts, and its length.
type Taken = (Option<Kind>, usize);

fn comment(rest: &str) -> Option<Taken> {
    let body = rest.strip_prefix("/*")?;
    let end = body.find("*/")?;
    let lines = body[..end].lines().map(|line| line.trim().trim_start_matches('*'));
    let words: Vec<&str> = lines.flat_map(str::split_whitespace).collect();
    Some((Some(Kind::Comment(words.join(" "))), end + 4))
}

fn directive(rest: &str) -> Taken {
    let mut length = 0;
    for line in rest.split_inclusive('\n') {
        length += line.len();
        if !line.trim_end().ends_with('\\') {
            break;
        }
    }
    (Some(Kind::Directive(rest[..length].replace("\\\n", "\n"))), length)
}

fn quoted(rest: &str) -> Option<Taken> {
    let text = rest[1..].split_once('"')?.0;
    let is_plain = !text.contains(['\\', '\n']);
    is_plain.then(|| (Some(Kind::Text(text.to_string())), text.len() + 2))
}

fn word(rest: &str) -> Taken {
    let length = rest.find(|next| !is_of_word(next)).unwrap_or(rest.len());
    (Some(Kind::Word(rest[..length].to_string())), length)
}

fn is_of_word(letter: char) -> bool {
    letter.is_ascii_alphanumeric() || letter == '_'
}
