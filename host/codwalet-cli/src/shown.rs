//! Texts from files and command lines, as people are shown them.

use std::ffi::OsStr;

/// Characters of a long text that are shown.
const LONGEST: usize = 60;

/// A text for people to read: what is not UTF-8 is replaced, and so is what would move a terminal's cursor.
pub fn shown(text: impl AsRef<OsStr>) -> String {
    text.as_ref().to_string_lossy().replace(char::is_control, "\u{fffd}")
}

/// A text for people to read, of which the start tells enough.
pub fn start_of(text: &str) -> String {
    match text.char_indices().nth(LONGEST) {
        Some((length, _)) => shown(&text[..length]) + "..",
        None => shown(text),
    }
}

#[cfg(test)]
mod tests {
    use super::*;
    use std::os::unix::ffi::OsStrExt;

    #[test]
    fn nothing_shown_moves_the_cursor() {
        assert_eq!(shown(OsStr::from_bytes(b"a\xff\x1b[2J\nb\x7f")), "a\u{fffd}\u{fffd}[2J\u{fffd}b\u{fffd}");
        assert_eq!([shown("é \u{9b}"), start_of("\r")], ["é \u{fffd}", "\u{fffd}"]);
    }

    #[test]
    fn long_texts_are_cut() {
        let text = |length| "é".repeat(length);
        assert_eq!([60, 61].map(|length| start_of(&text(length))), [text(60), text(60) + ".."]);
    }
}
