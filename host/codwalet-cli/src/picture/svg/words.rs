//! Text in the picture: how wide it is, where its lines break, and its elements.

use super::INK;

/// Letters of a size in the picture's units.
#[derive(Clone, Copy, Debug, PartialEq)]
pub(super) struct Font {
    pub size: f64,
    pub bold: bool,
}

pub(super) const HEADING: Font = Font { size: 20.0, bold: true };
pub(super) const PLAIN: Font = Font { size: 13.0, bold: false };
pub(super) const STRONG: Font = Font { size: 13.0, bold: true };
pub(super) const SMALL: Font = Font { size: 12.0, bold: false };

impl Font {
    /// How wide numbers and sentences are, at most. The font is the reader's, so this goes by the digits of DejaVu
    /// Sans, which are 0.636 em wide and 0.696 em in bold; those of Liberation Sans, Arial and Helvetica are 0.556 em.
    pub(super) fn width(self, words: &str) -> f64 {
        let em = if self.bold { 0.7 } else { 0.64 };
        em * self.size * words.chars().count() as f64
    }

    /// Words in lines that are no wider than a width; a word that is wider by itself has a line of its own.
    pub(super) fn wrap(self, words: &str, width: f64) -> Vec<String> {
        let mut lines: Vec<String> = Vec::new();
        for word in words.split(' ') {
            match lines.last_mut() {
                Some(line) if self.width(line) + self.width(word) + self.width(" ") <= width => {
                    *line += " ";
                    *line += word;
                }
                _ => lines.push(word.to_string()),
            }
        }
        lines
    }

    /// Words in ink that start at a point.
    pub(super) fn element(self, point: (f64, f64), words: &str) -> String {
        self.text(point, "start", INK, words)
    }

    /// Words that end at a point.
    pub(super) fn ending(self, point: (f64, f64), colour: &str, words: &str) -> String {
        self.text(point, "end", colour, words)
    }

    /// Words with their middle at a point. Figures are some 0.72 em high.
    pub(super) fn centred(self, (x, y): (f64, f64), colour: &str, words: &str) -> String {
        self.text((x, y + 0.36 * self.size), "middle", colour, words)
    }

    fn text(self, (x, y): (f64, f64), anchor: &str, colour: &str, words: &str) -> String {
        let (x, y, size) = (tenths(x), tenths(y), tenths(self.size));
        let weight = if self.bold { " font-weight=\"bold\"" } else { "" };
        let place = format!("x=\"{x}\" y=\"{y}\" text-anchor=\"{anchor}\"");
        format!("<text {place} font-size=\"{size}\"{weight} fill=\"{colour}\">{}</text>", escaped(words))
    }
}

/// A length to the nearest tenth, which is as fine as can be seen.
pub(super) fn tenths(length: f64) -> f64 {
    (length * 10.0).round() / 10.0
}

/// Words as the content of an element.
pub(super) fn escaped(words: &str) -> String {
    words.replace('&', "&amp;").replace('<', "&lt;").replace('>', "&gt;")
}

#[cfg(test)]
mod tests {
    use super::*;

    #[test]
    fn lines_break_between_words() {
        let font = Font { size: 10.0, bold: false };
        assert_eq!(font.wrap("one two three", 45.0), ["one two", "three"]);
        assert_eq!(font.wrap("one two three", 44.0), ["one", "two", "three"]);
        assert_eq!(font.wrap("one", 1.0), ["one"]);
    }

    #[test]
    fn words_are_escaped() {
        assert_eq!(escaped("a < b & c > d"), "a &lt; b &amp; c &gt; d");
    }
}
