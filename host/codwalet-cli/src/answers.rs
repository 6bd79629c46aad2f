//! Answers for people, as tables and lines, and for programs, as JSON objects.

mod areas;
mod json;
mod object;
mod table;

pub use areas::{areas_lines, map_json, refused_words, size_words};
pub use codwalet::grouped;
pub use json::json;
pub use table::{table_head, table_lines, width_of};

/// A count and what is counted, in the plural where it is due.
pub fn counted(count: u64, one: &'static str, more: &'static str) -> String {
    format!("{} {}", grouped(count), word_for(count, one, more))
}

/// The word for one or more of something.
pub fn word_for(count: u64, one: &'static str, more: &'static str) -> &'static str {
    if count == 1 { one } else { more }
}

#[cfg(test)]
mod tests {
    use super::*;

    #[test]
    fn one_is_singular() {
        assert_eq!([0, 1, 2_000].map(|count| counted(count, "cell", "cells")), ["0 cells", "1 cell", "2,000 cells"]);
    }
}
