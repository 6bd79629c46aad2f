//! Lists of mistakes, which may be long.

use codwalet::grouped;
use std::fmt;

/// Mistakes that are named; of the others the count is said.
const NAMED: usize = 100;

/// Mistakes on a line each: the first hundred, and how many more there are.
pub(crate) fn listed<M: fmt::Display>(mistakes: &[M]) -> String {
    let mut lines: Vec<String> = mistakes.iter().take(NAMED).map(ToString::to_string).collect();
    if mistakes.len() > NAMED {
        lines.push(format!("and {} more", grouped((mistakes.len() - NAMED) as u64)));
    }
    lines.join("\n")
}

#[cfg(test)]
mod tests {
    use super::*;

    #[test]
    fn the_first_hundred_are_named() {
        let last_lines =
            |count| listed(&(1..=count).collect::<Vec<u32>>()).lines().skip(99).collect::<Vec<_>>().join("|");
        assert_eq!([99, 100, 101, 1_200].map(last_lines), ["", "100", "100|and 1 more", "100|and 1,100 more"]);
    }
}
