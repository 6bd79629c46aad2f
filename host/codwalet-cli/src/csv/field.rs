//! Fields of a CSV text: whole numbers and coordinates, within the limits of their column.

use super::{Column, FieldWrong, Wrong};
use crate::plan::coordinate::{self, Unreadable, is_digits};

/// The most zeros behind a dot of a whole number. Three may be meant for thousands, as in `1.000`.
const ZEROS: usize = 2;

/// The value of a field, within its column's limits.
pub fn read(column: Column, word: &str) -> Result<i64, Wrong> {
    let value = match column.axis() {
        _ if word.is_empty() => Err(FieldWrong::Empty),
        Some(axis) => coordinate::read(word, axis).map(i64::from).or_else(|why| match why {
            // What no type holds is beyond any limit.
            Unreadable::TooLarge => Ok(i64::MAX),
            why => Err(FieldWrong::NotACoordinate(why)),
        }),
        None => read_whole(word),
    };
    let within = |value| if column.limits().contains(&value) { Ok(value) } else { Err(FieldWrong::OutOfLimits) };
    value.and_then(within).map_err(|why| Wrong::Field { column, word: word.to_string(), why })
}

/// A whole number in digits; spreadsheets write zeros behind a dot.
fn read_whole(word: &str) -> Result<i64, FieldWrong> {
    let (whole, decimals) = word.split_once('.').unwrap_or((word, "0"));
    if !is_digits(whole.strip_prefix('-').unwrap_or(whole)) || !is_digits(decimals) {
        return Err(FieldWrong::NotDigits);
    }
    if whole.starts_with('-') {
        return Err(FieldWrong::Negative);
    }
    if decimals.len() > ZEROS || decimals.bytes().any(|digit| digit != b'0') {
        return Err(FieldWrong::NotWhole);
    }
    // Digits that don't parse are more than any limit.
    Ok(whole.parse().unwrap_or(i64::MAX))
}

#[cfg(test)]
mod tests {
    use super::*;

    #[test]
    fn whole_numbers_are_in_digits() {
        assert_eq!(["5", "5.0", "005.00", "0"].map(read_whole), [Ok(5), Ok(5), Ok(5), Ok(0)]);
        assert_eq!(read_whole("99999999999999999999"), Ok(i64::MAX));
        for word in ["x", "1e3", "+5", "5.", ".5", "5.0.0", "1,000", "- 5", "-x", "5,0", "٥"] {
            assert_eq!(read_whole(word), Err(FieldWrong::NotDigits), "{word}");
        }
        assert_eq!(["-5", "-0.5", "-0"].map(read_whole), [Err(FieldWrong::Negative); 3]);
        assert_eq!(["5.5", "0.01", "1.000"].map(read_whole), [Err(FieldWrong::NotWhole); 3]);
    }
}
