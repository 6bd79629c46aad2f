//! Latitudes and longitudes as people write them, in plans and in CSV files.
//!
//! A whole number is hundredths of an arc second. A number with a dot or a letter is degrees: `39.5N`, `7S`, `-100.25`.
//! Both are negative to the south and west where no letter says so. Degrees are rounded to the nearest hundredth of an
//! arc second, halves away from zero.

use std::fmt;

/// Hundredths of an arc second in a degree.
const DEGREE: i64 = 360_000;

/// Which of the two coordinates is read.
#[derive(Clone, Copy, Debug, PartialEq, Eq)]
pub enum Axis {
    Latitude,
    Longitude,
}

impl Axis {
    /// The letters for positive and negative degrees.
    fn letters(self) -> (char, char) {
        match self {
            Axis::Latitude => ('N', 'S'),
            Axis::Longitude => ('E', 'W'),
        }
    }
}

/// Why a word is no coordinate.
#[derive(Clone, Copy, Debug, PartialEq, Eq)]
#[non_exhaustive]
pub enum Unreadable {
    /// Neither a whole number nor decimal degrees.
    NotACoordinate,
    /// A letter of the other axis.
    WrongLetter(Axis),
    /// More than the type i32 can hold.
    TooLarge,
}

/// What a coordinate is, for those who wrote something else.
const RULE: &str = "a whole number is hundredths of an arc second, a number with a dot or a letter is degrees";

impl fmt::Display for Unreadable {
    fn fmt(&self, out: &mut fmt::Formatter) -> fmt::Result {
        match self {
            Unreadable::NotACoordinate => write!(out, "is no coordinate: {RULE}"),
            Unreadable::WrongLetter(Axis::Latitude) => write!(out, "is a longitude where a latitude is due"),
            Unreadable::WrongLetter(Axis::Longitude) => write!(out, "is a latitude where a longitude is due"),
            Unreadable::TooLarge => write!(out, "is not within {} to {}: {RULE}", i32::MIN, i32::MAX),
        }
    }
}

impl std::error::Error for Unreadable {}

/// A coordinate in hundredths of an arc second. Document 01's limits are not looked at.
///
/// # Errors
/// Why the word is none.
pub fn read(word: &str, axis: Axis) -> Result<i32, Unreadable> {
    let (positive, negative) = axis.letters();
    let value = match word.chars().last().map(|last| last.to_ascii_uppercase()) {
        Some(letter) if letter == positive => read_degrees(&word[..word.len() - 1])?,
        Some(letter) if letter == negative => -read_degrees(&word[..word.len() - 1])?,
        Some('N' | 'S' | 'E' | 'W') => return Err(Unreadable::WrongLetter(axis)),
        _ => match word.strip_prefix('-') {
            Some(size) => -read_unsigned(size)?,
            None => read_unsigned(word)?,
        },
    };
    i32::try_from(value).map_err(|_| Unreadable::TooLarge)
}

/// Whether a word is a whole number, which is not taken for degrees.
pub fn is_whole(word: &str) -> bool {
    is_digits(word.strip_prefix('-').unwrap_or(word))
}

/// One of some whole numbers, if all may be meant for degrees; 0 is the same as degrees.
pub fn like_degrees(mut numbers: impl Iterator<Item = i32> + Clone) -> Option<i32> {
    let all_small = numbers.clone().all(|number| (-180..=180).contains(&number));
    numbers.find(|&number| all_small && number != 0)
}

/// What whole numbers are, for those who may have meant degrees.
pub fn not_degrees(number: i32) -> String {
    format!("whole numbers are hundredths of an arc second: {number} is {}", arc_seconds(number))
}

/// A whole number in arc seconds.
pub fn arc_seconds(number: i32) -> String {
    let (sign, size) = (if number < 0 { "-" } else { "" }, number.unsigned_abs());
    format!("{sign}{}.{:02} arc seconds", size / 100, size % 100)
}

/// A number without sign or letter: a dot makes it degrees.
fn read_unsigned(word: &str) -> Result<i64, Unreadable> {
    if word.contains('.') {
        return read_degrees(word);
    }
    if !is_digits(word) {
        return Err(Unreadable::NotACoordinate);
    }
    word.parse().map_err(|_| Unreadable::TooLarge)
}

/// Decimal degrees without sign or letter, as hundredths of an arc second.
fn read_degrees(word: &str) -> Result<i64, Unreadable> {
    let (whole, decimals) = word.split_once('.').unwrap_or((word, "0"));
    if !is_digits(whole) || !is_digits(decimals) {
        return Err(Unreadable::NotACoordinate);
    }
    let degrees: u32 = whole.parse().map_err(|_| Unreadable::TooLarge)?;
    Ok(i64::from(degrees) * DEGREE + part_of_degree(decimals))
}

/// The decimals of a degree, times 360,000 and rounded. The product is made digit by digit from the last decimal, so
/// that any number of decimals is exact: `whole` ends as its whole part and `tenths` as its first decimal.
fn part_of_degree(decimals: &str) -> i64 {
    let (mut whole, mut tenths) = (0, 0);
    for digit in decimals.bytes().rev() {
        let product = i64::from(digit - b'0') * DEGREE + whole;
        (whole, tenths) = (product / 10, product % 10);
    }
    if tenths >= 5 { whole + 1 } else { whole }
}

/// Whether a word has digits, and only digits.
pub(crate) fn is_digits(word: &str) -> bool {
    !word.is_empty() && word.bytes().all(|byte| byte.is_ascii_digit())
}

#[cfg(test)]
mod tests {
    use super::*;

    #[test]
    fn coordinates_are_exact() {
        let latitude = |word| read(word, Axis::Latitude);
        let longitude = |word| read(word, Axis::Longitude);
        assert_eq!(latitude("39.5N"), Ok(14_220_000));
        assert_eq!(longitude("100.25W"), Ok(-36_090_000));
        assert_eq!(latitude("7S"), Ok(-2_520_000));
        assert_eq!(latitude("-2520000"), Ok(-2_520_000));
        assert_eq!(longitude("180e"), Ok(64_800_000));
        assert_eq!(latitude("0N"), Ok(0));
        assert_eq!(latitude("39"), Ok(39));
    }

    #[test]
    fn a_dot_makes_degrees() {
        assert_eq!(read("-100.25", Axis::Longitude), Ok(-36_090_000));
        assert_eq!(read("39.0", Axis::Latitude), Ok(14_040_000));
        assert_eq!(read("-0.0000125", Axis::Latitude), Ok(-5));
        assert_eq!(["39", "-101", "39.0", "39N", "--5", "-"].map(is_whole), [true, true, false, false, false, false]);
    }

    #[test]
    fn halves_go_away_from_zero() {
        // 1 / 720,000 of a degree is half a hundredth of an arc second: 0.000001388888...
        let just_below = format!("0.00000{}N", "138".to_string() + &"8".repeat(60));
        assert_eq!(read(&just_below, Axis::Latitude), Ok(0));
        assert_eq!(read("0.0000013889S", Axis::Latitude), Ok(-1));
        // 0.0000125 x 360,000 = 4.5
        assert_eq!(read("0.0000125N", Axis::Latitude), Ok(5));
        assert_eq!(read("0.0000125S", Axis::Latitude), Ok(-5));
        assert_eq!(read("0.00001249999999999999999999999999999N", Axis::Latitude), Ok(4));
        assert_eq!(read("0.9999999E", Axis::Longitude), Ok(360_000));
    }

    #[test]
    fn what_is_no_coordinate() {
        let words =
            ["", "-", ".", "N", "+5", "+39.5", "-39.5N", "39.N", "39.", ".5N", "1e5", "39,5", "5x", "--5", "-.5", "5é"];
        for word in words {
            assert_eq!(read(word, Axis::Latitude), Err(Unreadable::NotACoordinate), "{word}");
        }
        assert_eq!(read("39.5E", Axis::Latitude), Err(Unreadable::WrongLetter(Axis::Latitude)));
        assert_eq!(read("39.5n", Axis::Longitude), Err(Unreadable::WrongLetter(Axis::Longitude)));
        for word in ["2147483648", "99999999999999999999", "6000N", "-6000.0", "99999999999N"] {
            assert_eq!(read(word, Axis::Latitude), Err(Unreadable::TooLarge), "{word}");
        }
    }
}
