//! Amounts: three units with types of their own, so that no sum mixes them.

use std::fmt;

/// A number of people.
#[derive(Clone, Copy, Debug, Default, PartialEq, Eq, PartialOrd, Ord, Hash)]
pub struct People(pub u64);

/// An amount of MHz-pops: the width of a licence in MHz times the people that it covers.
#[derive(Clone, Copy, Debug, Default, PartialEq, Eq, PartialOrd, Ord, Hash)]
pub struct MhzPops(pub u64);

/// An amount of weighted MHz-pops: MHz times people times the area's weight.
#[derive(Clone, Copy, Debug, Default, PartialEq, Eq, PartialOrd, Ord, Hash)]
pub struct Weighted(pub u64);

impl fmt::Display for People {
    fn fmt(&self, out: &mut fmt::Formatter) -> fmt::Result {
        out.pad(&with_unit(self.0, "person", "people"))
    }
}

impl fmt::Display for MhzPops {
    fn fmt(&self, out: &mut fmt::Formatter) -> fmt::Result {
        out.pad(&with_unit(self.0, "MHz-pop", "MHz-pops"))
    }
}

impl fmt::Display for Weighted {
    fn fmt(&self, out: &mut fmt::Formatter) -> fmt::Result {
        out.pad(&with_unit(self.0, "weighted MHz-pop", "weighted MHz-pops"))
    }
}

/// An amount and its unit, in the plural where it is due.
fn with_unit(amount: u64, one: &str, more: &str) -> String {
    format!("{} {}", grouped(amount), if amount == 1 { one } else { more })
}

/// A number with a comma at each thousand.
pub fn grouped(number: u64) -> String {
    let digits = number.to_string();
    let mut text = String::with_capacity(digits.len() * 4 / 3);
    for (index, digit) in digits.chars().enumerate() {
        if index > 0 && (digits.len() - index).is_multiple_of(3) {
            text.push(',');
        }
        text.push(digit);
    }
    text
}

#[cfg(test)]
mod tests {
    use super::*;

    #[test]
    fn thousands_have_commas() {
        let shown = [0, 7, 999, 1_000, 12_345, 123_456, 1_234_567].map(grouped);
        assert_eq!(shown, ["0", "7", "999", "1,000", "12,345", "123,456", "1,234,567"]);
    }

    #[test]
    fn amounts_name_their_unit() {
        assert_eq!([0, 1, 20_427].map(|count| People(count).to_string()), ["0 people", "1 person", "20,427 people"]);
        assert_eq!([1, 552_850].map(|amount| MhzPops(amount).to_string()), ["1 MHz-pop", "552,850 MHz-pops"]);
        assert_eq!(
            [1, 407_000].map(|amount| Weighted(amount).to_string()),
            ["1 weighted MHz-pop", "407,000 weighted MHz-pops"]
        );
        assert_eq!(format!("{:>10}|", People(5)), "  5 people|");
    }
}
