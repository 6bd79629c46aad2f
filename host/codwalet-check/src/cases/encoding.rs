//! A case as the program `holdings` reads it: a letter, then fields in little-endian bytes.

use crate::reference::{Ground, Licence};

/// The bytes of a block. The program reads a block at a time.
pub const BLOCK: usize = 65_536;
/// The blocks that the program reads.
pub const BLOCKS: usize = 3;

/// One case of the program.
#[derive(Clone, Debug, PartialEq, Eq)]
pub enum Case {
    /// A map to check, and numbers to look up in it.
    Map { map: Vec<u8>, numbers: Vec<u16> },
    /// A licence to grant without a width.
    Grant(Licence),
    /// A licence to grant with its width, which may be ill-formed.
    GrantWidth(Licence),
    /// A call sign to cancel.
    Cancellation(u32),
    /// From here on an empty register.
    Empty,
    /// A map, numbers whose coverage and blocks are asked for, and draws to make proposals with.
    Proposals { map: Vec<u8>, numbers: Vec<u16>, draws: Vec<u32> },
    /// A map, and footprints to make on it.
    Footprints { map: Vec<u8>, calls: Vec<Call> },
    /// A list of calls in words, to play on a map from an empty register; the next cases have the register that it
    /// leaves. Mask, table and `unchanged_from` are those of a `Call`, for the whole list.
    List { map: Vec<u8>, mask: u16, table: u16, unchanged_from: u16, words: Vec<u32> },
}

/// A footprint to make.
#[derive(Clone, Copy, Debug, PartialEq, Eq)]
pub struct Call {
    pub draw: u32,
    /// The bytes of the mask, at most 64.
    pub mask: u16,
    /// The entries of the table, at most 4,096.
    pub table: u16,
    /// The entry of the table from which none may change.
    pub unchanged_from: u16,
}

impl Case {
    /// What kind of case it is, in a word.
    pub fn kind(&self) -> &'static str {
        match self {
            Case::Map { .. } => "map",
            Case::Grant(_) => "grant",
            Case::GrantWidth(_) => "grant with a width",
            Case::Cancellation(_) => "cancellation",
            Case::Empty => "empty register",
            Case::Proposals { .. } => "proposals",
            Case::Footprints { .. } => "footprints",
            Case::List { .. } => "list",
        }
    }

    /// The bytes of the case.
    pub fn encode(&self) -> Vec<u8> {
        match self {
            Case::Map { map, numbers } => [vec![b'M'], sized(map), vec![numbers.len() as u8], u16s(numbers)].concat(),
            Case::Grant(licence) => [vec![b'G'], licence_fields(licence)].concat(),
            Case::GrantWidth(licence) => [vec![b'W'], licence_fields(licence), u32s(&[licence.width])].concat(),
            Case::Cancellation(call_sign) => [vec![b'C'], u32s(&[*call_sign])].concat(),
            Case::Empty => vec![b'E'],
            Case::Proposals { map, numbers, draws } => {
                let counts = vec![numbers.len() as u8, draws.len() as u8];
                [vec![b'P'], sized(map), counts, u16s(numbers), u32s(draws)].concat()
            }
            Case::Footprints { map, calls } => {
                let each_call: Vec<u8> = calls.iter().flat_map(encode_call).collect();
                [vec![b'F'], sized(map), vec![calls.len() as u8], each_call].concat()
            }
            Case::List { map, mask, table, unchanged_from, words } => {
                let sizes = u16s(&[*mask, *table, *unchanged_from, words.len() as u16]);
                [vec![b'L'], sized(map), sizes, u32s(words)].concat()
            }
        }
    }
}

/// The fields of a grant before a width. They are for both grounds; those of the other ground are 0.
fn licence_fields(licence: &Licence) -> Vec<u8> {
    let (form, number, edges) = match licence.ground {
        Ground::Area(number) => (0, number, [0; 4]),
        Ground::Box { south, north, west, east } => (1, 0, [south, north, west, east]),
    };
    let edges = edges.iter().flat_map(|edge| edge.to_le_bytes()).collect();
    [u32s(&[licence.call_sign]), vec![form], u16s(&[number]), edges].concat()
}

fn encode_call(call: &Call) -> Vec<u8> {
    [u32s(&[call.draw]), u16s(&[call.mask, call.table, call.unchanged_from])].concat()
}

/// A map's length and its bytes.
fn sized(map: &[u8]) -> Vec<u8> {
    [u32s(&[map.len() as u32]), map.to_vec()].concat()
}

fn u16s(values: &[u16]) -> Vec<u8> {
    values.iter().flat_map(|value| value.to_le_bytes()).collect()
}

fn u32s(values: &[u32]) -> Vec<u8> {
    values.iter().flat_map(|value| value.to_le_bytes()).collect()
}

/// Puts a case after others. A case doesn't go across the end of a block: bytes of 0 fill up the block before it, and
/// the program skips them.
pub fn append(bytes: &mut Vec<u8>, case: &[u8]) {
    let left = BLOCK - bytes.len() % BLOCK;
    if case.len() > left {
        bytes.resize(bytes.len() + left, 0);
    }
    bytes.extend(case);
}

#[cfg(test)]
mod tests {
    use super::*;

    #[test]
    fn maps_proposals_and_footprints() {
        let map = vec![7, 8, 9];
        let numbers = vec![5, 416];
        let looked_up = Case::Map { map: map.clone(), numbers: numbers.clone() };
        assert_eq!(looked_up.encode(), b"M\x03\0\0\0\x07\x08\x09\x02\x05\0\xa0\x01");
        let proposals = Case::Proposals { map: map.clone(), numbers, draws: vec![u32::MAX - 1] };
        assert_eq!(proposals.encode(), b"P\x03\0\0\0\x07\x08\x09\x02\x01\x05\0\xa0\x01\xfe\xff\xff\xff");
        let call = Call { draw: 3, mask: 64, table: 4_096, unchanged_from: 258 };
        let footprints = Case::Footprints { map, calls: vec![call] };
        assert_eq!(footprints.encode(), b"F\x03\0\0\0\x07\x08\x09\x01\x03\0\0\0\x40\0\0\x10\x02\x01");
    }

    #[test]
    fn calls_on_the_register() {
        let grant = |ground| Case::Grant(Licence::without_width(258, ground)).encode();
        let on_area = grant(Ground::Area(416));
        assert_eq!(on_area, b"G\x02\x01\0\0\0\xa0\x01\0\0\0\0\0\0\0\0\0\0\0\0\0\0\0\0");
        let on_box = grant(Ground::Box { south: -1, north: 2, west: -3, east: 4 });
        assert_eq!(on_box, b"G\x02\x01\0\0\x01\0\0\xff\xff\xff\xff\x02\0\0\0\xfd\xff\xff\xff\x04\0\0\0");
        let narrow = Licence { width: 306, ..Licence::without_width(258, Ground::Area(416)) };
        let of_width = Case::GrantWidth(narrow).encode();
        assert_eq!(of_width, b"W\x02\x01\0\0\0\xa0\x01\0\0\0\0\0\0\0\0\0\0\0\0\0\0\0\0\x32\x01\0\0");
        assert_eq!(Case::Cancellation(258).encode(), b"C\x02\x01\0\0");
        assert_eq!(Case::Empty.encode(), b"E");
    }

    #[test]
    fn lists() {
        let words = vec![3, u32::MAX - 1];
        let list = Case::List { map: vec![7, 8, 9], mask: 64, table: 4_096, unchanged_from: 258, words };
        assert_eq!(list.encode(), b"L\x03\0\0\0\x07\x08\x09\x40\0\0\x10\x02\x01\x02\0\x03\0\0\0\xfe\xff\xff\xff");
    }

    #[test]
    fn a_case_stays_within_a_block() {
        let mut bytes = vec![b'E'; BLOCK - 5];
        append(&mut bytes, b"C\x01\0\0\0");
        assert_eq!(bytes.len(), BLOCK);
        append(&mut bytes, b"E");
        assert_eq!(bytes.len(), BLOCK + 1);

        let mut bytes = vec![b'E'; BLOCK - 4];
        append(&mut bytes, b"C\x01\0\0\0");
        assert_eq!(&bytes[BLOCK - 4..], b"\0\0\0\0C\x01\0\0\0");
    }
}
