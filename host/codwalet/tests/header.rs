//! The build's reading of the C header.

#[path = "../build/header.rs"]
mod header;
#[path = "../build/rust.rs"]
mod rust;
#[path = "../build/tokens.rs"]
mod tokens;

use codwalet::raw;
use header::{Item, Unread};
use std::mem::offset_of;

const HEADER: &str = include_str!("../../include/codwalet.h");

#[test]
fn each_form_is_declared_in_rust() {
    let text = r#"
/* Above. */
#define CODWALET_LIMIT 3
enum {
    CODWALET_GROUND_BOX = 1 /* behind */
};
#define CODWALET_REFUSALS(X) \
    X(4, FULL, "it is full")
/* A pair. */
typedef struct {
    uint16_t area; /* its number */
    codwalet_pair others[CODWALET_LIMIT];
} codwalet_pair;
/* A word. */
typedef uint16_t codwalet_word;
/* The last. */
codwalet_pair codwalet_last(const uint8_t *map, size_t map_length,
                            codwalet_word *table);
uint32_t codwalet_version(void);
"#;
    let due = r#"/// Above.
pub const LIMIT: usize = 3;
/// behind
pub const GROUND_BOX: u8 = 1;
/// it is full
pub const FULL: u32 = 4;
/// A pair.
#[repr(C)]
#[derive(Clone, Copy, Debug, PartialEq, Eq)]
pub struct Pair {
    /// its number
    pub area: u16,
    pub others: [Pair; LIMIT],
}
/// A word.
pub type Word = u16;
/// The refusals: the number and the words of each.
pub const REFUSALS: [(u32, &str); 1] = [
    (FULL, "it is full"),
];
unsafe extern "C" {
    /// The last.
    pub fn codwalet_last(map: *const u8, map_length: usize, table: *mut Word) -> Pair;
    pub safe fn codwalet_version() -> u32;
}
"#;
    assert_eq!(rust::write(&header::read(text).expect("the text is read")), due);
}

/// What means something else in Rust than in C, or nothing, is not passed over.
#[test]
fn another_form_ends_the_build_at_its_line() {
    let others = [
        ("\ntypedef int codwalet_word;", 2),
        ("#define OTHER 5", 1),
        ("#define CODWALET_AREAS 040", 1),
        ("#define CODWALET_AREAS 32u", 1),
        ("# define CODWALET_AREAS 32", 1),
        ("#define\tCODWALET_AREAS 32", 1),
        ("\n#pragma pack(1)", 2),
        ("#if 0", 1),
        ("#define CODWALET_REFUSALS(X) \\\n    X(1, ENDS, \"it ends\") \\\n    X(2, TAB, \"a\\tb\")", 3),
        ("#define CODWALET_REFUSALS(X) \\\n    X(01, ENDS, \"it ends\")\n", 2),
        ("typedef struct {\n    uint8_t kind;\n    bool odd;\n} codwalet_held;", 3),
        ("uint8_t f(int **at);", 1),
        ("uint8_t f(uint8_t at[4]);", 1),
        ("void f(void);", 1),
        ("static const int x = 5;", 1),
        ("?", 1),
    ];
    for (text, line) in others {
        assert_eq!(header::read(text), Err(Unread { line }), "{text}");
    }
}

/// The comment above each struct says its size.
#[test]
fn structs_are_as_large_as_the_header_says() {
    let sizes = [
        ("codwalet_licence", size_of::<raw::Licence>()),
        ("codwalet_register", size_of::<raw::Register>()),
        ("codwalet_step", size_of::<raw::Step>()),
        ("codwalet_area", size_of::<raw::Area>()),
        ("codwalet_covered", size_of::<raw::Covered>()),
        ("codwalet_held", size_of::<raw::Held>()),
        ("codwalet_given", size_of::<raw::Given>()),
        ("codwalet_proposal", size_of::<raw::Proposal>()),
        ("codwalet_outline", size_of::<raw::Outline>()),
    ];
    let items = header::read(HEADER).expect("the header is read");
    let of_struct = |item: &Item| match item {
        Item::Struct { doc, name, .. } => Some((name.clone(), doc.clone())),
        _ => None,
    };
    let structs: Vec<(String, String)> = items.iter().filter_map(of_struct).collect();
    assert_eq!(structs.len(), sizes.len());
    for ((name, doc), (named, size)) in structs.iter().zip(sizes) {
        let said = format!(" {} bytes", codwalet::grouped(size as u64));
        assert!(name == named && doc.contains(&said), "{name}: {doc}");
    }
}

/// Where version 3 has widths, MHz-pops and cells. A layout that is another one needs another version.
#[test]
fn fields_stand_where_version_3_has_them() {
    assert_eq!(raw::VERSION, 3);
    let licence = [offset_of!(raw::Licence, kind), offset_of!(raw::Licence, narrower_by)];
    assert_eq!((licence, size_of::<raw::Licence>()), ([6, 7], 24));
    let covered =
        [offset_of!(raw::Covered, mhz_pops), offset_of!(raw::Covered, cells), offset_of!(raw::Covered, refusal)];
    assert_eq!((covered, size_of::<raw::Covered>()), ([0, 8, 16], 24));
    let given = [offset_of!(raw::Given, blocks), offset_of!(raw::Given, share), offset_of!(raw::Given, cells)];
    assert_eq!((given, size_of::<raw::Given>()), ([8, 16, 24], 32));
    assert_eq!((offset_of!(raw::Proposal, areas), size_of::<raw::Proposal>()), (40, 1_064));
}

#[test]
fn the_archive_is_of_the_header_s_version() {
    assert_eq!(raw::codwalet_version(), raw::VERSION);
    raw::check_version();
}
