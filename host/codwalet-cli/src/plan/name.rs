//! The words that lines of a plan start with.

/// The name of a call.
#[derive(Clone, Copy, Debug, PartialEq, Eq)]
#[non_exhaustive]
pub enum Name {
    Map,
    Grant,
    Cancel,
    Coverage,
    Blocks,
    Propose,
    Footprint,
}

impl Name {
    /// All names, in the order of help pages.
    pub const ALL: [Name; 7] =
        [Name::Map, Name::Grant, Name::Cancel, Name::Coverage, Name::Blocks, Name::Propose, Name::Footprint];

    /// The name as a plan has it.
    pub fn word(self) -> &'static str {
        match self {
            Name::Map => "map",
            Name::Grant => "grant",
            Name::Cancel => "cancel",
            Name::Coverage => "coverage",
            Name::Blocks => "blocks",
            Name::Propose => "propose",
            Name::Footprint => "footprint",
        }
    }

    /// The name that a word is, if it is one.
    pub fn of(word: &[u8]) -> Option<Name> {
        Name::ALL.into_iter().find(|name| name.word().as_bytes() == word)
    }

    /// All words, for those who wrote another.
    pub fn list() -> String {
        let words = Name::ALL.map(Name::word);
        let (last, others) = words.split_last().expect("there are names");
        format!("{} or {last}", others.join(", "))
    }
}
