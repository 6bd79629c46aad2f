//! What can be wrong with a plan.

use super::Name;
use super::coordinate::Unreadable;
use super::note::{Note, together};
use crate::maps::NoMap;
use std::fmt;

/// What is wrong with a plan, and where.
#[derive(Clone, Debug, PartialEq, Eq)]
pub struct Mistake {
    /// The plan's file, as messages call it.
    pub file: String,
    /// The line, from 1; 0 if it is no line in particular.
    pub line: usize,
    /// The word at fault; empty if it is no word in particular.
    pub word: String,
    pub wrong: Wrong,
}

/// What is wrong with a word of a plan. A text says what is due in its place, or behind it.
#[derive(Clone, Debug, PartialEq, Eq)]
#[non_exhaustive]
pub enum Wrong {
    /// The plan itself can't be read.
    CannotRead(String),
    OpenQuote,
    AfterQuote,
    UnknownCall,
    /// Something is due behind the word.
    Missing(&'static str),
    Extra,
    NotDue(&'static str),
    NotANumber(&'static str),
    TooLarge {
        due: &'static str,
        most: u32,
    },
    NotACoordinate(&'static str, Unreadable),
    Map(NoMap),
    /// Standard input was read for the plan, or for a map before.
    InputTwice,
    NoMap,
    /// In a strict plan, what would be noted otherwise.
    Noted(Vec<Note>),
    /// In a strict plan, a licence above the first map.
    NotHeld,
    /// A picture's file has no name.
    NoName,
    DrawnOver(Over),
}

/// What a picture would be written over.
#[derive(Clone, Copy, Debug, PartialEq, Eq)]
#[non_exhaustive]
pub enum Over {
    Plan,
    Map {
        line: usize,
    },
    /// Standard output, whatever it is.
    Answers,
    Picture {
        line: usize,
    },
}

impl fmt::Display for Mistake {
    fn fmt(&self, out: &mut fmt::Formatter) -> fmt::Result {
        write!(out, "{}:", self.file)?;
        if self.line > 0 {
            write!(out, "{}:", self.line)?;
        }
        let word = &self.word;
        match &self.wrong {
            Wrong::CannotRead(why) => write!(out, " the plan cannot be read: {why}"),
            Wrong::OpenQuote => write!(out, " '{word}' starts with a quote and none ends it"),
            Wrong::AfterQuote => write!(out, " '{word}' goes on behind its closing quote"),
            Wrong::UnknownCall => write!(out, " '{word}' is not {}", Name::list()),
            Wrong::Missing(due) => write!(out, " '{word}' must be followed by {due}"),
            Wrong::Extra => write!(out, " '{word}' is a word too many"),
            Wrong::NotDue(due) => write!(out, " '{word}' stands where {due} is due"),
            Wrong::NotANumber(due) => write!(out, " {due} '{word}' is not an unsigned whole number"),
            Wrong::TooLarge { due, most } => write!(out, " {due} '{word}' is not within 0 to {most}"),
            Wrong::NotACoordinate(due, why) => write!(out, " {due} '{word}' {why}"),
            Wrong::Map(why) => write!(out, " map '{word}' {why}"),
            Wrong::InputTwice => write!(out, " map '{word}' is standard input, which is read already"),
            Wrong::NoMap => write!(out, " '{word}' needs a map, and no line before it names one"),
            Wrong::Noted(notes) => write!(out, " '{word}': {}", together(notes)),
            Wrong::NotHeld => write!(out, " '{word}': no map above it to hold it against"),
            Wrong::NoName => write!(out, " FILE '{word}' is no name of a file"),
            Wrong::DrawnOver(over) => write!(out, " FILE '{word}' is {over}"),
        }
    }
}

impl std::error::Error for Mistake {}

impl fmt::Display for Over {
    fn fmt(&self, out: &mut fmt::Formatter) -> fmt::Result {
        match self {
            Over::Plan => write!(out, "the plan itself"),
            Over::Map { line } => write!(out, "the map of line {line}"),
            Over::Answers => write!(out, "standard output, where the answers go"),
            Over::Picture { line } => write!(out, "the picture of line {line}"),
        }
    }
}
