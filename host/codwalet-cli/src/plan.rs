//! Plans: a text with a call on each line, read and checked whole before anything runs.
//!
//! ```text
//! map FILE                                     # a map's bytes, or CSV text; relative to the plan's folder
//! grant CALLSIGN area NUMBER [width MHZ]
//! grant CALLSIGN box SOUTH NORTH WEST EAST [width MHZ]
//! cancel CALLSIGN
//! coverage NUMBER
//! blocks NUMBER
//! propose DRAW
//! footprint DRAW [svg FILE]                    # the picture's file is relative to the current directory
//! ```

pub mod coordinate;
mod mistake;
mod name;
mod note;
mod reader;
pub mod run;
mod words;

use crate::files;
use codwalet::{Licence, Map, Refusal};
pub use mistake::{Mistake, Over, Wrong};
pub use name::Name;
pub use note::Note;
use reader::Reader;
use std::path::{Path, PathBuf};
use std::rc::Rc;

/// A plan that can run.
#[derive(Clone, Debug)]
pub struct Plan {
    /// The plan's file, as messages call it.
    pub file: String,
    pub steps: Vec<Step>,
    /// What is to be said of the plan's maps that is no mistake.
    pub notes: Vec<String>,
}

/// A line of a plan.
#[derive(Clone, Debug)]
pub struct Step {
    pub line: usize,
    /// The line's words, one blank between them.
    pub words: String,
    pub call: Call,
}

/// A call of a plan.
#[derive(Clone, Debug)]
#[non_exhaustive]
pub enum Call {
    /// The calls that follow read this map. A refused map answers them with its refusal.
    Map { file: String, map: Rc<Result<Map<'static>, Refusal>> },
    /// The notes say what of the licence may be meant otherwise.
    Grant { licence: Licence, notes: Vec<Note> },
    /// By call sign.
    Cancel(u32),
    /// Of the area with a number.
    Coverage(u16),
    /// Of the area with a number.
    Blocks(u16),
    /// With a draw.
    Propose(u32),
    /// With a draw; the picture goes to a file if one is named.
    Footprint(u32, Option<PathBuf>),
}

impl Call {
    /// The word that a line with this call starts with.
    pub fn name(&self) -> Name {
        match self {
            Call::Map { .. } => Name::Map,
            Call::Grant { .. } => Name::Grant,
            Call::Cancel(_) => Name::Cancel,
            Call::Coverage(_) => Name::Coverage,
            Call::Blocks(_) => Name::Blocks,
            Call::Propose(_) => Name::Propose,
            Call::Footprint(..) => Name::Footprint,
        }
    }

    fn reads_map(&self) -> bool {
        match self {
            Call::Map { .. } | Call::Grant { .. } | Call::Cancel(_) => false,
            Call::Coverage(_) | Call::Blocks(_) | Call::Propose(_) | Call::Footprint(..) => true,
        }
    }
}

/// Reads a plan and the maps that it names. If it is strict, what would be noted on a licence is a mistake, and so is a
/// licence above the first map.
///
/// # Errors
/// All that is wrong with the plan, by line.
pub fn read(file: &Path, strict: bool) -> Result<Plan, Vec<Mistake>> {
    let name = files::name_of(file);
    let mistake = |line, (word, wrong)| Mistake { file: name.clone(), line, word, wrong };
    let cannot_read = |why: std::io::Error| vec![mistake(0, (String::new(), Wrong::CannotRead(why.to_string())))];
    let text = files::read(file).map_err(cannot_read)?;

    let (mut reader, mut steps, mut mistakes) = (Reader::new(file, strict), Vec::new(), Vec::new());
    // Some editors put a byte order mark before the text.
    let text = text.strip_prefix("\u{feff}".as_bytes()).unwrap_or(&text);
    for (line, content) in (1..).zip(text.split(|&byte| byte == b'\n')) {
        match reader.step(line, content) {
            Ok(step) => steps.extend(step),
            Err(fault) => mistakes.push(mistake(line, fault)),
        }
    }
    mistakes.extend(reader.drawn_over().into_iter().map(|(line, fault)| mistake(line, fault)));
    mistakes.sort_by_key(|mistake| mistake.line);
    if mistakes.is_empty() { Ok(Plan { file: name, steps, notes: reader.notes }) } else { Err(mistakes) }
}
