//! Reads the lines of a plan: each becomes a call, or what is wrong with it.

use super::coordinate::{self, Axis};
use super::note::{Loaded, Note};
use super::words::{self, Fault, Word, Words};
use super::{Call, Name, Over, Step, Wrong};
use crate::files::{self, Identity};
use crate::maps;
use codwalet::{GeoBox, Licence, Map};
use std::collections::HashMap;
use std::collections::hash_map::Entry;
use std::path::{Path, PathBuf};
use std::rc::Rc;

/// What the lines of a plan are read by, and what those before have named.
pub struct Reader<'p> {
    plan: &'p Path,
    strict: bool,
    /// What is to be said of maps that is no mistake.
    pub notes: Vec<String>,
    map_named: bool,
    /// The map that calls read; None if the line that names it is wrong.
    map: Option<Loaded>,
    /// The maps' files, with their lines.
    map_files: Vec<(usize, PathBuf)>,
    /// The pictures' files, with their lines and words.
    pictures: Vec<(usize, String, PathBuf)>,
}

impl<'p> Reader<'p> {
    /// Reads the lines of a plan's file.
    pub fn new(plan: &'p Path, strict: bool) -> Reader<'p> {
        let (notes, map_files, pictures) = (Vec::new(), Vec::new(), Vec::new());
        Reader { plan, strict, notes, map_named: false, map: None, map_files, pictures }
    }

    /// The step of a line, if it has words.
    pub fn step(&mut self, line: usize, content: &[u8]) -> Result<Option<Step>, Fault> {
        let words = words::split(content)?;
        if words.is_empty() {
            return Ok(None);
        }
        let mut left = Words::new(&words);
        let call = self.call(line, &mut left)?;
        left.end()?;
        if call.reads_map() && !self.map_named {
            return Err((call.name().word().to_string(), Wrong::NoMap));
        }
        match &call {
            Call::Grant { notes, .. } if self.strict => self.strictly(ground_of(&words), notes)?,
            _ => {}
        }
        Ok(Some(Step { line, words: joined(&words), call }))
    }

    /// Sees that nothing is noted on a licence, and that there is a map to hold it against.
    fn strictly(&self, ground: &[Word], notes: &[Note]) -> Result<(), Fault> {
        let wrong = if !notes.is_empty() {
            Wrong::Noted(notes.to_vec())
        } else if !self.map_named {
            Wrong::NotHeld
        } else {
            return Ok(());
        };
        Err((joined(ground), wrong))
    }

    fn call(&mut self, line: usize, words: &mut Words) -> Result<Call, Fault> {
        let name = Name::of(words.next("a call")?.bytes()).ok_or_else(|| words.wrong(Wrong::UnknownCall))?;
        Ok(match name {
            Name::Map => self.map(line, words)?,
            Name::Grant => self.grant(words)?,
            Name::Cancel => Call::Cancel(words.number("CALLSIGN", u32::MAX)?),
            Name::Coverage => Call::Coverage(words.number("NUMBER", u16::MAX)?),
            Name::Blocks => Call::Blocks(words.number("NUMBER", u16::MAX)?),
            Name::Propose => Call::Propose(words.number("DRAW", u32::MAX)?),
            Name::Footprint => Call::Footprint(words.number("DRAW", u32::MAX)?, self.picture(line, words)?),
        })
    }

    fn map(&mut self, line: usize, words: &mut Words) -> Result<Call, Fault> {
        // Whatever is wrong with this line, the calls below it don't read the map before it.
        (self.map_named, self.map) = (true, None);
        let word = words.next("FILE")?;
        let file = self.map_path(word);
        if files::is_standard(&file) && self.reads_standard_input() {
            return Err(words.wrong(Wrong::InputTwice));
        }
        self.map_files.push((line, file.clone()));
        let found = maps::read(&file).map_err(|why| words.wrong(Wrong::Map(why)))?;
        for note in found.notes {
            // A map that is named again has the same notes.
            if !self.notes.contains(&note) {
                self.notes.push(note);
            }
        }
        let map = Rc::new(Map::owned(found.bytes));
        self.map = Some(Loaded::new(Rc::clone(&map)));
        Ok(Call::Map { file: word.text(), map })
    }

    /// Where a map's file is: `-` is standard input, and other files are found from the plan's folder.
    fn map_path(&self, word: &Word) -> PathBuf {
        if files::is_standard(word.path()) {
            return word.path().to_path_buf();
        }
        self.plan.parent().unwrap_or(Path::new("")).join(word.path())
    }

    /// Whether the plan or a map before is read from standard input.
    fn reads_standard_input(&self) -> bool {
        files::is_standard(self.plan) || self.map_files.iter().any(|(_, file)| files::is_standard(file))
    }

    fn grant(&self, words: &mut Words) -> Result<Call, Fault> {
        let call_sign = words.number("CALLSIGN", u32::MAX)?;
        let (licence, written) = match words.next("area or box")?.bytes() {
            b"area" => (Licence::area(call_sign, words.number("NUMBER", u16::MAX)?), Written::default()),
            b"box" => {
                let (edges, written) = read_box(words)?;
                (Licence::within(call_sign, edges), written)
            }
            _ => return Err(words.wrong(Wrong::NotDue("area or box"))),
        };
        let licence = read_width(words)?.map_or(licence, |mhz| licence.with_width(mhz));
        let covers = self.map.as_ref().and_then(|map| map.note_on(&licence, written.like_degrees));
        let mixed = written.whole_among_degrees.map(Note::WholeAmongDegrees);
        Ok(Call::Grant { licence, notes: covers.into_iter().chain(mixed).collect() })
    }

    fn picture(&mut self, line: usize, words: &mut Words) -> Result<Option<PathBuf>, Fault> {
        if words.rest().is_empty() {
            return Ok(None);
        }
        if words.next("svg")?.bytes() != b"svg" {
            return Err(words.wrong(Wrong::NotDue("svg or nothing")));
        }
        let word = words.next("FILE")?;
        let file = word.path().to_path_buf();
        if files::is_standard(&file) {
            return Err(words.wrong(Wrong::DrawnOver(Over::Answers)));
        }
        if file.as_os_str().is_empty() {
            return Err(words.wrong(Wrong::NoName));
        }
        self.pictures.push((line, word.shown(), file.clone()));
        Ok(Some(file))
    }

    /// The pictures that would be written over the plan, over a map of it, over the answers, or over each other.
    pub fn drawn_over(&self) -> Vec<(usize, Fault)> {
        let mut taken = HashMap::from([(Identity::of(self.plan), Over::Plan)]);
        for (line, file) in &self.map_files {
            taken.entry(Identity::of(file)).or_insert(Over::Map { line: *line });
        }
        if let Some(output) = Identity::of_output() {
            taken.entry(output).or_insert(Over::Answers);
        }
        let mut faults = Vec::new();
        for (line, word, file) in &self.pictures {
            match taken.entry(Identity::of(file)) {
                Entry::Occupied(over) => faults.push((*line, (word.clone(), Wrong::DrawnOver(*over.get())))),
                Entry::Vacant(free) => {
                    free.insert(Over::Picture { line: *line });
                }
            }
        }
        faults
    }
}

/// Words with a blank between them, as a plan has them.
fn joined(words: &[Word]) -> String {
    words.iter().map(Word::written).collect::<Vec<_>>().join(" ")
}

/// The word before the width of a licence.
const WIDTH: &[u8] = b"width";

/// The width in MHz behind the ground of a licence, if there is one. Any number is taken; the engine refuses those that are none
/// of a licence.
fn read_width(words: &mut Words) -> Result<Option<u32>, Fault> {
    if words.rest().is_empty() {
        return Ok(None);
    }
    if words.next("width")?.bytes() != WIDTH {
        return Err(words.wrong(Wrong::NotDue("width or nothing")));
    }
    words.number("MHZ", u32::MAX).map(Some)
}

/// The words of a grant that say where, behind `area` or `box` and before a width.
fn ground_of(grant: &[Word]) -> &[Word] {
    let ground = &grant[3..];
    let length = ground.iter().position(|word| word.bytes() == WIDTH).unwrap_or(ground.len());
    &ground[..length]
}

/// What the way in which a box is written tells of its edges.
#[derive(Default)]
struct Written {
    /// An edge, if all are whole numbers that may be meant for degrees.
    like_degrees: Option<i32>,
    /// An edge that is a whole number where others are degrees.
    whole_among_degrees: Option<i32>,
}

/// A box, and the way in which it is written.
fn read_box(words: &mut Words) -> Result<(GeoBox, Written), Fault> {
    let written = words.rest();
    let edges = GeoBox {
        south: words.coordinate("SOUTH", Axis::Latitude)?,
        north: words.coordinate("NORTH", Axis::Latitude)?,
        west: words.coordinate("WEST", Axis::Longitude)?,
        east: words.coordinate("EAST", Axis::Longitude)?,
    };
    let values = [edges.south, edges.north, edges.west, edges.east];
    let is_whole = |word: &Word| word.as_str().is_some_and(coordinate::is_whole);
    let whole = || values.into_iter().zip(written).filter(|(_, word)| is_whole(word)).map(|(value, _)| value);
    let mut found = Written::default();
    if whole().count() == values.len() {
        found.like_degrees = coordinate::like_degrees(values.into_iter());
    } else {
        // 0 is the same in both.
        found.whole_among_degrees = whole().find(|&value| value != 0);
    }
    Ok((edges, found))
}
