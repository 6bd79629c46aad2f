//! A case: a map, a register to start from, and a list of calls. Each call gets the register that the one before left.

use std::fmt::{self, Display, Formatter, Write};

use codwalet::raw::{GROUND_AREA, GROUND_BOX, Licence, Register};

/// A call of the C interface.
#[derive(Clone, Copy, Debug, PartialEq, Eq)]
pub enum Call {
    Grant(Licence),
    /// A grant of so many MHz.
    GrantWidth(Licence, u32),
    Cancel(u32),
    CheckMap,
    LookUp(u16),
    Coverage(u16),
    Blocks(u16),
    Propose(u32),
    /// Mask and table are lent with so many more entries than needed, or fewer.
    Footprint {
        draw: u32,
        more_mask: i64,
        more_table: i64,
    },
}

/// What is run and compared.
#[derive(Clone, Debug, PartialEq, Eq)]
pub struct Case {
    pub map: Vec<u8>,
    /// The register that the first call gets: the engine's own empty one, or this.
    pub start: Option<Register>,
    pub calls: Vec<Call>,
    /// The seed of what guards, masks and tables hold.
    pub fill: u64,
}

/// A licence in words.
pub struct Words<'a>(pub &'a Licence);

impl Display for Words<'_> {
    fn fmt(&self, out: &mut Formatter<'_>) -> fmt::Result {
        let Licence { call_sign, area, kind, narrower_by, south, north, west, east } = self.0;
        let ground = match *kind {
            GROUND_AREA => "area",
            GROUND_BOX => "box",
            _ => "ill-formed",
        };
        write!(out, "call sign {call_sign}, kind {kind} ({ground}), area {area}, ")?;
        write!(out, "south {south}, north {north}, west {west}, east {east}, narrower by {narrower_by}")
    }
}

impl Display for Call {
    fn fmt(&self, out: &mut Formatter<'_>) -> fmt::Result {
        match self {
            Call::Grant(licence) => write!(out, "grant {}", Words(licence)),
            Call::GrantWidth(licence, width) => write!(out, "grant {width} MHz, {}", Words(licence)),
            Call::Cancel(call_sign) => write!(out, "cancel call sign {call_sign}"),
            Call::CheckMap => write!(out, "check the map"),
            Call::LookUp(number) => write!(out, "look up area {number}"),
            Call::Coverage(number) => write!(out, "coverage of area {number}"),
            Call::Blocks(number) => write!(out, "blocks of area {number}"),
            Call::Propose(draw) => write!(out, "propose with draw {draw}"),
            Call::Footprint { draw, more_mask, more_table } => {
                write!(out, "footprint with draw {draw}, mask {more_mask:+}, table {more_table:+} than needed")
            }
        }
    }
}

impl Display for Case {
    fn fmt(&self, out: &mut Formatter<'_>) -> fmt::Result {
        let mut hex = String::new();
        for (at, byte) in self.map.iter().enumerate() {
            let before = if at % 32 == 0 { "\n " } else { "" };
            write!(hex, "{before} {byte:02x}")?;
        }
        writeln!(out, "map, {} bytes:{hex}", self.map.len())?;
        match &self.start {
            None => writeln!(out, "register: empty")?,
            Some(register) => {
                writeln!(out, "register, places that are not all 0:")?;
                for (place, licence) in register.places.iter().enumerate().filter(|(_, l)| **l != Licence::default()) {
                    writeln!(out, "  place {place}: {}", Words(licence))?;
                }
            }
        }
        writeln!(out, "what guards, masks and tables hold: seed {}", self.fill)?;
        writeln!(out, "calls:")?;
        for (place, call) in self.calls.iter().enumerate() {
            writeln!(out, "  {}: {call}", place + 1)?;
        }
        Ok(())
    }
}
