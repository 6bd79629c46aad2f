//! The reference's answers in the form of the C interface, to be compared field by field.

use crate::reference::{self, Area, Covered, Gets, Given, Ground, Licence, Made, Proposal, Refused};
use codwalet::limits::{AREAS, LICENCES};
use codwalet::raw::{self, FULL_WIDTH, GROUND_AREA, GROUND_BOX, Register};

/// The register with all bytes 0.
pub const NO_LICENCE: Register = Register { places: [FREE; LICENCES] };

/// A place with all bytes 0.
pub const FREE: raw::Licence =
    raw::Licence { call_sign: 0, area: 0, kind: 0, narrower_by: 0, south: 0, north: 0, west: 0, east: 0 };

/// The ground of a licence. One of another kind is ill-formed and covers nothing, as area number 0 does.
fn ground(raw: &raw::Licence) -> Ground {
    match raw.kind {
        GROUND_AREA => Ground::Area(raw.area),
        GROUND_BOX => Ground::Box { south: raw.south, north: raw.north, west: raw.west, east: raw.east },
        _ => Ground::Area(0),
    }
}

/// The licence at a place of a register. "A forged byte of 50 or more leaves a width of 0."
pub fn licence(raw: &raw::Licence) -> Licence {
    let width = FULL_WIDTH.saturating_sub(u32::from(raw.narrower_by));
    Licence { call_sign: raw.call_sign, ground: ground(raw), width }
}

/// The licence that a grant is handed, with its width if it has one. "Neither grant reads this byte", `narrower_by`.
pub fn handed(raw: &raw::Licence, width: Option<u32>) -> Licence {
    let licence = Licence::without_width(raw.call_sign, ground(raw));
    Licence { width: width.unwrap_or(licence.width), ..licence }
}

/// A licence as a register holds it: what its ground has no use for is 0. Its width is at most 50.
pub fn raw_licence(licence: &Licence) -> raw::Licence {
    let narrower_by = FULL_WIDTH.saturating_sub(licence.width) as u8;
    let free = raw::Licence { call_sign: licence.call_sign, narrower_by, ..FREE };
    match licence.ground {
        Ground::Area(area) => raw::Licence { area, kind: GROUND_AREA, ..free },
        Ground::Box { south, north, west, east } => raw::Licence { kind: GROUND_BOX, south, north, west, east, ..free },
    }
}

/// The licences in force of a register, by place. "A place with call sign 0 is free, and nothing else of it counts."
pub fn lines(register: &Register) -> Vec<Licence> {
    register.places.iter().filter(|place| place.call_sign != 0).map(licence).collect()
}

/// The refusal of a map, or 0.
pub fn check_map(map: &[u8]) -> u32 {
    reference::read_map(map).map_or_else(|fault| fault.number, |_| 0)
}

fn with_number(map: &[u8], number: u16) -> Result<Option<Area>, u32> {
    let areas = reference::read_map(map).map_err(|fault| fault.number)?;
    Ok(areas.into_iter().find(|area| area.number == number))
}

/// The areas of an accepted map with their numbers, each as a look-up has it; none of a refused one.
pub fn areas(map: &[u8], look_up: impl Fn(u16) -> raw::Area) -> Vec<(u16, raw::Area)> {
    let areas = reference::read_map(map).unwrap_or_default();
    areas.iter().map(|area| (area.number, look_up(area.number))).collect()
}

/// The area with a number.
pub fn look_up(map: &[u8], number: u16) -> raw::Area {
    match with_number(map, number) {
        Err(refusal) => raw::Area { refusal, ..raw::Area::default() },
        Ok(None) => raw::Area::default(),
        Ok(Some(area)) => raw::Area {
            refusal: 0,
            weight: area.weight,
            rows: area.rows as u64,
            columns: area.columns as u64,
            population: area.population(),
            offset: area.start as u64,
            length: (area.end - area.start) as u64,
        },
    }
}

/// The MHz-pops and the cells covered in the area with a number.
pub fn coverage(map: &[u8], lines: &[Licence], number: u16) -> raw::Covered {
    match reference::coverage(map, lines, number) {
        Err(refusal) => raw::Covered { refusal, ..raw::Covered::default() },
        Ok(Covered { mhz_pops, cells }) => raw::Covered { mhz_pops, cells, ..raw::Covered::default() },
    }
}

/// The blocks of the area with a number.
pub fn blocks(map: &[u8], lines: &[Licence], number: u16) -> raw::Held {
    match with_number(map, number) {
        Err(refusal) => raw::Held { refusal, ..raw::Held::default() },
        Ok(None) => raw::Held::default(),
        Ok(Some(area)) => {
            let reference::Blocks { whole, value, size } = reference::blocks(lines, &area);
            raw::Held { whole, value, size, ..raw::Held::default() }
        }
    }
}

/// A proposal without areas: what a refused one is.
const NO_PROPOSAL: raw::Proposal = raw::Proposal {
    refusal: 0,
    kind: 0,
    tied: 0,
    count: 0,
    target: 0,
    white_space: 0,
    areas: [raw::Given { number: 0, gets: 0, blocks: 0, share: 0, cells: 0 }; AREAS],
};

fn raw_given(given: &Given) -> raw::Given {
    let (gets, share) = match given.gets {
        Gets::Nothing => (0, 0),
        Gets::Whole => (1, 0),
        Gets::RoundedUp => (2, 0),
        Gets::Share(share) => (3, share),
    };
    raw::Given { number: u32::from(given.number), gets, blocks: given.blocks, share, cells: given.cells }
}

/// The proposal with a draw.
pub fn propose(map: &[u8], lines: &[Licence], draw: u32) -> raw::Proposal {
    propose_by(map, |areas| reference::propose(areas, lines, draw))
}

/// The proposal that areas are found to have, where the map is accepted.
pub fn propose_by(map: &[u8], find: impl Fn(&[Area]) -> Result<Proposal, u32>) -> raw::Proposal {
    let areas = reference::read_map(map).map_err(|fault| fault.number);
    let proposal = match areas.and_then(|areas| find(&areas)) {
        Err(refusal) => return raw::Proposal { refusal, ..NO_PROPOSAL },
        Ok(proposal) => proposal,
    };
    let mut raw = raw::Proposal {
        kind: proposal.kind,
        tied: proposal.tied,
        count: proposal.areas.len() as u64,
        target: proposal.target,
        white_space: proposal.white_space,
        ..NO_PROPOSAL
    };
    for (place, given) in raw.areas.iter_mut().zip(&proposal.areas) {
        *place = raw_given(given);
    }
    raw
}

/// The footprint with a draw, into a mask, and how many entries of the table may have been used.
pub fn footprint(map: &[u8], lines: &[Licence], draw: u32, mask: &mut [u8], entries: usize) -> (raw::Outline, usize) {
    outlined(reference::footprint(map, lines, draw, mask, entries))
}

/// What a footprint answers, and how many entries of the table may have been used.
pub fn outlined(made: Result<Made, Refused>) -> (raw::Outline, usize) {
    match made {
        Ok(made) => (raw::Outline { area: u32::from(made.number), ..raw::Outline::default() }, made.used),
        Err(refused) => (raw::Outline { refusal: refused.number, area: 0, needed: refused.needed as u64 }, 0),
    }
}

/// How long a mask and a table the footprint with a draw needs; none where it is refused before either is looked at.
pub fn needs(map: &[u8], lines: &[Licence], draw: u32) -> (usize, usize) {
    let proposal = propose(map, lines, draw);
    let Some(given) = proposal.areas.iter().find(|given| given.gets == raw::GETS_SHARE) else {
        return (0, 0);
    };
    let area = look_up(map, given.number as u16);
    let places = (area.rows * area.columns) as usize;
    let (outline, _) = footprint(map, lines, draw, &mut vec![0; places], 0);
    (places, outline.needed as usize)
}
