//! Answers of a plan as JSON objects.

use super::object::{Object, array, quoted};
use crate::picture::Drawing;
use crate::plan::run::{Answer, Outcome};
use crate::plan::{Call, Step};
use codwalet::{Blocks, GeoBox, Given, Ground, Licence, Proposal};

/// An answer as a JSON object on one line.
pub fn json(answer: &Answer) -> String {
    let mut object = call_fields(answer.step);
    match &answer.outcome {
        Outcome::Map(map) => {
            object.number("areas", map.area_count() as u64);
            object.number("bytes", map.bytes().len() as u64);
        }
        Outcome::Granted(count) | Outcome::Cancelled(count) => object.number("in_force", *count as u64),
        Outcome::Coverage { coverage, in_map } => {
            object.number("mhz_pops", coverage.mhz_pops.0);
            object.number("cells", coverage.cells);
            object.value("in_map", in_map.to_string());
        }
        Outcome::Blocks { blocks, in_map } => {
            blocks_fields(&mut object, blocks);
            object.value("in_map", in_map.to_string());
        }
        Outcome::Proposal(proposal) => proposal_fields(&mut object, proposal),
        Outcome::Footprint(drawing) => footprint_fields(&mut object, drawing),
        Outcome::Refused(refusal) => object.value("refusal", Object::refusal(refusal).end()),
    }
    if let Some(note) = &answer.note {
        object.text("note", note);
    }
    object.end()
}

/// The plan's line, the call's name and its arguments.
fn call_fields(step: &Step) -> Object {
    let mut object = Object::new();
    object.number("line", step.line as u64);
    object.text("call", step.call.name().word());
    match &step.call {
        Call::Map { file, .. } => object.text("file", file),
        Call::Grant { licence, .. } => licence_fields(&mut object, licence),
        Call::Cancel(call_sign) => object.number("call_sign", *call_sign),
        Call::Coverage(number) | Call::Blocks(number) => object.number("area", *number),
        Call::Propose(draw) => object.number("draw", *draw),
        Call::Footprint(draw, svg) => {
            object.number("draw", *draw);
            if let Some(file) = svg {
                object.text("svg", &file.to_string_lossy());
            }
        }
    }
    object
}

fn licence_fields(object: &mut Object, licence: &Licence) {
    object.number("call_sign", licence.call_sign());
    match licence.ground() {
        Ground::Area(number) => object.number("area", number),
        Ground::Box(GeoBox { south, north, west, east }) => {
            let mut edges = Object::new();
            for (name, edge) in [("south", south), ("north", north), ("west", west), ("east", east)] {
                edges.number(name, edge);
            }
            object.value("box", edges.end());
        }
        // Plans grant for areas and boxes.
        _ => {}
    }
    object.number("width", licence.width());
}

/// Whole blocks, v and M, the last two 0 where the area isn't partial.
fn blocks_fields(object: &mut Object, blocks: &Blocks) {
    object.number("whole", blocks.whole);
    object.number("value", blocks.part.map_or(0, |part| part.value.0));
    object.number("size", blocks.part.map_or(0, |part| part.size.0));
}

fn proposal_fields(object: &mut Object, proposal: &Proposal) {
    object.number("kind", proposal.kind.number());
    object.text("words", proposal.kind.words());
    object.number("target", proposal.target.0);
    object.number("white_space", proposal.white_space.0);
    object.number("tied", proposal.tied);
    object.value("areas", array(proposal.areas.iter().map(given_object)));
}

fn given_object(given: &Given) -> String {
    let mut object = Object::new();
    object.number("area", given.number);
    object.number("whole_blocks", given.blocks);
    object.number("cells", given.cells);
    object.text("gets", given.gets.words());
    if let Some(share) = given.gets.share() {
        object.number("share", share.0);
    }
    object.end()
}

/// The mask has a text for each row, with 1 or 0 for each column.
fn footprint_fields(object: &mut Object, drawing: &Drawing) {
    object.number("area", drawing.area);
    object.number("share", drawing.share.0);
    object.number("carries", drawing.carries().0);
    object.number("rows", drawing.rows as u64);
    object.number("columns", drawing.columns as u64);
    let rows = drawing.footprint.chunks(drawing.columns);
    let row_text = |row: &[bool]| row.iter().map(|&inside| if inside { '1' } else { '0' }).collect::<String>();
    object.value("mask", array(rows.map(|row| quoted(&row_text(row)))));
}
