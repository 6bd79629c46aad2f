//! Answers as a table: the plan's line, the call and what came of it. A proposal and a footprint have more lines below.

use super::{counted, grouped, size_words, word_for};
use crate::picture::{Drawing, terminal};
use crate::plan::run::{Answer, Outcome};
use crate::plan::{Call, Plan};
use crate::shown::shown;
use codwalet::{Blocks, Coverage, Given, Kind, Part, Proposal, Weighted};

/// Blanks before the lines below an answer: the width of the first column.
const INDENT: &str = "      ";

/// The widest that the calls' column can be. A call that is longer moves the answer on its own line.
const WIDEST: usize = 60;

/// The width of the calls' column.
pub fn width_of(plan: &Plan) -> usize {
    let widest = plan.steps.iter().map(|step| step.words.chars().count()).max().unwrap_or(0);
    widest.clamp("call".len(), WIDEST)
}

/// The table's first line.
pub fn table_head(width: usize) -> String {
    format!("line  {:width$}  answer", "call")
}

/// The lines of an answer.
pub fn table_lines(answer: &Answer, width: usize) -> Vec<String> {
    let step = answer.step;
    let first = first_line(answer);
    let note = answer.note.as_ref().map_or(String::new(), |note| format!("; note: {note}"));
    let mut lines = vec![format!("{:>4}  {:width$}  {first}{note}", step.line, step.words)];
    let below = match &answer.outcome {
        Outcome::Proposal(proposal) => proposal_lines(proposal),
        Outcome::Footprint(drawing) => terminal(drawing),
        _ => Vec::new(),
    };
    if !below.is_empty() {
        let indented = |line: &String| format!("{INDENT}{line}").trim_end().to_string();
        lines.push(String::new());
        lines.extend(below.iter().map(indented));
        lines.push(String::new());
    }
    lines
}

fn first_line(answer: &Answer) -> String {
    match &answer.outcome {
        Outcome::Map(map) => size_words(map),
        Outcome::Granted(count) => format!("granted; {}", in_force_words(*count)),
        Outcome::Cancelled(count) => format!("cancelled; {}", in_force_words(*count)),
        Outcome::Coverage { coverage, in_map } => format!("{}{}", coverage_words(coverage), lacking(*in_map)),
        Outcome::Blocks { blocks, in_map } => format!("{}{}", blocks_words(blocks), lacking(*in_map)),
        Outcome::Proposal(proposal) => kind_words(proposal),
        Outcome::Footprint(drawing) => footprint_words(drawing, answer),
        Outcome::Refused(refusal) => format!("refused, {}: {refusal}", refusal.number()),
    }
}

fn in_force_words(count: usize) -> String {
    format!("{} in force", counted(count as u64, "licence", "licences"))
}

fn lacking(in_map: bool) -> &'static str {
    if in_map { "" } else { " (the map lacks the area)" }
}

/// MHz-pops and cells, apart: the first go by the widths of licences, the others don't.
fn coverage_words(coverage: &Coverage) -> String {
    format!("{}, {}", coverage.mhz_pops, counted(coverage.cells, "cell", "cells"))
}

fn blocks_words(blocks: &Blocks) -> String {
    let whole = counted(blocks.whole, "whole block", "whole blocks");
    match blocks.part {
        None => format!("{whole}, nothing partial"),
        Some(Part { value, size, .. }) => format!("{whole}, and {} of {size} of another", grouped(value.0)),
    }
}

fn kind_words(proposal: &Proposal) -> String {
    let area = proposal.partial().map_or(String::new(), |given| format!("area {}", given.number));
    match proposal.kind {
        Kind::Exact => "exact: whole areas add to T".to_string(),
        Kind::RoundedUp => format!("rounded up: {area} has at least 90% of a block"),
        Kind::OnePart => format!("one part: {area} gets a share"),
        other => other.words().to_string(),
    }
}

fn proposal_lines(proposal: &Proposal) -> Vec<String> {
    let (target, white_space) = (proposal.target, proposal.white_space);
    let width = grouped(target.max(white_space).0).len();
    let unit = |amount: Weighted| word_for(amount.0, "weighted MHz-pop", "weighted MHz-pops");
    let tied = word_for(proposal.tied, "area", "areas");
    let mut lines = vec![
        format!("T            {:>width$} {}", grouped(target.0), unit(target)),
        format!("white space  {:>width$} {}", grouped(white_space.0), unit(white_space)),
        format!("tied         {:>width$} {tied}", proposal.tied),
        String::new(),
        "area  whole blocks      cells  gets".to_string(),
    ];
    lines.extend(proposal.areas.iter().map(given_line));
    lines
}

/// The most cells, 64 licences over 128 x 128 places each, have nine characters.
fn given_line(given: &Given) -> String {
    format!("{:>4}  {:>12}  {:>9}  {}", given.number, grouped(given.blocks), grouped(given.cells), given.gets)
}

fn footprint_words(drawing: &Drawing, answer: &Answer) -> String {
    let footprint = drawing.count(|place| drawing.footprint[place]);
    let cells = drawing.count(|_| true).cells;
    // Where a picture can't be written, a note says so.
    let written = match &answer.step.call {
        Call::Footprint(_, Some(file)) if answer.note.is_none() => format!("; drawn in {}", shown(file)),
        _ => String::new(),
    };
    let (in_it, cells) = (grouped(footprint.cells), counted(cells, "cell", "cells"));
    let carry = word_for(footprint.cells, "carries", "carry");
    let (carries, share) = (grouped(drawing.carries().0), grouped(drawing.share.0));
    format!("area {}: {in_it} of {cells} {carry} {carries} for a share of {share}{written}", drawing.area)
}
