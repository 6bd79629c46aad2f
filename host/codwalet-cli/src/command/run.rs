//! The command `run`.

use super::choice::Given;
use super::{Ended, Failure, Status, tell};
use crate::answers::{json, table_head, table_lines, width_of};
use crate::files;
use crate::mistakes::listed;
use crate::picture::svg;
use crate::plan::run::{Answer, Outcome, answers};
use crate::plan::{self, Call, Plan};
use crate::shown::shown;
use std::io::Write;

/// Runs a plan. A picture that can't be written is named, and the plan goes on.
pub fn run(given: &Given, out: &mut dyn Write) -> Ended {
    let plan =
        plan::read(given.operand(0), given.has("--strict")).map_err(|mistakes| Failure::Mistake(listed(&mistakes)))?;
    plan.notes.iter().for_each(|note| tell(note));
    let (as_json, width) = (given.has("--json"), width_of(&plan));
    if !as_json {
        writeln!(out, "{}", table_head(width))?;
    }
    let mut status = Status::Done;
    for mut answer in answers(&plan) {
        if let Some(why) = undrawn(&plan, &answer) {
            status = Status::NotDone;
            answer.note = Some(why);
        }
        let lines = if as_json { vec![json(&answer)] } else { table_lines(&answer, width) };
        lines.iter().try_for_each(|line| writeln!(out, "{line}"))?;
    }
    Ok(status)
}

/// Writes the SVG file that a footprint's line names; says why it can't be written.
fn undrawn(plan: &Plan, answer: &Answer) -> Option<String> {
    let (Call::Footprint(_, Some(file)), Outcome::Footprint(drawing)) = (&answer.step.call, &answer.outcome) else {
        return None;
    };
    let error = files::write(file, svg(drawing).as_bytes()).err()?;
    let why = format!("'{}' cannot be written: {error}", shown(file));
    tell(&format!("{}:{}: {why}", plan.file, answer.step.line));
    Some(why)
}
