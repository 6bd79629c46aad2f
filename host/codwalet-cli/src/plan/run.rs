//! Runs a plan: each call in turn on the engine, from an empty register.

use super::note::{Note, together};
use super::{Call, Plan, Step};
use crate::picture::Drawing;
use codwalet::{Blocks, Coverage, Map, Proposal, Refusal, Register};

/// What came of a line of a plan.
#[derive(Clone, Debug)]
pub struct Answer<'p> {
    pub step: &'p Step,
    pub outcome: Outcome<'p>,
    /// What is to be said beside the outcome.
    pub note: Option<String>,
}

/// What came of a call.
#[derive(Clone, Debug)]
#[non_exhaustive]
pub enum Outcome<'p> {
    Map(&'p Map<'static>),
    /// So many licences are in force now.
    Granted(usize),
    /// So many licences are in force now.
    Cancelled(usize),
    Coverage {
        coverage: Coverage,
        in_map: bool,
    },
    Blocks {
        blocks: Blocks,
        in_map: bool,
    },
    Proposal(Proposal),
    Footprint(Box<Drawing>),
    Refused(Refusal),
}

/// The answers of a plan, one for each line; each is made when it is asked for.
pub fn answers(plan: &Plan) -> impl Iterator<Item = Answer<'_>> {
    // The calls that read a map stand behind one; until then the empty map's refusal is never asked for.
    let mut state = State { register: Register::empty(), map: Err(Refusal::MapEnds) };
    plan.steps.iter().map(move |step| {
        let outcome = state.call(&step.call).unwrap_or_else(Outcome::Refused);
        let note = note_on(&step.call, &outcome);
        Answer { step, outcome, note }
    })
}

/// The notes on a licence. Of one that was refused, only what is written is noted.
fn note_on(call: &Call, outcome: &Outcome) -> Option<String> {
    let Call::Grant { notes, .. } = call else {
        return None;
    };
    let granted = matches!(outcome, Outcome::Granted(_));
    let due: Vec<&Note> = notes.iter().filter(|note| granted || note.is_on_writing()).collect();
    (!due.is_empty()).then(|| together(due))
}

struct State<'p> {
    register: Register,
    /// The map that calls read. A refused map answers every call with its refusal.
    map: Result<&'p Map<'static>, Refusal>,
}

impl<'p> State<'p> {
    fn call(&mut self, call: &'p Call) -> Result<Outcome<'p>, Refusal> {
        let register = &self.register;
        match call {
            Call::Map { map, .. } => {
                self.map = map.as_ref().as_ref().map_err(|refusal| *refusal);
                self.map.map(Outcome::Map)
            }
            Call::Grant { licence, .. } => register.grant(*licence).map(|next| Outcome::Granted(self.take(next))),
            Call::Cancel(call_sign) => register.cancel(*call_sign).map(|next| Outcome::Cancelled(self.take(next))),
            Call::Coverage(number) => self.map.map(|map| Outcome::Coverage {
                coverage: map.coverage(register, *number),
                in_map: map.look_up(*number).is_some(),
            }),
            Call::Blocks(number) => self.map.map(|map| Outcome::Blocks {
                blocks: map.blocks(register, *number),
                in_map: map.look_up(*number).is_some(),
            }),
            Call::Propose(draw) => self.map?.propose(register, *draw).map(Outcome::Proposal),
            Call::Footprint(draw, _) => {
                Drawing::make(self.map?, register, *draw).map(|drawing| Outcome::Footprint(Box::new(drawing)))
            }
        }
    }

    /// Goes on with another register; says how many licences are in force in it.
    fn take(&mut self, next: Register) -> usize {
        self.register = next;
        self.register.len()
    }
}
