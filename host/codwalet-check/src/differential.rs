//! The differential test: an engine beside the reference, on random cases of many kinds.

mod answers;
mod build;
mod case;
mod compare;
mod engine;
mod fields;
mod kinds;
mod run;
mod seen;
mod shrink;
mod sorts;
#[cfg(test)]
mod tests;

pub use engine::{Buffers, Engine, Lent, Proved};
pub use run::{soak, test};
