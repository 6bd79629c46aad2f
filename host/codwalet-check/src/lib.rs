//! The engine beside an independent implementation and beside plain Rust: the differential test, the cases of the program
//! `holdings`, the benchmarks.

pub mod bench;
pub mod cases;
pub mod differential;
pub mod maps;
pub mod random;
pub mod reference;
