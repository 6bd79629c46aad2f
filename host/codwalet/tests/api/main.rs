//! The library as a program uses it.

mod answers;
mod holdings;
mod maps;
mod registers;
