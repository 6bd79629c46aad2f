//! What the command line is made of: plans, their answers, maps from CSV, pictures.

pub mod answers;
pub mod beyond;
pub mod command;
pub mod csv;
pub mod files;
pub mod maps;
mod mistakes;
pub mod picture;
pub mod plan;
mod shown;
