//! Answers of the original as rows for the files of crates/replay/data.

pub mod holidays;
pub mod hours;
mod hours_sections;
pub mod inputs;
pub mod neighbours;
pub mod ranges;
pub mod sheets;
mod writer;
