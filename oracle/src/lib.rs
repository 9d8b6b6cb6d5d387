//! The test oracle of the stage value engine: the Rust's money side behind a reading of the book
//! of its own, with what generates, damages and compares books.

pub mod arguments;
pub mod book;
pub mod called;
pub mod calls;
pub mod credits;
pub mod damage;
pub mod encode;
pub mod generate;
pub mod growth;
pub mod leaf;
#[cfg(feature = "library")]
pub mod library;
pub mod months;
pub mod outline;
pub mod programme;
pub mod project;
pub mod random;
pub mod sample;
pub mod selftest;
pub mod status;
pub mod statuses;
pub mod traps;
pub mod trees;
pub mod twelve;
pub mod vectors;
pub mod verdicts;
