//! A second emulator of the card, written from the papers alone: document 01, the instruction
//! pages of 001 and 004, and the Power ISA of 003.
//!
//! It shares no code and no tables with the emulator that it is compared with. It alters a
//! machine in place, keeps registers in the host's order, and decodes by matching.

mod execute;
mod lanes;
mod machine;
mod memory;
mod run;
mod vector;
mod word;

pub mod batch;
pub mod card;
pub mod lines;

pub use machine::{Machine, STATE_BYTES};
pub use run::{run, Answer, Outcome, MOST_WORDS};
pub use vector::{Lane, Vector};

#[cfg(test)]
mod instructions;
