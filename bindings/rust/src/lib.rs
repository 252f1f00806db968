//! The card for hosts in Rust: an emulator of an AltiVec machine, proved in Rattle, in an archive.
//!
//! The host keeps a [`Machine`] and lends it to each call, with the code and the memory. What a
//! call does is said in `include/card.h` at the repository's root; what is proved of it, in
//! `docs/CLAIMS.md`. The functions here are safe: the archive takes each value of these types, and
//! the borrows see to it that machine, code and memory do not overlap and that nothing else
//! touches them during a call.
//!
//! ```
//! use card::{Answer, Machine};
//!
//! let mut machine = Machine::new();
//! // vspltisb v1, -1; vaddubs v2, v1, v1
//! let code = [0x103f030c, 0x10410a00];
//! let report = machine.run(&code, &mut [], 0, 0, 100);
//! assert_eq!((report.answer, report.count), (Answer::Done, 2));
//! assert!(machine.sat);
//! ```

mod archive;

use std::fmt;

/// 32 vectors, of which vector n is the bytes 16 n to 16 n + 15 of `v`; 32 general registers; NJ,
/// SAT and CR6. The layout is C's.
#[repr(C)]
#[derive(Clone, Debug, PartialEq, Eq)]
pub struct Machine {
    pub v: [u8; 512],
    pub g: [u32; 32],
    pub nj: bool,
    pub sat: bool,
    pub cr6: u8,
}

/// How a run can end.
#[derive(Clone, Copy, Debug, PartialEq, Eq)]
pub enum Answer {
    /// The place is the end of the code.
    Done = 0,
    /// The allowance is used up, and the place is before the end.
    Spent = 1,
    /// The memory is wrongly placed.
    Misplaced = 2,
    /// More than [`WORDS_MAX`] words.
    LongCode = 3,
    /// The place is beyond the end of the code.
    BadStart = 4,
    /// The word is none of the 132 instructions.
    NoInstruction = 5,
    /// The word is one of them, with a reserved bit set.
    Reserved = 6,
    /// The word's address is outside the memory.
    Outside = 7,
}

/// Words of code that a run takes.
pub const WORDS_MAX: usize = 16384;
/// Bytes of memory that a run takes.
pub const MEMORY_MAX: usize = 65536;

/// How a run ended, the words completed, and the place of the next word.
#[derive(Clone, Copy, Debug, PartialEq, Eq)]
pub struct Report {
    pub answer: Answer,
    pub count: u32,
    pub place: u32,
}

impl Machine {
    /// A machine with all registers and bits zero.
    pub fn new() -> Machine {
        archive::new()
    }

    /// Runs the code from a place on, as far as the allowance goes, over a memory whose first byte
    /// stands at `base`.
    pub fn run(
        &mut self,
        code: &[u32],
        memory: &mut [u8],
        base: u32,
        place: u32,
        allowance: u32,
    ) -> Report {
        archive::run(self, code, memory, base, place, allowance)
    }

    /// Runs the one word at the place.
    pub fn step(&mut self, code: &[u32], memory: &mut [u8], base: u32, place: u32) -> Report {
        archive::step(self, code, memory, base, place)
    }

    /// The sixteen bytes of a vector. Panics where `n` is above 31.
    pub fn vector(&self, n: usize) -> [u8; 16] {
        self.v[16 * n..16 * n + 16].try_into().unwrap()
    }
}

impl Default for Machine {
    fn default() -> Machine {
        Machine::new()
    }
}

impl fmt::Display for Report {
    fn fmt(&self, f: &mut fmt::Formatter<'_>) -> fmt::Result {
        write!(
            f,
            "answer {} steps {} place {}",
            self.answer as u32, self.count, self.place
        )
    }
}
