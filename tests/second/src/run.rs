//! The run: its checks, its loop, and the numbers it gives back (document 01).

use crate::execute::execute;
use crate::machine::Machine;
use crate::memory::Memory;
use crate::word::Word;

/// The most code words that are run.
pub const MOST_WORDS: usize = 16_384;

/// Document 01's numbers.
#[derive(Clone, Copy, PartialEq, Eq, Debug)]
pub enum Answer {
    Finished = 0,
    AllowanceUsed = 1,
    MemoryMisplaced = 2,
    CodeTooLong = 3,
    PlaceBeyondCode = 4,
    UnknownWord = 5,
    ReservedBit = 6,
    AddressOutside = 7,
}

impl Answer {
    pub fn number(self) -> u32 {
        self as u32
    }
}

#[derive(Clone, Copy, PartialEq, Eq, Debug)]
pub struct Outcome {
    pub answer: Answer,
    /// Words completed.
    pub count: u32,
    /// Place of the next word.
    pub place: u32,
}

/// Runs the code from `place` for at most `allowance` words, altering machine and memory.
pub fn run(
    machine: &mut Machine,
    code: &[u32],
    memory: &mut [u8],
    base: u32,
    place: u32,
    allowance: u32,
) -> Outcome {
    let refused = |answer| Outcome {
        answer,
        count: 0,
        place,
    };
    let Some(mut memory) = Memory::place(memory, base) else {
        return refused(Answer::MemoryMisplaced);
    };
    if code.len() > MOST_WORDS {
        return refused(Answer::CodeTooLong);
    }
    let Some(rest) = code.get(place as usize..) else {
        return refused(Answer::PlaceBeyondCode);
    };
    let mut count = 0;
    let answer = loop {
        let Some(&word) = rest.get(count as usize) else {
            break Answer::Finished;
        };
        if count == allowance {
            break Answer::AllowanceUsed;
        }
        if let Err(answer) = execute(machine, &mut memory, Word(word)) {
            break answer;
        }
        count += 1;
    };
    Outcome {
        answer,
        count,
        place: place + count,
    }
}
