//! The batch form: cases in, replies out, over a pair of pipes (docs/TESTING.md).
//!
//! All numbers are big-endian 32-bit words.

use crate::machine::{Machine, STATE_BYTES};
use crate::run::run;
use std::io::{self, ErrorKind, Read, Write};

/// One word and one line more than a run accepts, so that its refusals can be seen.
pub const MOST_CODE_WORDS: usize = 16_385;
pub const MOST_MEMORY_BYTES: usize = 65_552;

/// All that a run is given.
#[derive(Clone, PartialEq, Eq, Debug, Default)]
pub struct Case {
    pub code: Vec<u32>,
    pub memory: Vec<u8>,
    pub base: u32,
    pub place: u32,
    pub allowance: u32,
    pub machine: Machine,
}

/// All that a run gives back. The state is kept as bytes, so that stray bits are seen.
#[derive(Clone, PartialEq, Eq, Debug)]
pub struct Reply {
    pub answer: u32,
    pub count: u32,
    pub place: u32,
    pub state: [u8; STATE_BYTES],
    pub memory: Vec<u8>,
}

impl Case {
    /// The case run by this program.
    pub fn reply(&self) -> Reply {
        let mut machine = self.machine.clone();
        let mut memory = self.memory.clone();
        let outcome = run(
            &mut machine,
            &self.code,
            &mut memory,
            self.base,
            self.place,
            self.allowance,
        );
        Reply {
            answer: outcome.answer.number(),
            count: outcome.count,
            place: outcome.place,
            state: machine.to_state(),
            memory,
        }
    }

    pub fn write(&self, out: &mut impl Write) -> io::Result<()> {
        let sizes = [self.code.len() as u32, self.memory.len() as u32];
        for word in sizes.iter().chain(&[self.base, self.place, self.allowance]) {
            out.write_all(&word.to_be_bytes())?;
        }
        for word in &self.code {
            out.write_all(&word.to_be_bytes())?;
        }
        out.write_all(&self.memory)?;
        out.write_all(&self.machine.to_state())
    }

    /// The next case, or none where the input ends.
    pub fn read(input: &mut impl Read) -> io::Result<Option<Case>> {
        let mut first = [0; 1];
        if input.read(&mut first)? == 0 {
            return Ok(None);
        }
        let mut rest = [0; 3];
        input.read_exact(&mut rest)?;
        let words = u32::from_be_bytes([first[0], rest[0], rest[1], rest[2]]) as usize;
        let bytes = read_word(input)? as usize;
        if words > MOST_CODE_WORDS || bytes > MOST_MEMORY_BYTES {
            return Err(io::Error::new(ErrorKind::InvalidData, "a case too large"));
        }
        let (base, place, allowance) = (read_word(input)?, read_word(input)?, read_word(input)?);
        let code = (0..words)
            .map(|_| read_word(input))
            .collect::<io::Result<_>>()?;
        let mut memory = vec![0; bytes];
        input.read_exact(&mut memory)?;
        let mut state = [0; STATE_BYTES];
        input.read_exact(&mut state)?;
        Ok(Some(Case {
            code,
            memory,
            base,
            place,
            allowance,
            machine: Machine::from_state(&state),
        }))
    }
}

impl Reply {
    pub fn write(&self, out: &mut impl Write) -> io::Result<()> {
        for word in [self.answer, self.count, self.place] {
            out.write_all(&word.to_be_bytes())?;
        }
        out.write_all(&self.state)?;
        out.write_all(&self.memory)
    }

    /// The reply to a case with this much memory.
    pub fn read(input: &mut impl Read, memory_bytes: usize) -> io::Result<Reply> {
        let (answer, count, place) = (read_word(input)?, read_word(input)?, read_word(input)?);
        let mut state = [0; STATE_BYTES];
        input.read_exact(&mut state)?;
        let mut memory = vec![0; memory_bytes];
        input.read_exact(&mut memory)?;
        Ok(Reply {
            answer,
            count,
            place,
            state,
            memory,
        })
    }
}

/// Answers every case of the input, each before the next is read.
pub fn serve(input: &mut impl Read, out: &mut impl Write) -> io::Result<()> {
    while let Some(case) = Case::read(input)? {
        case.reply().write(out)?;
        out.flush()?;
    }
    Ok(())
}

fn read_word(input: &mut impl Read) -> io::Result<u32> {
    let mut bytes = [0; 4];
    input.read_exact(&mut bytes)?;
    Ok(u32::from_be_bytes(bytes))
}

#[cfg(test)]
mod tests {
    use super::*;

    fn some_case() -> Case {
        let mut machine = Machine::default();
        machine.gpr[2] = 0x1008;
        Case {
            code: vec![0x7c20_10ce, 0x7c20_11ce],
            memory: (0..16).collect(),
            base: 0x1000,
            place: 0,
            allowance: 9,
            machine,
        }
    }

    #[test]
    fn a_case_read_back_is_the_same() {
        let mut bytes = Vec::new();
        some_case().write(&mut bytes).unwrap();
        assert_eq!(bytes.len(), 20 + 8 + 16 + 660);
        assert_eq!(bytes[..8], [0, 0, 0, 2, 0, 0, 0, 16]);
        let mut input = bytes.as_slice();
        assert_eq!(Case::read(&mut input).unwrap(), Some(some_case()));
        assert_eq!(Case::read(&mut input).unwrap(), None);
    }

    #[test]
    fn each_case_is_answered_in_order() {
        let mut input = Vec::new();
        some_case().write(&mut input).unwrap();
        Case::default().write(&mut input).unwrap();
        let mut out = Vec::new();
        serve(&mut input.as_slice(), &mut out).unwrap();
        let mut replies = out.as_slice();
        let first = Reply::read(&mut replies, 16).unwrap();
        assert_eq!((first.answer, first.count, first.place), (0, 2, 2));
        assert_eq!(first.state[16..32], first.memory);
        assert_eq!(Reply::read(&mut replies, 0).unwrap().count, 0);
        assert!(replies.is_empty());
    }

    #[test]
    fn a_case_too_large_or_cut_short_is_an_error() {
        let large = 16_386_u32.to_be_bytes();
        let mut input = [large, [0; 4], [0; 4], [0; 4], [0; 4]].concat();
        assert!(Case::read(&mut input.as_slice()).is_err());
        input.clear();
        some_case().write(&mut input).unwrap();
        input.pop();
        assert!(Case::read(&mut input.as_slice()).is_err());
    }
}
