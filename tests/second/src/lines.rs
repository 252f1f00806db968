//! Document 01's printing program, and the lines that it shares with `card`.

use crate::machine::Machine;
use crate::run::{run, Outcome};
use crate::vector::Vector;
use std::fmt::Write;

/// The longest input, in bytes.
pub const MOST_INPUT: usize = 65_536;
const ALLOWANCE: u32 = 65_536;

/// What the printing program prints for this input.
pub fn emulate(input: &[u8]) -> String {
    let Some(code) = words(input).filter(|_| input.len() <= MOST_INPUT) else {
        return "bad input\n".to_string();
    };
    let mut machine = Machine::default();
    let outcome = run(&mut machine, &code, &mut [], 0, 0, ALLOWANCE);
    outcome_lines(&outcome, &machine)
}

/// Big-endian words, if the bytes are whole words.
pub fn words(bytes: &[u8]) -> Option<Vec<u32>> {
    let (words, rest) = bytes.as_chunks();
    rest.is_empty()
        .then(|| words.iter().map(|&word| u32::from_be_bytes(word)).collect())
}

/// The line of the outcome, and a line for each vector that is not zero.
pub fn outcome_lines(outcome: &Outcome, machine: &Machine) -> String {
    let mut text = format!(
        "answer {} steps {} place {} sat {} nj {} cr6 {:04b}\n",
        outcome.answer.number(),
        outcome.count,
        outcome.place,
        u8::from(machine.sat),
        u8::from(machine.nj),
        machine.cr6,
    );
    for (i, vector) in machine.vr.iter().enumerate() {
        if *vector != Vector::ZERO {
            writeln!(text, "v{i} {vector:?}").expect("a string takes every line");
        }
    }
    text
}

/// A line for each general register that is not zero.
pub fn register_lines(machine: &Machine) -> String {
    let mut text = String::new();
    for (i, register) in machine.gpr.iter().enumerate() {
        if *register != 0 {
            writeln!(text, "r{i} {register:08x}").expect("a string takes every line");
        }
    }
    text
}

#[cfg(test)]
mod tests {
    use super::*;

    fn bytes(words: &[u32]) -> Vec<u8> {
        words.iter().flat_map(|word| word.to_be_bytes()).collect()
    }

    #[test]
    fn the_printed_example() {
        let input = bytes(&[0x103f030c, 0x10410a00, 0x10611406]);
        let expected = "answer 0 steps 3 place 3 sat 1 nj 0 cr6 1000\n\
                        v1 ffffffffffffffffffffffffffffffff\n\
                        v2 ffffffffffffffffffffffffffffffff\n\
                        v3 ffffffffffffffffffffffffffffffff\n";
        assert_eq!(emulate(&input), expected);
    }

    #[test]
    fn empty_input_is_finished_at_once() {
        assert_eq!(
            emulate(&[]),
            "answer 0 steps 0 place 0 sat 0 nj 0 cr6 0000\n"
        );
    }

    #[test]
    fn bad_lengths() {
        assert_eq!(emulate(&[0x10, 0, 0]), "bad input\n");
        assert_eq!(emulate(&vec![0; 65_540]), "bad input\n");
        assert_eq!(emulate(&vec![0; 65_537]), "bad input\n");
    }

    #[test]
    fn the_longest_input_runs_to_its_end() {
        let input = bytes(&[0x10000484; 16_384]);
        assert_eq!(
            emulate(&input),
            "answer 0 steps 16384 place 16384 sat 0 nj 0 cr6 0000\n"
        );
    }

    #[test]
    fn there_is_no_memory() {
        let lvx = bytes(&[0x7c0000ce]);
        assert_eq!(
            emulate(&lvx),
            "answer 7 steps 0 place 0 sat 0 nj 0 cr6 0000\n"
        );
    }

    #[test]
    fn general_registers_have_lines_of_their_own() {
        let mut machine = Machine::default();
        machine.gpr[3] = 0x1000;
        machine.gpr[31] = u32::MAX;
        assert_eq!(register_lines(&machine), "r3 00001000\nr31 ffffffff\n");
    }
}
