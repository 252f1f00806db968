//! Register contents: edge values at each width, patterns, small numbers and chance.

use crate::random::Random;
use second::{Lane, Vector};

const BYTES: [u8; 9] = [0, 1, 0x7f, 0x80, 0xff, 0xfe, 0x81, 0x55, 0xaa];
const HALVES: [u16; 14] = [
    0, 1, 0x7fff, 0x8000, 0xffff, 0x7ffe, 0x8001, 0xfffe, 0x00ff, 0x0100, 0x007f, 0x0080, 0xff80,
    0xff7f,
];
const WORDS: [u32; 14] = [
    0,
    1,
    0x7fff_ffff,
    0x8000_0000,
    0xffff_ffff,
    0x7fff_fffe,
    0x8000_0001,
    0xffff_fffe,
    0x0000_ffff,
    0x0001_0000,
    0x0000_7fff,
    0x0000_8000,
    0xffff_8000,
    0xffff_7fff,
];
const PATTERNS: [u32; 6] = [
    0x00ff_00ff,
    0xff00_ff00,
    0x7f80_7f80,
    0x5555_5555,
    0xaaaa_aaaa,
    0x0000_ffff,
];

/// The 32 vectors of a case. Tame ones hold small numbers, so that sums and packs do not clip.
pub fn vectors(random: &mut Random) -> [Vector; 32] {
    let tame = random.once_in(4);
    let mut all = [Vector::ZERO; 32];
    for i in 0..32 {
        all[i] = match random.below(8) {
            // Nearly a register made before, for compares.
            0 if i > 0 => {
                let earlier = random.pick(&all[..i]);
                nearly(random, earlier)
            }
            _ if tame => small(random),
            1 => small(random),
            _ => wild(random),
        };
    }
    all
}

/// The vector itself, or the vector with one bit changed.
fn nearly(random: &mut Random, vector: Vector) -> Vector {
    if random.once_in(2) {
        vector
    } else {
        Vector::from_quad(vector.quad() ^ 1 << random.below(128))
    }
}

fn wild(random: &mut Random) -> Vector {
    match random.below(10) {
        0 => u8::build(|_| random.pick(&BYTES)),
        1 => u16::build(|_| random.pick(&HALVES)),
        2 => u32::build(|_| random.pick(&WORDS)),
        3 => splat(random.pick(&BYTES)),
        4 => splat(random.pick(&HALVES)),
        5 => splat(random.pick(&WORDS)),
        6 => splat(random.pick(&PATTERNS)),
        7 if random.once_in(4) => Vector::ZERO,
        _ => Vector::from_quad(random.quad()),
    }
}

fn small(random: &mut Random) -> Vector {
    match random.below(5) {
        0 => u8::build(|_| random.below(32) as u8),
        1 => u16::build(|_| random.below(256) as u16),
        2 => u32::build(|_| random.below(1 << 16)),
        3 => i16::build(|_| random.below(128) as i16 - 64),
        _ => i32::build(|_| random.below(1 << 15) as i32 - (1 << 14)),
    }
}

fn splat<T: Lane>(value: T) -> Vector {
    T::build(|_| value)
}

/// Memory bytes: edge values and chance, line by line.
pub fn memory(random: &mut Random, length: u32) -> Vec<u8> {
    let mut bytes = Vec::with_capacity(length as usize + 16);
    while bytes.len() < length as usize {
        bytes.extend(wild(random).to_memory());
    }
    bytes.truncate(length as usize);
    bytes
}

/// The general registers of a case: most of them such that sums of two lie in or near the
/// memory of `length` bytes at `base`, also by wrapping.
pub fn registers(random: &mut Random, base: u32, length: u32) -> [u32; 32] {
    let end = base.wrapping_add(length);
    let edges = [
        base,
        end,
        base.wrapping_sub(1),
        base.wrapping_sub(16),
        end.wrapping_sub(1),
        end.wrapping_sub(16),
        end.wrapping_add(15),
    ];
    let constants = [
        0,
        1,
        15,
        16,
        0x7fff_ffff,
        0x8000_0000,
        0xffff_fff0,
        0xffff_ffff,
    ];
    let mut all = [0_u32; 32];
    for i in 0..32 {
        all[i] = match random.below(20) {
            0..=6 => base.wrapping_add(random.below(length + 1)),
            7..=10 => random.below(33),
            11 => random.below(33).wrapping_neg(),
            12..=14 => random.pick(&edges),
            // With the register before it, a place in memory; the sum may wrap.
            15..=16 if i > 0 => base
                .wrapping_add(random.below(length + 1))
                .wrapping_sub(all[i - 1]),
            17 => random.pick(&constants),
            _ => random.word(),
        };
    }
    all
}
