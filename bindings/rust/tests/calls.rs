//! Calls of the archive from Rust: the layout, a kernel in one run, in steps and on several
//! threads, every answer, and empty slices.

#[path = "../examples/sample/mod.rs"]
mod sample;

use card::{Answer, Machine, Report, MEMORY_MAX, WORDS_MAX};
use std::mem::{offset_of, size_of};
use std::thread;

const MEMORY: &str = "correction.mem";
const EXPECTED: &str = "correction.expected";

fn addi(d: u32, a: u32, n: u16) -> u32 {
    14 << 26 | d << 21 | a << 16 | u32::from(n)
}

fn ended(answer: Answer, count: u32, place: u32) -> Report {
    Report {
        answer,
        count,
        place,
    }
}

#[test]
fn the_layout_is_that_of_the_header() {
    assert_eq!(size_of::<Machine>(), 644);
    let found = [
        offset_of!(Machine, v),
        offset_of!(Machine, g),
        offset_of!(Machine, nj),
        offset_of!(Machine, sat),
        offset_of!(Machine, cr6),
    ];
    assert_eq!(found, [0, 512, 640, 641, 642]);
}

#[test]
fn a_new_machine_is_zero() {
    let m = Machine::new();
    assert_eq!(
        m,
        Machine {
            v: [0; 512],
            g: [0; 32],
            nj: false,
            sat: false,
            cr6: 0
        }
    );
}

#[test]
fn the_sample_leaves_what_is_expected() {
    let (code, mut memory) = (sample::kernel(), sample::bytes(MEMORY));
    let mut m = Machine::new();
    assert_eq!(
        m.run(&code, &mut memory, 0, 0, 1000),
        ended(Answer::Done, 20, 20)
    );
    assert_eq!(memory, sample::bytes(EXPECTED));
    assert!(!m.sat);
    assert_eq!(m.vector(8), memory[..16]);
}

#[test]
fn steps_leave_what_a_run_leaves() {
    let code = sample::kernel();
    let (mut once, mut stepped) = (Machine::new(), Machine::new());
    let (mut by_run, mut by_steps) = (sample::bytes(MEMORY), sample::bytes(MEMORY));
    once.run(&code, &mut by_run, 0, 0, 1000);
    for place in 0..20 {
        let answer = if place == 19 {
            Answer::Done
        } else {
            Answer::Spent
        };
        assert_eq!(
            stepped.step(&code, &mut by_steps, 0, place),
            ended(answer, 1, place + 1)
        );
    }
    assert_eq!((once, by_run), (stepped, by_steps));
}

#[test]
fn each_answer_in_its_case() {
    let lvx = 0x7c2118ce; // lvx v1, r1, r3
    let mut m = Machine::new();
    let mut memory = vec![0; MEMORY_MAX + 16];
    let long = vec![addi(1, 1, 1); WORDS_MAX + 1];
    assert_eq!(
        m.run(&long[..1], &mut memory[..16], 8, 0, 5),
        ended(Answer::Misplaced, 0, 0)
    );
    assert_eq!(
        m.run(&long[..1], &mut memory, 0, 0, 5),
        ended(Answer::Misplaced, 0, 0)
    );
    assert_eq!(
        m.run(&long, &mut memory[..16], 0, 0, 5),
        ended(Answer::LongCode, 0, 0)
    );
    assert_eq!(
        m.run(&long[..1], &mut memory[..16], 0, 2, 5),
        ended(Answer::BadStart, 0, 2)
    );
    assert_eq!(m, Machine::new());
    assert_eq!(
        m.run(&long[..3], &mut memory[..16], 0, 0, 2),
        ended(Answer::Spent, 2, 2)
    );
    assert_eq!(
        m.run(&long[..3], &mut memory[..16], 0, 2, 1),
        ended(Answer::Done, 1, 3)
    );
    assert_eq!(
        m.run(&[addi(1, 0, 16), 0], &mut memory[..16], 0, 0, 5),
        ended(Answer::NoInstruction, 1, 1)
    );
    assert_eq!(
        m.run(&[addi(1, 0, 16), lvx | 1], &mut memory[..16], 0, 0, 5),
        ended(Answer::Reserved, 1, 1)
    );
    assert_eq!(
        m.run(&[addi(1, 0, 16), lvx], &mut memory[..16], 0, 0, 5),
        ended(Answer::Outside, 1, 1)
    );
}

#[test]
fn empty_slices_are_taken() {
    let mut m = Machine::new();
    assert_eq!(m.run(&[], &mut [], 0, 0, 5), ended(Answer::Done, 0, 0));
    assert_eq!(m.step(&[], &mut [], 16, 0), ended(Answer::Done, 0, 0));
    assert_eq!(m.run(&[], &mut [], 0, 1, 5), ended(Answer::BadStart, 0, 1));
    assert_eq!(m, Machine::new());
    assert_eq!(
        m.run(&[addi(2, 0, 7)], &mut [], 0, 0, 5),
        ended(Answer::Done, 1, 1)
    );
    assert_eq!(m.g[2], 7);
}

#[test]
fn threads_do_not_meet() {
    let code = sample::kernel();
    let work = |seed: u16| {
        let mut m = Machine::new();
        let mut left = Vec::new();
        for line in 0..500u16 {
            let mut memory = sample::bytes(MEMORY);
            for (lane, at) in memory[..16].chunks_exact_mut(2).enumerate() {
                at.copy_from_slice(
                    &(seed.wrapping_mul(4099) ^ (line * 8 + lane as u16)).to_be_bytes(),
                );
            }
            m.run(&code, &mut memory, 0, 0, 1000);
            left.extend_from_slice(&memory[..16]);
        }
        (m, left)
    };
    let alone: Vec<_> = (0..4).map(&work).collect();
    let together: Vec<_> = thread::scope(|s| {
        let started: Vec<_> = (0..4).map(|seed| s.spawn(move || work(seed))).collect();
        started.into_iter().map(|one| one.join().unwrap()).collect()
    });
    assert_eq!(alone, together);
}
