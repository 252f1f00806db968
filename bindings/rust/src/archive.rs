//! The three functions of the archive. All that is unsafe is here.

use crate::{Answer, Machine, Report};

#[repr(C)]
struct CardReport {
    answer: u32,
    count: u32,
    place: u32,
}

extern "C" {
    fn card_new() -> Machine;
    fn card_run(
        m: *mut Machine,
        code: *const u32,
        words: usize,
        mem: *mut u8,
        bytes: usize,
        base: u32,
        place: u32,
        allowance: u32,
    ) -> CardReport;
    fn card_step(
        m: *mut Machine,
        code: *const u32,
        words: usize,
        mem: *mut u8,
        bytes: usize,
        base: u32,
        place: u32,
    ) -> CardReport;
}

fn report(r: CardReport) -> Report {
    let answer = match r.answer {
        0 => Answer::Done,
        1 => Answer::Spent,
        2 => Answer::Misplaced,
        3 => Answer::LongCode,
        4 => Answer::BadStart,
        5 => Answer::NoInstruction,
        6 => Answer::Reserved,
        7 => Answer::Outside,
        n => unreachable!("there is no answer {n}"),
    };
    Report {
        answer,
        count: r.count,
        place: r.place,
    }
}

pub fn new() -> Machine {
    // SAFETY: it takes nothing, and returns a machine in C's layout, which is that of `Machine`.
    unsafe { card_new() }
}

pub fn run(
    m: &mut Machine,
    code: &[u32],
    mem: &mut [u8],
    base: u32,
    place: u32,
    allowance: u32,
) -> Report {
    // SAFETY: the pointers and lengths are those of borrows, two of them exclusive, which last as
    // long as the call. The archive asks nothing of the numbers.
    report(unsafe {
        card_run(
            m,
            code.as_ptr(),
            code.len(),
            mem.as_mut_ptr(),
            mem.len(),
            base,
            place,
            allowance,
        )
    })
}

pub fn step(m: &mut Machine, code: &[u32], mem: &mut [u8], base: u32, place: u32) -> Report {
    // SAFETY: as in `run`.
    report(unsafe {
        card_step(
            m,
            code.as_ptr(),
            code.len(),
            mem.as_mut_ptr(),
            mem.len(),
            base,
            place,
        )
    })
}
