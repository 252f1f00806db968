//! The smallest case that still shows a difference, by leaving things out one after another.

use second::batch::Case;
use second::{run, Machine, Vector};

/// Leaves out what it can while the case `differs`.
pub fn shrink(case: Case, mut differs: impl FnMut(&Case) -> bool) -> Case {
    let mut smallest = case;
    loop {
        let before = smallest.clone();
        for pass in [cut_code, run_ahead, cut_run, cut_memory, cut_machine] {
            pass(&mut smallest, &mut differs);
        }
        if smallest == before {
            return smallest;
        }
    }
}

type Differs<'a> = &'a mut dyn FnMut(&Case) -> bool;

/// Takes the change if the case still differs.
fn attempt(case: &mut Case, differs: Differs, change: impl FnOnce(&mut Case)) -> bool {
    let mut changed = case.clone();
    change(&mut changed);
    let taken = changed != *case && differs(&changed);
    if taken {
        *case = changed;
    }
    taken
}

/// Fewer words: long stretches first, then single ones.
fn cut_code(case: &mut Case, differs: Differs) {
    let mut stretch = case.code.len();
    while stretch > 0 {
        let mut start = 0;
        while start < case.code.len() {
            let end = (start + stretch).min(case.code.len());
            let taken = attempt(case, differs, |case| {
                case.code.drain(start..end);
                let before = (case.place as usize).clamp(start, end) - start;
                case.place -= before as u32;
            });
            if !taken {
                start = end;
            }
        }
        stretch /= 2;
    }
}

/// Leaves out the first word and starts from what the second program makes of it.
fn run_ahead(case: &mut Case, differs: Differs) {
    while attempt(case, differs, |case| {
        let (base, place) = (case.base, case.place);
        let outcome = run(
            &mut case.machine,
            &case.code,
            &mut case.memory,
            base,
            place,
            1,
        );
        if outcome.count == 1 {
            case.code.drain(..outcome.place as usize);
            case.place = 0;
        }
    }) {}
}

/// A plain place and allowance.
fn cut_run(case: &mut Case, differs: Differs) {
    attempt(case, differs, |case| case.place = 0);
    attempt(case, differs, |case| case.allowance = u32::MAX);
    attempt(case, differs, |case| case.base = 0);
}

/// Less memory, and zeros in it.
fn cut_memory(case: &mut Case, differs: Differs) {
    attempt(case, differs, |case| case.memory.clear());
    while attempt(case, differs, |case| {
        let half = case.memory.len() / 32 * 16;
        case.memory.truncate(half);
    }) {}
    while attempt(case, differs, |case| {
        let less = case.memory.len().saturating_sub(16);
        case.memory.truncate(less);
    }) {}
    attempt(case, differs, |case| case.memory.fill(0));
    for start in (0..case.memory.len()).step_by(16) {
        let end = (start + 16).min(case.memory.len());
        attempt(case, differs, |case| case.memory[start..end].fill(0));
        if case.memory[start..end].iter().any(|&byte| byte != 0) {
            for i in start..end {
                attempt(case, differs, |case| case.memory[i] = 0);
            }
        }
    }
}

/// Zeros in the machine.
fn cut_machine(case: &mut Case, differs: Differs) {
    attempt(case, differs, |case| case.machine = Machine::default());
    attempt(case, differs, |case| case.machine.vr = [Vector::ZERO; 32]);
    attempt(case, differs, |case| case.machine.gpr = [0; 32]);
    attempt(case, differs, |case| case.machine.nj = false);
    attempt(case, differs, |case| case.machine.sat = false);
    attempt(case, differs, |case| case.machine.cr6 = 0);
    for i in 0..32 {
        attempt(case, differs, |case| case.machine.gpr[i] = 0);
        attempt(case, differs, |case| case.machine.vr[i] = Vector::ZERO);
        for byte in 0..16 {
            attempt(case, differs, |case| {
                let quad = case.machine.vr[i].quad() & !(0xff << (8 * byte));
                case.machine.vr[i] = Vector::from_quad(quad);
            });
        }
    }
}

#[cfg(test)]
mod tests {
    use super::*;

    #[test]
    fn everything_that_does_not_matter_goes() {
        let mut case = Case {
            code: (0..100).collect(),
            memory: vec![3; 256],
            base: 0x1000,
            place: 2,
            allowance: 70,
            machine: Machine::default(),
        };
        case.machine.vr[5] = Vector::from_quad(0x1122);
        case.machine.gpr[7] = 9;
        let needed =
            |case: &Case| case.code.contains(&41) && case.machine.vr[5].quad() & 0xff00 != 0;
        let small = shrink(case, needed);
        assert_eq!(small.code, [41]);
        assert_eq!((small.base, small.place), (0, 0));
        assert!(small.memory.is_empty());
        assert_eq!(small.machine.vr[5], Vector::from_quad(0x1100));
        assert_eq!(small.machine.gpr[7], 0);
    }

    #[test]
    fn words_that_only_prepare_are_run_and_go() {
        // addi r1,0,5; lvsl v1,0,r1
        let case = Case {
            code: vec![0x3820_0005, 0x7c20_080c],
            allowance: u32::MAX,
            ..Case::default()
        };
        let needed = |case: &Case| case.reply().state[16] == 5 && !case.code.is_empty();
        let small = shrink(case, needed);
        assert_eq!(small.code.len(), 1);
    }

    #[test]
    fn words_before_the_place_go_with_it() {
        let case = Case {
            code: vec![1, 2, 3, 4],
            place: 2,
            ..Case::default()
        };
        let needed = |case: &Case| case.code.get(case.place as usize) == Some(&3);
        let small = shrink(case, needed);
        assert_eq!((small.code, small.place), (vec![3], 0));
    }
}
