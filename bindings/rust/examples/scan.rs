//! A scan through the card, as examples/scan.c at the repository's root has it: the kernel of
//! samples/ over 64 lines of eight samples, on one machine, with the memory filled anew for each
//! line. The residual is the greatest distance of a sample from the polynomial, in units of the
//! last place.

mod sample;

use card::{Answer, Machine};

const LINES: i32 = 64;
const LANES: i32 = 8;
const LINE: usize = 16;
const OFFSET_FROM: i32 = 56;
const OFFSET: i16 = 4096;

fn half(memory: &[u8], at: usize) -> f64 {
    f64::from(i16::from_be_bytes([memory[at], memory[at + 1]]))
}

fn set_half(memory: &mut [u8], at: usize, n: i16) {
    memory[at..at + 2].copy_from_slice(&n.to_be_bytes());
}

/// The polynomial at a sample; line k of the memory has the k-th coefficient in each lane, the
/// highest first.
fn polynomial(memory: &[u8], sample: i16) -> f64 {
    let x = f64::from(sample) / 32768.0;
    (1..=6).fold(0.0, |p, k| p * x + half(memory, LINE * k) / 32768.0) * 32768.0
}

fn main() {
    let code = sample::kernel();
    let start = sample::bytes("correction.mem");
    let mut machine = Machine::new();
    let (mut worst, mut clipped) = (0f64, 0);
    for line in 0..LINES {
        let mut memory = start.clone();
        let samples: Vec<i16> = (0..LANES)
            .map(|lane| ((LANES * line + lane) * 64) as i16)
            .collect();
        for (lane, &n) in samples.iter().enumerate() {
            set_half(&mut memory, 2 * lane, n);
            if line >= OFFSET_FROM {
                set_half(&mut memory, 6 * LINE + 2 * lane, OFFSET);
            }
        }
        machine.sat = false;
        let report = machine.run(&code, &mut memory, 0, 0, 1000);
        assert_eq!(report.answer, Answer::Done, "line {line}: {report}");
        let off = samples
            .iter()
            .enumerate()
            .map(|(lane, &n)| (half(&memory, 2 * lane) - polynomial(&memory, n)).abs());
        let residual = off.fold(0.0, f64::max);
        let corrected: String = (0..samples.len())
            .map(|lane| format!(" {}", half(&memory, 2 * lane)))
            .collect();
        println!(
            "line {line:2} sat {} residual {residual:.2}:{corrected}",
            u8::from(machine.sat)
        );
        if machine.sat {
            clipped += 1;
        } else {
            worst = worst.max(residual);
        }
    }
    println!(
        "{LINES} lines, {clipped} with a clipped lane; residual of the others at most {worst:.2}"
    );
}
