//! A case and a difference as text.

use crate::catalogue::{describe, Catalogue};
use second::batch::{Case, Reply};
use second::{lines, Vector, STATE_BYTES};
use std::fmt::Write;
use std::io;

/// The longest code of which every word is shown.
const MOST_SHOWN: usize = 32;

/// The case: its program, and what is not zero in machine and memory.
pub fn case(catalogue: &Catalogue, case: &Case) -> String {
    let mut text = format!(
        "words {}, memory {} bytes at {:#x}, place {}, allowance {}\n",
        case.code.len(),
        case.memory.len(),
        case.base,
        case.place,
        case.allowance,
    );
    for word in case.code.iter().take(MOST_SHOWN) {
        line(&mut text, format!("  {}", describe(catalogue, *word)));
    }
    if case.code.len() > MOST_SHOWN {
        line(&mut text, "  and more".to_string());
    }
    let machine = &case.machine;
    if machine.nj || machine.sat || machine.cr6 != 0 {
        let (nj, sat) = (u8::from(machine.nj), u8::from(machine.sat));
        line(
            &mut text,
            format!("  sat {sat} nj {nj} cr6 {:04b}", machine.cr6),
        );
    }
    for (i, vector) in machine.vr.iter().enumerate() {
        if *vector != Vector::ZERO {
            line(&mut text, format!("  v{i} {vector:?}"));
        }
    }
    for register in lines::register_lines(machine).lines() {
        line(&mut text, format!("  {register}"));
    }
    for (i, quad) in case.memory.chunks(16).enumerate() {
        if quad.iter().any(|&byte| byte != 0) {
            let address = case.base.wrapping_add(16 * i as u32);
            line(&mut text, format!("  memory {address:08x} {}", hex(quad)));
        }
    }
    text
}

/// What the second program says and what the other says, where they differ.
pub fn difference(case: &Case, second: &Reply, ours: io::Result<Reply>) -> String {
    let ours = match ours {
        Ok(reply) => reply,
        Err(error) => return format!("the program gave no reply: {error}\n"),
    };
    let mut text = String::new();
    let mut compare = |name: String, second: String, ours: String| {
        if second != ours {
            line(&mut text, format!("{name}: second {second}, ours {ours}"));
        }
    };
    let numbers = |reply: &Reply| format!("{} {} {}", reply.answer, reply.count, reply.place);
    compare(
        "answer steps place".to_string(),
        numbers(second),
        numbers(&ours),
    );
    for at in (0..STATE_BYTES - 132).step_by(16) {
        let name = match at / 16 {
            32 => "status".to_string(),
            i => format!("v{i}"),
        };
        let part = at..at + 16;
        compare(
            name,
            hex(&second.state[part.clone()]),
            hex(&ours.state[part]),
        );
    }
    for at in (STATE_BYTES - 132..STATE_BYTES).step_by(4) {
        let name = match (at - (STATE_BYTES - 132)) / 4 {
            32 => "condition register".to_string(),
            i => format!("r{i}"),
        };
        let part = at..at + 4;
        compare(
            name,
            hex(&second.state[part.clone()]),
            hex(&ours.state[part]),
        );
    }
    let quads = second.memory.chunks(16).zip(ours.memory.chunks(16));
    for (i, (second, ours)) in quads.enumerate() {
        let address = case.base.wrapping_add(16 * i as u32);
        compare(format!("memory {address:08x}"), hex(second), hex(ours));
    }
    text
}

fn line(text: &mut String, line: String) {
    text.push_str(&line);
    text.push('\n');
}

fn hex(bytes: &[u8]) -> String {
    bytes.iter().fold(String::new(), |mut text, byte| {
        write!(text, "{byte:02x}").expect("a string takes every digit");
        text
    })
}
