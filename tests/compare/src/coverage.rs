//! What the cases have met, and what they must meet.

use crate::catalogue::{Catalogue, Form, Instruction};
use second::batch::{Case, Reply};
use second::{run, Machine, Vector};
use std::collections::BTreeSet;
use std::fmt::Write;

/// Words of one case that are counted, so that long repetitions do not count for much.
const MOST_OBSERVED: u32 = 64;

const NEED_RUNS: u32 = 2_000;
const NEED_CLIPS: u32 = 200;
const NEED_RECORDS: u32 = 20;
const NEED_EDGES: u32 = 20;
const NEED_CASES: u32 = 20;

/// Where an address lies.
#[derive(Clone, Copy, PartialEq, Eq, Debug)]
pub enum Edge {
    Inside,
    FirstLine,
    LastLine,
    /// Inside, by a sum that passed 2^32.
    Wrapped,
    Outside,
    /// In the line after the last.
    OnePast,
    /// In the line before the first.
    OneBefore,
}

/// The edges that are counted for each instruction that touches memory.
const COUNTED_EDGES: [(Edge, &str); 5] = [
    (Edge::FirstLine, "first line"),
    (Edge::LastLine, "last line"),
    (Edge::Wrapped, "wrapped"),
    (Edge::OnePast, "one past"),
    (Edge::OneBefore, "one before"),
];

/// What a compare found.
#[derive(Clone, Copy, PartialEq, Eq, Debug)]
pub enum Truth {
    All,
    None,
    Some,
}

impl Truth {
    /// By the machine that the compare left.
    pub fn of(machine: &Machine, word: u32) -> Truth {
        match machine.vr[(word >> 21 & 31) as usize].quad() {
            u128::MAX => Truth::All,
            0 => Truth::None,
            _ => Truth::Some,
        }
    }
}

#[derive(Clone, Copy)]
pub struct Layout {
    pub base: u32,
    pub length: u32,
}

impl Layout {
    fn of(case: &Case) -> Layout {
        Layout {
            base: case.base,
            length: case.memory.len() as u32,
        }
    }

    /// Whether the address of an indexed word lies so.
    pub fn meets(&self, edge: Edge, gpr: &[u32; 32], word: u32) -> bool {
        let (a, wrapped) = match word >> 16 & 31 {
            0 => (0, false),
            a => (gpr[a as usize], true),
        };
        let b = gpr[(word >> 11 & 31) as usize];
        let offset = a.wrapping_add(b).wrapping_sub(self.base);
        let inside = offset < self.length;
        match edge {
            Edge::Inside => inside,
            Edge::FirstLine => inside && offset < 16,
            Edge::LastLine => inside && offset >= self.length - 16,
            Edge::Wrapped => inside && wrapped && a.checked_add(b).is_none(),
            Edge::Outside => !inside,
            Edge::OnePast => !inside && offset - self.length < 16,
            Edge::OneBefore => !inside && offset >= 0xffff_fff0,
        }
    }
}

#[derive(Clone, Default)]
struct Seen {
    runs: u32,
    clipped: u32,
    unclipped: u32,
    /// Recorded compares: all true, none true, some true.
    recorded: [u32; 3],
    edges: [u32; COUNTED_EDGES.len()],
    /// Field A zero while register 0 is not.
    zero_a: u32,
    /// D is one of the sources.
    target_read: u32,
}

pub struct Coverage<'a> {
    catalogue: &'a Catalogue,
    cases: u32,
    words: u64,
    seen: Vec<Seen>,
    answers: [u32; 8],
    reserved: BTreeSet<(usize, u32)>,
    unknown: [u32; 64],
    codes: BTreeSet<(u32, u32)>,
    /// Named things about whole cases, in the order of first mention.
    kinds: Vec<(&'static str, u32)>,
}

impl<'a> Coverage<'a> {
    pub fn new(catalogue: &'a Catalogue) -> Coverage<'a> {
        Coverage {
            catalogue,
            cases: 0,
            words: 0,
            seen: vec![Seen::default(); catalogue.all().len()],
            answers: [0; 8],
            reserved: BTreeSet::new(),
            unknown: [0; 64],
            codes: BTreeSet::new(),
            kinds: Vec::new(),
        }
    }

    /// Counts a case and what the second program says of it.
    ///
    /// The words are run one by one; that they leave what the whole run left is checked on the
    /// way.
    pub fn observe(&mut self, case: &Case, reply: &Reply) {
        self.cases += 1;
        self.answers[reply.answer as usize] += 1;
        self.observe_memory(case);
        self.observe_place(case, reply);
        if matches!(reply.answer, 2..=4) {
            return;
        }
        let mut machine = case.machine.clone();
        let mut memory = case.memory.clone();
        let observed = reply.count.min(MOST_OBSERVED);
        for place in case.place..case.place + observed {
            let word = case.code[place as usize];
            self.observe_word(Layout::of(case), &mut machine, &mut memory, word);
        }
        if observed < reply.count {
            return;
        }
        if reply.answer >= 5 {
            let word = case.code[reply.place as usize];
            self.observe_stop(Layout::of(case), &machine, reply.answer, word);
        }
        assert!(
            machine.to_state() == reply.state && memory == reply.memory,
            "words run one by one leave something else than the whole run"
        );
    }

    fn observe_word(&mut self, at: Layout, machine: &mut Machine, memory: &mut [u8], word: u32) {
        let number = self.catalogue.find(word).expect("a word that completes");
        let instruction = self.catalogue.all()[number];
        let sources = instruction.sources(word);
        let d = (word >> 21 & 31) as usize;
        let nonzero = sources.iter().all(|&i| machine.vr[i] != Vector::ZERO);
        let nonzero = nonzero && nonzero_scalars(&instruction, machine, word);
        self.observe_address(number, at, machine, word);
        let sat = machine.sat;
        if instruction.clips {
            machine.sat = false;
        }
        run(machine, &[word], memory, at.base, 0, 1);
        let loaded = !matches!(instruction.form, Form::Load(_)) || machine.vr[d] != Vector::ZERO;
        let seen = &mut self.seen[number];
        seen.runs += u32::from(nonzero && loaded);
        if instruction.clips {
            seen.clipped += u32::from(machine.sat);
            seen.unclipped += u32::from(!machine.sat && nonzero);
            machine.sat |= sat;
        }
        if instruction.form == Form::Compare && word & 1 << 10 != 0 {
            seen.recorded[Truth::of(machine, word) as usize] += 1;
        }
        seen.target_read += u32::from(sources.contains(&d));
        self.words += 1;
        self.observe_code(word);
    }

    fn observe_stop(&mut self, at: Layout, machine: &Machine, answer: u32, word: u32) {
        self.observe_code(word);
        match (answer, self.catalogue.find(word)) {
            (5, None) => self.unknown[(word >> 26) as usize] += 1,
            (6, Some(number)) => {
                let stray = word & self.catalogue.all()[number].reserved;
                if stray.is_power_of_two() {
                    self.reserved.insert((number, stray));
                }
            }
            (7, Some(number)) => self.observe_address(number, at, machine, word),
            (_, found) => panic!("answer {answer} for {word:08x}, in the catalogue {found:?}"),
        }
    }

    fn observe_address(&mut self, number: usize, at: Layout, machine: &Machine, word: u32) {
        let instruction = &self.catalogue.all()[number];
        let seen = &mut self.seen[number];
        if instruction.touches_memory() {
            for (count, (edge, _)) in seen.edges.iter_mut().zip(COUNTED_EDGES) {
                *count += u32::from(at.meets(edge, &machine.gpr, word));
            }
        }
        let zero_a = has_scalar_a(instruction) && word >> 16 & 31 == 0 && machine.gpr[0] != 0;
        seen.zero_a += u32::from(zero_a);
    }

    fn observe_code(&mut self, word: u32) {
        let primary = word >> 26;
        if matches!(primary, 4 | 31) {
            self.codes.insert((primary, word & 0x7ff));
        }
    }

    fn observe_memory(&mut self, case: &Case) {
        let length = case.memory.len();
        let end = u64::from(case.base) + length as u64;
        self.kind("memory of length 0", length == 0);
        self.kind("memory of length 65536", length == 65_536);
        self.kind("memory at 0", case.base == 0);
        self.kind("memory that ends at 2^32", length > 0 && end == 1 << 32);
        self.kind("base no multiple of 16", !case.base.is_multiple_of(16));
        self.kind("length no multiple of 16", !length.is_multiple_of(16));
        self.kind("length above 65536", length > 65_536);
        self.kind("memory past 2^32", end > 1 << 32);
    }

    fn observe_place(&mut self, case: &Case, reply: &Reply) {
        let length = case.code.len() as u64;
        let place = u64::from(case.place);
        self.kind("code of 0 words", length == 0);
        self.kind("code of 16384 words", length == 16_384);
        self.kind("code of 16385 words", length == 16_385);
        self.kind("place 0", place == 0);
        self.kind("place inside", 0 < place && place < length);
        self.kind("place at the end", place == length);
        self.kind("place one beyond the end", place == length + 1);
        self.kind("place far beyond the end", place > length + 1);
        let left = length.saturating_sub(place);
        let allowance = u64::from(case.allowance);
        self.kind("allowance 0 at the end", allowance == 0 && left == 0);
        self.kind("allowance 0 before the end", allowance == 0 && left > 0);
        self.kind(
            "allowance one short",
            reply.answer == 1 && left == allowance + 1,
        );
        self.kind(
            "allowance just enough",
            reply.answer == 0 && left == allowance,
        );
        self.kind("allowance one more", left + 1 == allowance);
        self.kind("allowance the most", case.allowance == u32::MAX);
        self.kind("more than 1000 words completed", reply.count > 1_000);
        let stopped = reply.answer >= 5 && reply.count > 0;
        self.kind("stopped after some words", stopped);
        let just_before = reply.answer == 1
            && self
                .catalogue
                .find(case.code[reply.place as usize])
                .is_none();
        self.kind("allowance used up before an unknown word", just_before);
    }

    fn kind(&mut self, name: &'static str, met: bool) {
        match self.kinds.iter_mut().find(|(known, _)| *known == name) {
            Some((_, count)) => *count += u32::from(met),
            None => self.kinds.push((name, u32::from(met))),
        }
    }

    /// The counts, and what is short.
    pub fn report(&self) -> (String, Vec<String>) {
        let mut sheet = Sheet::default();
        sheet.line(format!(
            "cases {}, words observed {}",
            self.cases, self.words
        ));
        self.report_answers(&mut sheet);
        self.report_instructions(&mut sheet);
        self.report_edges(&mut sheet);
        for &(name, count) in &self.kinds {
            sheet.need(name, count, NEED_CASES);
            sheet.line(format!("{name}: {count}"));
        }
        (sheet.text, sheet.short)
    }

    fn report_answers(&self, sheet: &mut Sheet) {
        for (answer, &count) in self.answers.iter().enumerate() {
            sheet.need(&format!("answer {answer}"), count, NEED_CASES);
        }
        sheet.line(format!("answers 0 to 7: {:?}", self.answers));
        let bits: u32 = self
            .catalogue
            .all()
            .iter()
            .map(|i| i.reserved.count_ones())
            .sum();
        sheet.need("reserved bits set alone", self.reserved.len() as u32, bits);
        sheet.line(format!(
            "reserved bits set alone: {} of {bits}",
            self.reserved.len()
        ));
        // Every word of primary 14 is addi.
        let primaries = self.unknown.iter().filter(|&&count| count > 0).count();
        sheet.need("primaries with unknown words", primaries as u32, 63);
        sheet.line(format!("primaries with unknown words: {primaries} of 63"));
        sheet.need("low eleven bits", self.codes.len() as u32, 4096);
        sheet.line(format!(
            "low eleven bits of primaries 4 and 31: {} of 4096",
            self.codes.len()
        ));
    }

    fn report_instructions(&self, sheet: &mut Sheet) {
        sheet.line("instruction: runs with nonzero operands (clipped / not clipped)".to_string());
        let mut cells = Vec::new();
        for (instruction, seen) in self.catalogue.all().iter().zip(&self.seen) {
            let name = instruction.name;
            sheet.need(&format!("{name}: runs"), seen.runs, NEED_RUNS);
            let mut cell = format!("{name} {}", seen.runs);
            if instruction.clips {
                sheet.need(&format!("{name}: clipped"), seen.clipped, NEED_CLIPS);
                sheet.need(&format!("{name}: not clipped"), seen.unclipped, NEED_CLIPS);
                write!(cell, " ({} / {})", seen.clipped, seen.unclipped).expect("a string");
            }
            cells.push(cell);
        }
        for row in cells.chunks(4) {
            let row: String = row.iter().map(|cell| format!("  {cell:<30}")).collect();
            sheet.line(row.trim_end().to_string());
        }
        let target_read: u32 = self.seen.iter().map(|seen| seen.target_read).sum();
        sheet.need("D also a source", target_read, NEED_RUNS);
        sheet.line(format!("D also a source: {target_read}"));
    }

    fn report_edges(&self, sheet: &mut Sheet) {
        let pairs = || self.catalogue.all().iter().zip(&self.seen);
        for (instruction, seen) in pairs().filter(|(i, _)| i.form == Form::Compare) {
            let name = instruction.name;
            for (kind, count) in ["all", "none", "some"].iter().zip(seen.recorded) {
                sheet.need(&format!("{name}. {kind} true"), count, NEED_RECORDS);
            }
            sheet.line(format!("{name}. all, none, some true: {:?}", seen.recorded));
        }
        let names = COUNTED_EDGES.map(|(_, name)| name).join(", ");
        sheet.line(format!(
            "addresses: {names}; field A 0 with register 0 not 0"
        ));
        for (instruction, seen) in pairs().filter(|(i, _)| has_scalar_a(i)) {
            let name = instruction.name;
            sheet.need(&format!("{name}: field A 0"), seen.zero_a, NEED_EDGES);
            if instruction.touches_memory() {
                for ((_, edge), count) in COUNTED_EDGES.iter().zip(seen.edges) {
                    sheet.need(&format!("{name}: {edge}"), count, NEED_EDGES);
                }
                sheet.line(format!("  {name} {:?}; {}", seen.edges, seen.zero_a));
            } else {
                sheet.line(format!("  {name} {}", seen.zero_a));
            }
        }
    }
}

/// Whether the field A names a general register.
fn has_scalar_a(instruction: &Instruction) -> bool {
    let indexed = matches!(instruction.form, Form::Align | Form::Addi);
    indexed || instruction.touches_memory()
}

/// Whether what the word reads besides vectors and memory is not zero.
fn nonzero_scalars(instruction: &Instruction, machine: &Machine, word: u32) -> bool {
    let a = match word >> 16 & 31 {
        0 => 0,
        a => machine.gpr[a as usize],
    };
    match instruction.form {
        Form::Immediate => word >> 16 & 31 != 0,
        Form::FromStatus => machine.nj || machine.sat,
        Form::Align => a.wrapping_add(machine.gpr[(word >> 11 & 31) as usize]) != 0,
        Form::Addi => word & 0xffff != 0 && (a != 0 || word >> 16 & 31 == 0),
        _ => true,
    }
}

/// The lines of a report, and the counts that are short.
#[derive(Default)]
struct Sheet {
    text: String,
    short: Vec<String>,
}

impl Sheet {
    fn line(&mut self, line: String) {
        self.text.push_str(&line);
        self.text.push('\n');
    }

    fn need(&mut self, name: &str, count: u32, need: u32) {
        if count < need {
            self.short.push(format!("{name}: {count}, needed {need}"));
        }
    }
}

#[cfg(test)]
mod tests {
    use super::*;

    /// lvx v0,r1,r2
    const WORD: u32 = 31 << 26 | 1 << 16 | 2 << 11 | 103 << 1;

    fn meets(edge: Edge, r1: u32, r2: u32) -> bool {
        let at = Layout {
            base: 0x1000,
            length: 32,
        };
        let mut gpr = [0; 32];
        gpr[1] = r1;
        gpr[2] = r2;
        at.meets(edge, &gpr, WORD)
    }

    #[test]
    fn edges_of_memory() {
        assert!(meets(Edge::FirstLine, 0x1000, 15));
        assert!(!meets(Edge::FirstLine, 0x1000, 16));
        assert!(meets(Edge::LastLine, 0x1000, 31));
        assert!(meets(Edge::OnePast, 0x1000, 32));
        assert!(!meets(Edge::OnePast, 0x1000, 48));
        assert!(meets(Edge::OneBefore, 0, 0x0fff));
        assert!(!meets(Edge::OneBefore, 0, 0x0fef));
        assert!(meets(Edge::Wrapped, 0x1002, u32::MAX));
        assert!(!meets(Edge::Wrapped, 0x1002, 1));
        assert!(meets(Edge::Outside, 0, 0));
    }
}
