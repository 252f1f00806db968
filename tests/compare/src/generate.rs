//! The maker of cases. A program is made word by word while the second program runs it, so that
//! addresses can be chosen by what the registers hold by then.

use crate::catalogue::{Catalogue, Form, Instruction};
use crate::coverage::{Edge, Layout, Truth};
use crate::random::Random;
use crate::values;
use second::batch::{Case, MOST_CODE_WORDS};
use second::{run, Answer, Machine, MOST_WORDS};

/// The longest program that is not made long on purpose.
const MOST_ORDINARY_WORDS: u32 = 24;
const TRIES: usize = 64;

pub struct Generator<'a> {
    catalogue: &'a Catalogue,
    random: Random,
    sweep: Vec<Swept>,
    next: usize,
}

/// A word that every long enough run is to meet; its other bits are left to chance.
#[derive(Clone, Copy)]
enum Swept {
    /// A primary and the low eleven bits.
    Code { primary: u32, low: u32 },
    /// A primary.
    Primary(u32),
    /// An instruction with one reserved bit set.
    Reserved { instruction: usize, bit: u32 },
}

impl<'a> Generator<'a> {
    pub fn new(catalogue: &'a Catalogue, seed: u64) -> Generator<'a> {
        Generator {
            catalogue,
            random: Random::new(seed),
            sweep: sweep(catalogue),
            next: 0,
        }
    }

    pub fn case(&mut self) -> Case {
        let (base, length) = self.layout();
        let machine = Machine {
            vr: values::vectors(&mut self.random),
            gpr: values::registers(&mut self.random, base, length),
            nj: self.random.once_in(2),
            sat: self.random.once_in(2),
            cr6: self.random.below(16) as u8,
        };
        let memory = values::memory(&mut self.random, length);
        let mut program = Program::new(base, &machine, &memory);
        for _ in 0..=self.random.below(MOST_ORDINARY_WORDS) {
            self.add_ordinary(&mut program);
        }
        let swept = self.add_ending(&mut program);
        let mut case = Case {
            code: program.code,
            memory,
            base,
            place: 0,
            allowance: u32::MAX,
            machine,
        };
        self.set_place_and_length(&mut case);
        self.set_allowance(&mut case);
        self.misplace(&mut case);
        if swept.is_some_and(|word| reaches(&case, word)) {
            self.next = (self.next + 1) % self.sweep.len();
        }
        case
    }

    /// A well placed memory.
    fn layout(&mut self) -> (u32, u32) {
        let random = &mut self.random;
        let length = match random.below(64) {
            0 => 65_536,
            1..=2 => 0,
            3..=15 => 16,
            16..=30 => 32,
            31..=45 => 64,
            _ => 16 * (1 + random.below(16)),
        };
        let last = length.wrapping_neg();
        let base = match random.below(8) {
            0 => 0,
            1 => 0x1000,
            2 => 0x7fff_fff0,
            3 | 4 if length > 0 => last,
            3 | 4 => 0xffff_fff0,
            _ => random.word() & !15,
        };
        // Where the end would pass 2^32 the last place that fits is taken.
        if u64::from(base) + u64::from(length) > 1 << 32 {
            (last, length)
        } else {
            (base, length)
        }
    }

    /// A word that completes.
    fn add_ordinary(&mut self, program: &mut Program) {
        for _ in 0..TRIES {
            let instruction = self.random.pick(self.catalogue.all());
            let wanted = match self.random.below(8) {
                0 => Edge::FirstLine,
                1 => Edge::LastLine,
                2 => Edge::Wrapped,
                _ => Edge::Inside,
            };
            let word = self.word(&instruction, program, wanted);
            if program.try_push(word) {
                return;
            }
        }
    }

    /// A word of the instruction, if such is found one with an address of the wanted kind. Of
    /// clipping and not clipping, and of all, none and some true, each is tried for as often.
    fn word(&mut self, instruction: &Instruction, program: &Program, wanted: Edge) -> u32 {
        let clip = self.random.once_in(2);
        let truth = self.random.pick(&[Truth::All, Truth::None, Truth::Some]);
        let suits = |word: u32| match instruction.form {
            Form::Load(_) | Form::Store(_) => {
                program.layout.meets(wanted, &program.machine.gpr, word)
            }
            Form::Compare => Truth::of(&program.after(word), word) == truth,
            _ => !instruction.clips || program.after(word).sat == clip,
        };
        let mut word = self.fields(instruction);
        for _ in 0..TRIES {
            if suits(word) {
                break;
            }
            word = self.fields(instruction);
        }
        word
    }

    fn fields(&mut self, instruction: &Instruction) -> u32 {
        let word = instruction.word | self.random.word() & instruction.free;
        let has_address = instruction.touches_memory() || instruction.form == Form::Align;
        if has_address && self.random.once_in(4) {
            word & !(31 << 16)
        } else {
            word
        }
    }

    /// What may stop the program: a swept word, which is given back, or an address outside. Words
    /// after it show that the run does not go on.
    fn add_ending(&mut self, program: &mut Program) -> Option<u32> {
        let mut swept = None;
        let word = match self.random.below(16) {
            0..=3 => *swept.insert(self.swept_word()),
            4..=5 => self.outside_word(program),
            _ => return None,
        };
        program.push(word);
        for _ in 0..self.random.below(3) {
            let instruction = self.random.pick(self.catalogue.all());
            program.push(self.fields(&instruction));
        }
        swept
    }

    fn outside_word(&mut self, program: &Program) -> u32 {
        let wanted = self
            .random
            .pick(&[Edge::OnePast, Edge::OneBefore, Edge::Outside]);
        loop {
            let instruction = self.random.pick(self.catalogue.all());
            if instruction.touches_memory() {
                return self.word(&instruction, program, wanted);
            }
        }
    }

    fn swept_word(&mut self) -> u32 {
        let swept = self.sweep[self.next];
        let random = self.random.word();
        match swept {
            Swept::Code { primary, low } => primary << 26 | random & 0x03ff_f800 | low,
            Swept::Primary(primary) => primary << 26 | random & 0x03ff_ffff,
            Swept::Reserved { instruction, bit } => {
                let instruction = &self.catalogue.all()[instruction];
                instruction.word | random & instruction.free | bit
            }
        }
    }

    /// Words before the place, a place at or beyond the end, very long code, or none.
    fn set_place_and_length(&mut self, case: &mut Case) {
        let random = &mut self.random;
        match random.below(256) {
            0..=31 => {
                let before = 1 + random.below(4);
                case.code.splice(0..0, (0..before).map(|_| random.word()));
                case.place = before;
            }
            32..=35 => case.place = random.below(case.code.len() as u32),
            36..=39 => case.place = case.code.len() as u32,
            40..=43 => case.place = case.code.len() as u32 + 1,
            44 => case.place = u32::MAX,
            45 => case.place = random.word(),
            46 => repeat(&mut case.code, MOST_CODE_WORDS),
            47 => {
                repeat(&mut case.code, MOST_WORDS);
                if random.once_in(2) {
                    case.place = MOST_WORDS as u32 - random.below(64);
                }
            }
            48 => case.code.clear(),
            _ => {}
        }
    }

    /// An allowance at the edge of what the case needs.
    fn set_allowance(&mut self, case: &mut Case) {
        if !self.random.once_in(3) {
            return;
        }
        let needed = case.reply().count;
        case.allowance = match self.random.below(6) {
            0 => 0,
            1 => 1,
            2 => needed.saturating_sub(1),
            3 => needed,
            4 => needed + 1,
            _ => self.random.below(needed + 1),
        };
    }

    /// Memory that is wrongly placed, in one of the four ways.
    fn misplace(&mut self, case: &mut Case) {
        let random = &mut self.random;
        if !random.once_in(64) {
            return;
        }
        match random.below(4) {
            0 => case.base |= 1 << random.below(4),
            1 => case.memory.extend(vec![7; 1 + random.below(15) as usize]),
            2 => {
                case.base = 0;
                case.memory = values::memory(random, 65_552);
            }
            _ => {
                case.base = 0xffff_fff0;
                case.memory = values::memory(random, 32);
            }
        }
    }
}

/// The code over and over, up to this many words.
fn repeat(code: &mut Vec<u32>, words: usize) {
    *code = code.iter().copied().cycle().take(words).collect();
}

/// Whether the run comes to the word, be it that it completes or stops there.
fn reaches(case: &Case, word: u32) -> bool {
    let reply = case.reply();
    let met = reply.count + u32::from(reply.answer >= 5);
    let words = case.code.iter().skip(case.place as usize);
    words.take(met as usize).any(|&other| other == word)
}

/// Every low eleven bits of primaries 4 and 31, every primary, every reserved bit.
fn sweep(catalogue: &Catalogue) -> Vec<Swept> {
    let codes = [4, 31]
        .into_iter()
        .flat_map(|primary| (0..2048).map(move |low| Swept::Code { primary, low }));
    let primaries = (0..64).map(Swept::Primary);
    let reserved = catalogue.all().iter().enumerate().flat_map(|(number, i)| {
        let bits = (0..32).map(|bit| 1 << bit);
        let reserved = i.reserved;
        bits.filter(move |bit| reserved & bit != 0)
            .map(move |bit| Swept::Reserved {
                instruction: number,
                bit,
            })
    });
    codes.chain(primaries).chain(reserved).collect()
}

/// A program in the making, and the machine and memory as its words leave them.
struct Program {
    code: Vec<u32>,
    layout: Layout,
    machine: Machine,
    memory: Vec<u8>,
}

impl Program {
    fn new(base: u32, machine: &Machine, memory: &[u8]) -> Program {
        Program {
            code: Vec::new(),
            layout: Layout {
                base,
                length: memory.len() as u32,
            },
            machine: machine.clone(),
            memory: memory.to_vec(),
        }
    }

    /// Adds the word if it completes; one that does not leaves machine and memory as they are.
    fn try_push(&mut self, word: u32) -> bool {
        let outcome = run(
            &mut self.machine,
            &[word],
            &mut self.memory,
            self.layout.base,
            0,
            1,
        );
        let completed = outcome.answer == Answer::Finished;
        if completed {
            self.code.push(word);
        }
        completed
    }

    /// The machine that a word would leave that touches no memory, if SAT were off before it.
    fn after(&self, word: u32) -> Machine {
        let mut machine = self.machine.clone();
        machine.sat = false;
        run(&mut machine, &[word], &mut [], 0, 0, 1);
        machine
    }

    fn push(&mut self, word: u32) {
        if !self.try_push(word) {
            self.code.push(word);
        }
    }
}

#[cfg(test)]
mod tests {
    use super::*;
    use crate::coverage::Coverage;
    use second::batch::MOST_MEMORY_BYTES;

    #[test]
    fn the_same_seed_gives_the_same_cases() {
        let catalogue = Catalogue::new();
        let mut first = Generator::new(&catalogue, 5);
        let mut second = Generator::new(&catalogue, 5);
        let mut other = Generator::new(&catalogue, 6);
        let case = first.case();
        assert_eq!(case, second.case());
        assert_ne!(case, other.case());
    }

    #[test]
    fn cases_keep_to_the_batch_form_and_can_be_counted() {
        let catalogue = Catalogue::new();
        let mut generator = Generator::new(&catalogue, 1);
        let mut coverage = Coverage::new(&catalogue);
        for _ in 0..2_000 {
            let case = generator.case();
            assert!(case.code.len() <= MOST_CODE_WORDS);
            assert!(case.memory.len() <= MOST_MEMORY_BYTES);
            coverage.observe(&case, &case.reply());
        }
        let (text, short) = coverage.report();
        assert!(text.starts_with("cases 2000, "));
        assert!(!short.is_empty(), "2,000 cases cannot be enough");
    }
}
