//! The 132 instructions as words to be made (document 01, Encodings).

/// What the fields of an instruction mean to the maker of cases.
#[derive(Clone, Copy, PartialEq, Eq, Debug)]
pub enum Form {
    /// D from A and B.
    Three,
    /// D from A and B, with Rc.
    Compare,
    /// D from A, B and C.
    Four,
    /// D from A, B and a byte count.
    Slide,
    /// D from a lane of B.
    Splat,
    /// D from an immediate.
    Immediate,
    /// D from B.
    Unpack,
    FromStatus,
    ToStatus,
    /// D from the address rA + rB alone.
    Align,
    /// D from so many bytes at rA + rB.
    Load(u32),
    /// D to so many bytes at rA + rB.
    Store(u32),
    Addi,
}

#[derive(Clone, Copy, Debug)]
pub struct Instruction {
    pub name: &'static str,
    pub form: Form,
    /// The word with every field zero.
    pub word: u32,
    /// Bits that may be anything.
    pub free: u32,
    /// Bits that must be zero.
    pub reserved: u32,
    /// Whether it is one of the twenty-seven that can set SAT by clipping.
    pub clips: bool,
}

const D: u32 = 31 << 21;
const A: u32 = 31 << 16;
const B: u32 = 31 << 11;
const C: u32 = 31 << 6;
const RC: u32 = 1 << 10;

pub struct Catalogue(Vec<Instruction>);

impl Catalogue {
    pub fn new() -> Catalogue {
        let mut catalogue = Catalogue(Vec::new());
        catalogue.add_arithmetic();
        catalogue.add_shifts_and_logic();
        catalogue.add_products_and_sums();
        catalogue.add_moves();
        catalogue.add_compares();
        catalogue.add_four_operands();
        catalogue.add_indexed();
        catalogue
    }

    pub fn all(&self) -> &[Instruction] {
        &self.0
    }

    /// The number of the instruction that this word is, reserved bits set or not.
    pub fn find(&self, word: u32) -> Option<usize> {
        self.0
            .iter()
            .position(|i| word & !(i.free | i.reserved) == i.word)
    }

    fn add(&mut self, name: &'static str, form: Form, word: u32, free: u32, reserved: u32) {
        self.0.push(Instruction {
            name,
            form,
            word,
            free,
            reserved,
            clips: false,
        });
    }

    /// Instructions of primary 4 with the fields D, A and B.
    fn add_three(&mut self, clips: bool, list: &[(&'static str, u32)]) {
        for &(name, code) in list {
            self.add(name, Form::Three, 4 << 26 | code, D | A | B, 0);
            self.0.last_mut().expect("one was added").clips = clips;
        }
    }

    fn add_arithmetic(&mut self) {
        self.add_three(false, &[("vaddubm", 0), ("vadduhm", 64), ("vadduwm", 128)]);
        self.add_three(false, &[("vaddcuw", 384)]);
        self.add_three(
            true,
            &[("vaddubs", 512), ("vadduhs", 576), ("vadduws", 640)],
        );
        self.add_three(
            true,
            &[("vaddsbs", 768), ("vaddshs", 832), ("vaddsws", 896)],
        );
        self.add_three(
            false,
            &[("vsububm", 1024), ("vsubuhm", 1088), ("vsubuwm", 1152)],
        );
        self.add_three(false, &[("vsubcuw", 1408)]);
        self.add_three(
            true,
            &[("vsububs", 1536), ("vsubuhs", 1600), ("vsubuws", 1664)],
        );
        self.add_three(
            true,
            &[("vsubsbs", 1792), ("vsubshs", 1856), ("vsubsws", 1920)],
        );
        self.add_three(false, &[("vmaxub", 2), ("vmaxuh", 66), ("vmaxuw", 130)]);
        self.add_three(false, &[("vmaxsb", 258), ("vmaxsh", 322), ("vmaxsw", 386)]);
        self.add_three(false, &[("vminub", 514), ("vminuh", 578), ("vminuw", 642)]);
        self.add_three(false, &[("vminsb", 770), ("vminsh", 834), ("vminsw", 898)]);
        self.add_three(
            false,
            &[("vavgub", 1026), ("vavguh", 1090), ("vavguw", 1154)],
        );
        self.add_three(
            false,
            &[("vavgsb", 1282), ("vavgsh", 1346), ("vavgsw", 1410)],
        );
    }

    fn add_shifts_and_logic(&mut self) {
        self.add_three(false, &[("vrlb", 4), ("vrlh", 68), ("vrlw", 132)]);
        self.add_three(false, &[("vslb", 260), ("vslh", 324), ("vslw", 388)]);
        self.add_three(false, &[("vsrb", 516), ("vsrh", 580), ("vsrw", 644)]);
        self.add_three(false, &[("vsrab", 772), ("vsrah", 836), ("vsraw", 900)]);
        self.add_three(
            false,
            &[("vsl", 452), ("vsr", 708), ("vslo", 1036), ("vsro", 1100)],
        );
        self.add_three(false, &[("vand", 1028), ("vandc", 1092), ("vor", 1156)]);
        self.add_three(false, &[("vxor", 1220), ("vnor", 1284)]);
        self.add("mfvscr", Form::FromStatus, 4 << 26 | 1540, D, A | B);
        self.add("mtvscr", Form::ToStatus, 4 << 26 | 1604, B, D | A);
    }

    fn add_products_and_sums(&mut self) {
        self.add_three(false, &[("vmuloub", 8), ("vmulouh", 72)]);
        self.add_three(false, &[("vmulosb", 264), ("vmulosh", 328)]);
        self.add_three(false, &[("vmuleub", 520), ("vmuleuh", 584)]);
        self.add_three(false, &[("vmulesb", 776), ("vmulesh", 840)]);
        self.add_three(
            true,
            &[("vsum4ubs", 1544), ("vsum4sbs", 1800), ("vsum4shs", 1608)],
        );
        self.add_three(true, &[("vsum2sws", 1672), ("vsumsws", 1928)]);
    }

    fn add_moves(&mut self) {
        self.add_three(false, &[("vmrghb", 12), ("vmrghh", 76), ("vmrghw", 140)]);
        self.add_three(false, &[("vmrglb", 268), ("vmrglh", 332), ("vmrglw", 396)]);
        for (name, code, lanes) in [("vspltb", 524, 16), ("vsplth", 588, 8), ("vspltw", 652, 4)] {
            let number = (lanes - 1) << 16;
            self.add(
                name,
                Form::Splat,
                4 << 26 | code,
                D | number | B,
                A & !number,
            );
        }
        for (name, code) in [("vspltisb", 780), ("vspltish", 844), ("vspltisw", 908)] {
            self.add(name, Form::Immediate, 4 << 26 | code, D | A, B);
        }
        self.add_three(false, &[("vpkuhum", 14), ("vpkuwum", 78)]);
        self.add_three(
            true,
            &[("vpkuhus", 142), ("vpkuwus", 206), ("vpkshus", 270)],
        );
        self.add_three(
            true,
            &[("vpkswus", 334), ("vpkshss", 398), ("vpkswss", 462)],
        );
        for (name, code) in [
            ("vupkhsb", 526),
            ("vupkhsh", 590),
            ("vupklsb", 654),
            ("vupklsh", 718),
        ] {
            self.add(name, Form::Unpack, 4 << 26 | code, D | B, A);
        }
    }

    fn add_compares(&mut self) {
        for (name, code) in [
            ("vcmpequb", 6),
            ("vcmpequh", 70),
            ("vcmpequw", 134),
            ("vcmpgtub", 518),
            ("vcmpgtuh", 582),
            ("vcmpgtuw", 646),
            ("vcmpgtsb", 774),
            ("vcmpgtsh", 838),
            ("vcmpgtsw", 902),
        ] {
            self.add(name, Form::Compare, 4 << 26 | code, D | A | B | RC, 0);
        }
    }

    fn add_four_operands(&mut self) {
        for (name, code, clips) in [
            ("vmhaddshs", 32, true),
            ("vmhraddshs", 33, true),
            ("vmladduhm", 34, false),
            ("vmsumubm", 36, false),
            ("vmsummbm", 37, false),
            ("vmsumuhm", 38, false),
            ("vmsumuhs", 39, true),
            ("vmsumshm", 40, false),
            ("vmsumshs", 41, true),
            ("vsel", 42, false),
            ("vperm", 43, false),
        ] {
            self.add(name, Form::Four, 4 << 26 | code, D | A | B | C, 0);
            self.0.last_mut().expect("one was added").clips = clips;
        }
        self.add("vsldoi", Form::Slide, 4 << 26 | 44, D | A | B | C & !RC, RC);
    }

    fn add_indexed(&mut self) {
        for (name, code, form) in [
            ("lvsl", 6, Form::Align),
            ("lvsr", 38, Form::Align),
            ("lvebx", 7, Form::Load(1)),
            ("lvehx", 39, Form::Load(2)),
            ("lvewx", 71, Form::Load(4)),
            ("lvx", 103, Form::Load(16)),
            ("lvxl", 359, Form::Load(16)),
            ("stvebx", 135, Form::Store(1)),
            ("stvehx", 167, Form::Store(2)),
            ("stvewx", 199, Form::Store(4)),
            ("stvx", 231, Form::Store(16)),
            ("stvxl", 487, Form::Store(16)),
        ] {
            self.add(name, form, 31 << 26 | code << 1, D | A | B, 1);
        }
        self.add("addi", Form::Addi, 14 << 26, D | A | 0xffff, 0);
    }
}

impl Instruction {
    pub fn touches_memory(&self) -> bool {
        matches!(self.form, Form::Load(_) | Form::Store(_))
    }

    /// The vectors that the word reads.
    pub fn sources(&self, word: u32) -> Vec<usize> {
        let field = |shift: u32| (word >> shift & 31) as usize;
        let (d, a, b, c) = (field(21), field(16), field(11), field(6));
        match self.form {
            Form::Three | Form::Compare | Form::Slide => vec![a, b],
            Form::Four => vec![a, b, c],
            Form::Splat | Form::Unpack | Form::ToStatus => vec![b],
            Form::Store(_) => vec![d],
            Form::Immediate | Form::FromStatus | Form::Align | Form::Load(_) | Form::Addi => vec![],
        }
    }
}

/// The fields of a word as they are usually written, for people.
pub fn describe(catalogue: &Catalogue, word: u32) -> String {
    let Some(number) = catalogue.find(word) else {
        return format!("{word:08x}  no carried instruction");
    };
    let instruction = &catalogue.all()[number];
    let field = |shift: u32| word >> shift & 31;
    let (d, a, b, c) = (field(21), field(16), field(11), field(6));
    let dot = if instruction.form == Form::Compare && word & RC != 0 {
        "."
    } else {
        ""
    };
    let operands = match instruction.form {
        Form::Three | Form::Compare => format!("v{d},v{a},v{b}"),
        Form::Four => format!("v{d},v{a},v{b},v{c}"),
        Form::Slide => format!("v{d},v{a},v{b},{}", c & 15),
        Form::Splat => format!("v{d},v{b},{a}"),
        Form::Immediate => format!("v{d},{}", (word << 11) as i32 >> 27),
        Form::Unpack => format!("v{d},v{b}"),
        Form::FromStatus => format!("v{d}"),
        Form::ToStatus => format!("v{b}"),
        Form::Align | Form::Load(_) | Form::Store(_) => format!("v{d},r{a},r{b}"),
        Form::Addi => format!("r{d},r{a},{}", word as u16 as i16),
    };
    let stray = if word & instruction.reserved != 0 {
        "  (reserved bits set)"
    } else {
        ""
    };
    format!("{word:08x}  {}{dot} {operands}{stray}", instruction.name)
}

#[cfg(test)]
mod tests {
    use super::*;

    #[test]
    fn the_counts_of_document_01() {
        let catalogue = Catalogue::new();
        assert_eq!(catalogue.all().len(), 132);
        assert_eq!(catalogue.all().iter().filter(|i| i.clips).count(), 27);
        let bits: u32 = catalogue
            .all()
            .iter()
            .map(|i| i.reserved.count_ones())
            .sum();
        assert_eq!(bits, 74);
    }

    #[test]
    fn every_word_is_one_instruction_at_most() {
        let catalogue = Catalogue::new();
        for (number, instruction) in catalogue.all().iter().enumerate() {
            for word in [instruction.word, instruction.word | instruction.free] {
                assert_eq!(catalogue.find(word), Some(number));
                let matching = |i: &&Instruction| word & !(i.free | i.reserved) == i.word;
                assert_eq!(catalogue.all().iter().filter(matching).count(), 1);
            }
        }
        assert_eq!(catalogue.find(0), None);
        assert_eq!(catalogue.find(4 << 26 | 10), None);
    }

    #[test]
    fn descriptions() {
        let catalogue = Catalogue::new();
        assert_eq!(describe(&catalogue, 0x103f030c), "103f030c  vspltisb v1,-1");
        assert_eq!(
            describe(&catalogue, 0x10611406),
            "10611406  vcmpequb. v3,v1,v2"
        );
        assert_eq!(describe(&catalogue, 0), "00000000  no carried instruction");
        let lvx = describe(&catalogue, 0x7c2018cf);
        assert_eq!(lvx, "7c2018cf  lvx v1,r0,r3  (reserved bits set)");
    }
}
