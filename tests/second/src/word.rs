//! The fields of an instruction word (document 01, Encodings; bits count from 0 at the left).

#[derive(Clone, Copy)]
pub struct Word(pub u32);

/// The places of the fields A, B and D, for use as masks of reserved bits.
pub const FIELD_D: u32 = 0x03e0_0000;
pub const FIELD_A: u32 = 0x001f_0000;
pub const FIELD_B: u32 = 0x0000_f800;

impl Word {
    #[inline(always)]
    pub fn primary(self) -> u32 {
        self.0 >> 26
    }

    #[inline(always)]
    pub fn d(self) -> usize {
        (self.0 >> 21 & 31) as usize
    }

    #[inline(always)]
    pub fn a(self) -> usize {
        (self.0 >> 16 & 31) as usize
    }

    #[inline(always)]
    pub fn b(self) -> usize {
        (self.0 >> 11 & 31) as usize
    }

    #[inline(always)]
    pub fn c(self) -> usize {
        (self.0 >> 6 & 31) as usize
    }

    /// vsldoi's byte count, bits 22 to 25.
    #[inline(always)]
    pub fn byte_count(self) -> u32 {
        self.0 >> 6 & 15
    }

    /// The signed immediate in the A field.
    #[inline(always)]
    pub fn immediate(self) -> i32 {
        (self.0 << 11) as i32 >> 27
    }

    /// addi's immediate, bits 16 to 31.
    #[inline(always)]
    pub fn long_immediate(self) -> i32 {
        (self.0 << 16) as i32 >> 16
    }

    /// Bit 21, by which a compare records.
    #[inline(always)]
    pub fn records(self) -> bool {
        self.0 & 0x400 != 0
    }
}

#[cfg(test)]
mod tests {
    use super::*;

    #[test]
    fn fields_of_the_printed_example() {
        let word = Word(0x103f030c);
        assert_eq!(word.primary(), 4);
        assert_eq!(word.d(), 1);
        assert_eq!(word.immediate(), -1);
        let word = Word(0x10611406);
        assert_eq!((word.d(), word.a(), word.b()), (3, 1, 2));
        assert!(word.records());
    }

    #[test]
    fn immediates_are_signed() {
        assert_eq!(Word(15 << 16).immediate(), 15);
        assert_eq!(Word(16 << 16).immediate(), -16);
        assert_eq!(Word(0x7fff).long_immediate(), 32767);
        assert_eq!(Word(0x8000).long_immediate(), -32768);
    }
}
