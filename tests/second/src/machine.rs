//! The machine, and the 660 bytes that stand for it in files.

use crate::vector::Vector;

/// Bytes of a machine in a file: 32 quad words, the status quad word, 32 general registers and
/// the condition register.
pub const STATE_BYTES: usize = 32 * 16 + 16 + 32 * 4 + 4;

/// Bit 15 and bit 31 of the status word (document 01, Lane rules).
const NJ: u128 = 1 << 16;
const SAT: u128 = 1;

/// CR6 is bits 24 to 27 of the condition register.
const CR6_SHIFT: u32 = 4;

#[derive(Clone, Default, PartialEq, Eq, Debug)]
pub struct Machine {
    pub vr: [Vector; 32],
    pub gpr: [u32; 32],
    pub nj: bool,
    pub sat: bool,
    /// The four bits of CR6, its bit 0 worth 8.
    pub cr6: u8,
}

impl Machine {
    /// What mfvscr gives: twelve zero bytes and the status word.
    pub fn status(&self) -> Vector {
        let nj = if self.nj { NJ } else { 0 };
        let sat = if self.sat { SAT } else { 0 };
        Vector::from_quad(nj | sat)
    }

    /// What mtvscr takes: bits 111 and 127, and no other.
    pub fn set_status(&mut self, quad: Vector) {
        self.nj = quad.quad() & NJ != 0;
        self.sat = quad.quad() & SAT != 0;
    }

    pub fn to_state(&self) -> [u8; STATE_BYTES] {
        let condition = u32::from(self.cr6) << CR6_SHIFT;
        let quads = self.vr.iter().copied().chain([self.status()]);
        let words = self.gpr.iter().copied().chain([condition]);
        let mut bytes = [0; STATE_BYTES];
        let (quad_part, word_part) = bytes.split_at_mut(33 * 16);
        for (place, quad) in quad_part.chunks_exact_mut(16).zip(quads) {
            place.copy_from_slice(&quad.to_memory());
        }
        for (place, word) in word_part.chunks_exact_mut(4).zip(words) {
            place.copy_from_slice(&word.to_be_bytes());
        }
        bytes
    }

    /// Bits of the status quad word and of the condition register that the machine does not
    /// hold are ignored.
    pub fn from_state(bytes: &[u8; STATE_BYTES]) -> Machine {
        let quad = |i: usize| {
            let at = 16 * i;
            Vector::from_memory(std::array::from_fn(|k| bytes[at + k]))
        };
        let word = |i: usize| {
            let at = 33 * 16 + 4 * i;
            u32::from_be_bytes(std::array::from_fn(|k| bytes[at + k]))
        };
        let mut machine = Machine {
            vr: std::array::from_fn(quad),
            gpr: std::array::from_fn(word),
            cr6: (word(32) >> CR6_SHIFT & 0xf) as u8,
            ..Machine::default()
        };
        machine.set_status(quad(32));
        machine
    }
}

#[cfg(test)]
mod tests {
    use super::*;

    fn some_machine() -> Machine {
        Machine {
            vr: std::array::from_fn(|i| Vector::from_quad(0x0123 << i)),
            gpr: std::array::from_fn(|i| 0x0100_0000 + i as u32),
            nj: true,
            sat: true,
            cr6: 0b1010,
        }
    }

    #[test]
    fn a_state_read_back_is_the_same_machine() {
        let machine = some_machine();
        assert_eq!(Machine::from_state(&machine.to_state()), machine);
    }

    #[test]
    fn the_parts_of_a_state_stand_in_order() {
        let bytes = some_machine().to_state();
        assert_eq!(bytes.len(), 660);
        assert_eq!(bytes[16..32], (0x0246_u128).to_be_bytes());
        assert_eq!(bytes[512..528], (0x0001_0001_u128).to_be_bytes());
        assert_eq!(bytes[528..532], [1, 0, 0, 0]);
        assert_eq!(bytes[652..656], [1, 0, 0, 31]);
        assert_eq!(bytes[656..660], [0, 0, 0, 0b1010_0000]);
    }

    #[test]
    fn stray_bits_of_a_state_are_ignored() {
        let mut bytes = [0; STATE_BYTES];
        bytes[512..528].fill(0xff);
        bytes[656..660].fill(0xff);
        let machine = Machine::from_state(&bytes);
        assert_eq!(machine.status().quad(), 0x0001_0001);
        assert_eq!(machine.cr6, 0xf);
    }
}
