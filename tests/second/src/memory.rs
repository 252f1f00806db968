//! The lent memory: bytes whose first stands at a base address.

/// The most bytes that are well placed (document 01, Numbers the run gives back).
const MOST_BYTES: usize = 65_536;

pub struct Memory<'a> {
    bytes: &'a mut [u8],
    base: u32,
}

impl<'a> Memory<'a> {
    /// The memory, unless it is wrongly placed.
    pub fn place(bytes: &'a mut [u8], base: u32) -> Option<Memory<'a>> {
        let in_lines = base.is_multiple_of(16) && bytes.len().is_multiple_of(16);
        let short = bytes.len() <= MOST_BYTES;
        let fits = u64::from(base) + bytes.len() as u64 <= 1 << 32;
        (in_lines && short && fits).then_some(Memory { bytes, base })
    }

    /// The quad word that the address lies in, unless it lies outside.
    ///
    /// Memory begins and ends at line boundaries, so an aligned element is inside just when its
    /// line is. An address below the base wraps to one at or above the end.
    #[inline(always)]
    pub fn line(&mut self, address: u32) -> Option<&mut [u8; 16]> {
        let offset = address.wrapping_sub(self.base) as usize & !15;
        self.bytes.get_mut(offset..)?.first_chunk_mut()
    }
}

#[cfg(test)]
mod tests {
    use super::*;

    fn placed(length: usize, base: u32) -> bool {
        Memory::place(&mut vec![0; length], base).is_some()
    }

    #[test]
    fn well_placed_memories() {
        assert!(placed(0, 0));
        assert!(placed(16, 0x1000));
        assert!(placed(65_536, 0));
        assert!(placed(65_536, 0xffff_0000));
        assert!(placed(16, 0xffff_fff0));
        assert!(placed(0, 0xffff_fff0));
    }

    #[test]
    fn wrongly_placed_memories() {
        assert!(!placed(16, 0x1008));
        assert!(!placed(8, 0x1000));
        assert!(!placed(65_552, 0));
        assert!(!placed(32, 0xffff_fff0));
        assert!(!placed(0, 1));
    }

    #[test]
    fn lines_inside_and_outside() {
        let mut bytes = [0; 32];
        bytes[16] = 7;
        let mut memory = Memory::place(&mut bytes, 0x1000).unwrap();
        assert_eq!(memory.line(0x101f).unwrap()[0], 7);
        assert!(memory.line(0x1000).is_some());
        assert!(memory.line(0x1020).is_none());
        assert!(memory.line(0x0fff).is_none());
        assert!(memory.line(0).is_none());
        assert!(memory.line(u32::MAX).is_none());
    }
}
