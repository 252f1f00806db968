//! One word: which instruction it is, and what that does.
//!
//! The order is document 01's, Encodings; its numbers stand as they are written there. An arm
//! that refuses does so before it alters anything.

use crate::machine::Machine;
use crate::memory::Memory;
use crate::run::Answer;
use crate::vector::{Lane, Vector};
use crate::word::{Word, FIELD_A, FIELD_B, FIELD_D};

type Done = Result<(), Answer>;

#[inline(always)]
pub fn execute(m: &mut Machine, memory: &mut Memory, w: Word) -> Done {
    match w.primary() {
        4 => match w.0 & 0x3f {
            32.. => four_operands(m, w),
            _ => vector(m, w),
        },
        14 => addi(m, w),
        31 => indexed(m, memory, w),
        _ => Err(Answer::UnknownWord),
    }
}

/// Answer 6 where a bit of the mask is set.
#[inline(always)]
fn reserved(w: Word, mask: u32) -> Done {
    if w.0 & mask == 0 {
        Ok(())
    } else {
        Err(Answer::ReservedBit)
    }
}

/// Primary 4, low eleven bits.
#[inline(always)]
fn vector(m: &mut Machine, w: Word) -> Done {
    match w.0 & 0x7ff {
        0 => m.modulo::<u8>(w, |a, b| a + b),       // vaddubm
        64 => m.modulo::<u16>(w, |a, b| a + b),     // vadduhm
        128 => m.modulo::<u32>(w, |a, b| a + b),    // vadduwm
        384 => m.modulo::<u32>(w, carry),           // vaddcuw
        512 => m.saturate::<u8>(w, |a, b| a + b),   // vaddubs
        576 => m.saturate::<u16>(w, |a, b| a + b),  // vadduhs
        640 => m.saturate::<u32>(w, |a, b| a + b),  // vadduws
        768 => m.saturate::<i8>(w, |a, b| a + b),   // vaddsbs
        832 => m.saturate::<i16>(w, |a, b| a + b),  // vaddshs
        896 => m.saturate::<i32>(w, |a, b| a + b),  // vaddsws
        1024 => m.modulo::<u8>(w, |a, b| a - b),    // vsububm
        1088 => m.modulo::<u16>(w, |a, b| a - b),   // vsubuhm
        1152 => m.modulo::<u32>(w, |a, b| a - b),   // vsubuwm
        1408 => m.modulo::<u32>(w, no_borrow),      // vsubcuw
        1536 => m.saturate::<u8>(w, |a, b| a - b),  // vsububs
        1600 => m.saturate::<u16>(w, |a, b| a - b), // vsubuhs
        1664 => m.saturate::<u32>(w, |a, b| a - b), // vsubuws
        1792 => m.saturate::<i8>(w, |a, b| a - b),  // vsubsbs
        1856 => m.saturate::<i16>(w, |a, b| a - b), // vsubshs
        1920 => m.saturate::<i32>(w, |a, b| a - b), // vsubsws

        2 => m.each::<u8>(w, Ord::max),    // vmaxub
        66 => m.each::<u16>(w, Ord::max),  // vmaxuh
        130 => m.each::<u32>(w, Ord::max), // vmaxuw
        258 => m.each::<i8>(w, Ord::max),  // vmaxsb
        322 => m.each::<i16>(w, Ord::max), // vmaxsh
        386 => m.each::<i32>(w, Ord::max), // vmaxsw
        514 => m.each::<u8>(w, Ord::min),  // vminub
        578 => m.each::<u16>(w, Ord::min), // vminuh
        642 => m.each::<u32>(w, Ord::min), // vminuw
        770 => m.each::<i8>(w, Ord::min),  // vminsb
        834 => m.each::<i16>(w, Ord::min), // vminsh
        898 => m.each::<i32>(w, Ord::min), // vminsw
        // The shift to the right takes the floor, also below zero.
        1026 => m.modulo::<u8>(w, |a, b| (a + b + 1) >> 1), // vavgub
        1090 => m.modulo::<u16>(w, |a, b| (a + b + 1) >> 1), // vavguh
        1154 => m.modulo::<u32>(w, |a, b| (a + b + 1) >> 1), // vavguw
        1282 => m.modulo::<i8>(w, |a, b| (a + b + 1) >> 1), // vavgsb
        1346 => m.modulo::<i16>(w, |a, b| (a + b + 1) >> 1), // vavgsh
        1410 => m.modulo::<i32>(w, |a, b| (a + b + 1) >> 1), // vavgsw

        4 => m.each::<u8>(w, |a, b| a.rotate_left(u32::from(b) & 7)), // vrlb
        68 => m.each::<u16>(w, |a, b| a.rotate_left(u32::from(b) & 15)), // vrlh
        132 => m.each::<u32>(w, |a, b| a.rotate_left(b & 31)),        // vrlw
        260 => m.each::<u8>(w, |a, b| a << (b & 7)),                  // vslb
        324 => m.each::<u16>(w, |a, b| a << (b & 15)),                // vslh
        388 => m.each::<u32>(w, |a, b| a << (b & 31)),                // vslw
        516 => m.each::<u8>(w, |a, b| a >> (b & 7)),                  // vsrb
        580 => m.each::<u16>(w, |a, b| a >> (b & 15)),                // vsrh
        644 => m.each::<u32>(w, |a, b| a >> (b & 31)),                // vsrw
        772 => m.each::<i8>(w, |a, b| a >> (b & 7)),                  // vsrab
        836 => m.each::<i16>(w, |a, b| a >> (b & 15)),                // vsrah
        900 => m.each::<i32>(w, |a, b| a >> (b & 31)),                // vsraw
        452 => m.whole(w, |a, b| a << (b & 7)),                       // vsl
        708 => m.whole(w, |a, b| a >> (b & 7)),                       // vsr
        1036 => m.whole(w, |a, b| a << (b & 0x78)),                   // vslo
        1100 => m.whole(w, |a, b| a >> (b & 0x78)),                   // vsro

        1028 => m.whole(w, |a, b| a & b),    // vand
        1092 => m.whole(w, |a, b| a & !b),   // vandc
        1156 => m.whole(w, |a, b| a | b),    // vor
        1220 => m.whole(w, |a, b| a ^ b),    // vxor
        1284 => m.whole(w, |a, b| !(a | b)), // vnor
        1540 => mfvscr(m, w)?,
        1604 => mtvscr(m, w)?,

        8 => m.multiply::<u8, u16>(w, 1),    // vmuloub
        72 => m.multiply::<u16, u32>(w, 1),  // vmulouh
        264 => m.multiply::<i8, i16>(w, 1),  // vmulosb
        328 => m.multiply::<i16, i32>(w, 1), // vmulosh
        520 => m.multiply::<u8, u16>(w, 0),  // vmuleub
        584 => m.multiply::<u16, u32>(w, 0), // vmuleuh
        776 => m.multiply::<i8, i16>(w, 0),  // vmulesb
        840 => m.multiply::<i16, i32>(w, 0), // vmulesh

        1544 => m.sum_quarter::<u8, u32>(w),  // vsum4ubs
        1800 => m.sum_quarter::<i8, i32>(w),  // vsum4sbs
        1608 => m.sum_quarter::<i16, i32>(w), // vsum4shs
        1672 => m.sum_words(w, 2),            // vsum2sws
        1928 => m.sum_words(w, 4),            // vsumsws

        12 => m.merge::<u8>(w, 0),            // vmrghb
        76 => m.merge::<u16>(w, 0),           // vmrghh
        140 => m.merge::<u32>(w, 0),          // vmrghw
        268 => m.merge::<u8>(w, 8),           // vmrglb
        332 => m.merge::<u16>(w, 4),          // vmrglh
        396 => m.merge::<u32>(w, 2),          // vmrglw
        524 => splat::<u8>(m, w)?,            // vspltb
        588 => splat::<u16>(m, w)?,           // vsplth
        652 => splat::<u32>(m, w)?,           // vspltw
        780 => splat_immediate::<i8>(m, w)?,  // vspltisb
        844 => splat_immediate::<i16>(m, w)?, // vspltish
        908 => splat_immediate::<i32>(m, w)?, // vspltisw

        14 => m.pack_low::<u16, u8>(w),       // vpkuhum
        78 => m.pack_low::<u32, u16>(w),      // vpkuwum
        142 => m.pack_clipped::<u16, u8>(w),  // vpkuhus
        206 => m.pack_clipped::<u32, u16>(w), // vpkuwus
        270 => m.pack_clipped::<i16, u8>(w),  // vpkshus
        334 => m.pack_clipped::<i32, u16>(w), // vpkswus
        398 => m.pack_clipped::<i16, i8>(w),  // vpkshss
        462 => m.pack_clipped::<i32, i16>(w), // vpkswss
        526 => unpack::<i8, i16>(m, w, 0)?,   // vupkhsb
        590 => unpack::<i16, i32>(m, w, 0)?,  // vupkhsh
        654 => unpack::<i8, i16>(m, w, 8)?,   // vupklsb
        718 => unpack::<i16, i32>(m, w, 4)?,  // vupklsh

        6 | 1030 => m.compare::<u8>(w, |a, b| a == b), // vcmpequb
        70 | 1094 => m.compare::<u16>(w, |a, b| a == b), // vcmpequh
        134 | 1158 => m.compare::<u32>(w, |a, b| a == b), // vcmpequw
        518 | 1542 => m.compare::<u8>(w, |a, b| a > b), // vcmpgtub
        582 | 1606 => m.compare::<u16>(w, |a, b| a > b), // vcmpgtuh
        646 | 1670 => m.compare::<u32>(w, |a, b| a > b), // vcmpgtuw
        774 | 1798 => m.compare::<i8>(w, |a, b| a > b), // vcmpgtsb
        838 | 1862 => m.compare::<i16>(w, |a, b| a > b), // vcmpgtsh
        902 | 1926 => m.compare::<i32>(w, |a, b| a > b), // vcmpgtsw

        _ => return Err(Answer::UnknownWord),
    }
    Ok(())
}

/// Primary 4, low six bits.
#[inline(always)]
fn four_operands(m: &mut Machine, w: Word) -> Done {
    match w.0 & 0x3f {
        32 => m.multiply_high(w, 0),                 // vmhaddshs
        33 => m.multiply_high(w, 1 << 14),           // vmhraddshs
        34 => m.multiply_low(w),                     // vmladduhm
        36 => m.multiply_sum::<u8, u8, u32>(w),      // vmsumubm
        37 => m.multiply_sum::<i8, u8, u32>(w),      // vmsummbm
        38 => m.multiply_sum::<u16, u16, u32>(w),    // vmsumuhm
        39 => m.multiply_sum_clipped::<u16, u32>(w), // vmsumuhs
        40 => m.multiply_sum::<i16, i16, u32>(w),    // vmsumshm
        41 => m.multiply_sum_clipped::<i16, i32>(w), // vmsumshs
        42 => select(m, w),                          // vsel
        43 => permute(m, w),                         // vperm
        44 => slide(m, w)?,                          // vsldoi
        _ => return Err(Answer::UnknownWord),
    }
    Ok(())
}

/// Primary 31, bits 21 to 30.
#[inline(always)]
fn indexed(m: &mut Machine, memory: &mut Memory, w: Word) -> Done {
    let instruction = w.0 >> 1 & 0x3ff;
    match instruction {
        6 | 38 | 7 | 39 | 71 | 103 | 359 | 135 | 167 | 199 | 231 | 487 => reserved(w, 1)?,
        _ => return Err(Answer::UnknownWord),
    }
    let address = zero_or_register(m, w).wrapping_add(m.gpr[w.b()]);
    match instruction {
        6 => m.vr[w.d()] = byte_numbers(address & 15), // lvsl
        38 => m.vr[w.d()] = byte_numbers(16 - (address & 15)), // lvsr
        7 => load(m, memory, w, address, 1)?,          // lvebx
        39 => load(m, memory, w, address, 2)?,         // lvehx
        71 => load(m, memory, w, address, 4)?,         // lvewx
        103 | 359 => load(m, memory, w, address, 16)?, // lvx, lvxl
        135 => store(m, memory, w, address, 1)?,       // stvebx
        167 => store(m, memory, w, address, 2)?,       // stvehx
        199 => store(m, memory, w, address, 4)?,       // stvewx
        _ => store(m, memory, w, address, 16)?,        // stvx, stvxl
    }
    Ok(())
}

/// (rA|0): the number 0 where the field is 0.
#[inline(always)]
fn zero_or_register(m: &Machine, w: Word) -> u32 {
    match w.a() {
        0 => 0,
        a => m.gpr[a],
    }
}

#[inline(always)]
fn addi(m: &mut Machine, w: Word) -> Done {
    m.gpr[w.d()] = zero_or_register(m, w).wrapping_add_signed(w.long_immediate());
    Ok(())
}

/// 1 if the sum reaches 2^32.
#[inline(always)]
fn carry(a: i64, b: i64) -> i64 {
    (a + b) >> 32
}

/// 1 if A is at least B.
#[inline(always)]
fn no_borrow(a: i64, b: i64) -> i64 {
    i64::from(a >= b)
}

#[inline(always)]
fn mfvscr(m: &mut Machine, w: Word) -> Done {
    reserved(w, FIELD_A | FIELD_B)?;
    m.vr[w.d()] = m.status();
    Ok(())
}

#[inline(always)]
fn mtvscr(m: &mut Machine, w: Word) -> Done {
    reserved(w, FIELD_D | FIELD_A)?;
    m.set_status(m.vr[w.b()]);
    Ok(())
}

/// The lane number takes the low bits of the A field; those above it are reserved.
#[inline(always)]
fn splat<T: Lane>(m: &mut Machine, w: Word) -> Done {
    if w.a() >= T::COUNT {
        return Err(Answer::ReservedBit);
    }
    let value: T = m.vr[w.b()].lane(w.a());
    m.vr[w.d()] = T::build(|_| value);
    Ok(())
}

#[inline(always)]
fn splat_immediate<T: Lane>(m: &mut Machine, w: Word) -> Done {
    reserved(w, FIELD_B)?;
    m.vr[w.d()] = T::build(|_| T::reduce_product(w.immediate().into()));
    Ok(())
}

/// Sign-extends the half of B that begins with lane `first`.
#[inline(always)]
fn unpack<N: Lane + Into<i64>, W: Lane>(m: &mut Machine, w: Word, first: usize) -> Done {
    reserved(w, FIELD_A)?;
    let b = m.vr[w.b()];
    m.vr[w.d()] = W::build(|i| W::reduce_product(b.lane::<N>(first + i).into()));
    Ok(())
}

/// B where C is 1, A where it is 0.
#[inline(always)]
fn select(m: &mut Machine, w: Word) {
    let (a, b, c) = (m.vr[w.a()].quad(), m.vr[w.b()].quad(), m.vr[w.c()].quad());
    m.vr[w.d()] = Vector::from_quad(a & !c | b & c);
}

#[inline(always)]
fn permute(m: &mut Machine, w: Word) {
    m.vr[w.d()] = Vector::permute(m.vr[w.a()], m.vr[w.b()], m.vr[w.c()]);
}

/// Bytes n to n + 15 of A followed by B.
#[inline(always)]
fn slide(m: &mut Machine, w: Word) -> Done {
    reserved(w, 0x400)?;
    let (a, b) = (m.vr[w.a()].quad(), m.vr[w.b()].quad());
    m.vr[w.d()] = Vector::from_quad(match 8 * w.byte_count() {
        0 => a,
        bits => a << bits | b >> (128 - bits),
    });
    Ok(())
}

/// The sixteen bytes first, first + 1 and on; no byte passes 31, so none carries.
#[inline(always)]
fn byte_numbers(first: u32) -> Vector {
    const STEPS: u128 = 0x0001_0203_0405_0607_0809_0a0b_0c0d_0e0f;
    const ONES: u128 = 0x0101_0101_0101_0101_0101_0101_0101_0101;
    Vector::from_quad(STEPS + ONES * u128::from(first))
}

/// The bits that an element of `bytes` bytes at the address has in its line.
#[inline(always)]
fn element(address: u32, bytes: u32) -> u128 {
    let first = address & 15 & !(bytes - 1);
    u128::MAX << (128 - 8 * bytes) >> (8 * first)
}

/// The element in its place, zeros around it.
#[inline(always)]
fn load(m: &mut Machine, memory: &mut Memory, w: Word, address: u32, bytes: u32) -> Done {
    let line = memory.line(address).ok_or(Answer::AddressOutside)?;
    m.vr[w.d()] = Vector::from_quad(u128::from_be_bytes(*line) & element(address, bytes));
    Ok(())
}

/// The element into its place, the bytes around it as they were.
#[inline(always)]
fn store(m: &Machine, memory: &mut Memory, w: Word, address: u32, bytes: u32) -> Done {
    let line = memory.line(address).ok_or(Answer::AddressOutside)?;
    let bits = element(address, bytes);
    let merged = u128::from_be_bytes(*line) & !bits | m.vr[w.d()].quad() & bits;
    *line = merged.to_be_bytes();
    Ok(())
}
