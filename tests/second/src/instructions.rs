//! Tests of each family of instructions, and of the run, by examples from the papers and by
//! values worked out by hand.

use crate::{run, Answer, Lane, Machine, Outcome, Vector};

/// A word of primary 4 with the low eleven bits `code`.
fn vx(code: u32, d: u32, a: u32, b: u32) -> u32 {
    4 << 26 | d << 21 | a << 16 | b << 11 | code
}

/// A word of primary 4 with the low six bits `code`.
fn va(code: u32, d: u32, a: u32, b: u32, c: u32) -> u32 {
    vx(c << 6 | code, d, a, b)
}

/// A word of primary 31 with bits 21 to 30 `code`.
fn x(code: u32, d: u32, a: u32, b: u32) -> u32 {
    31 << 26 | d << 21 | a << 16 | b << 11 | code << 1
}

fn addi(d: u32, a: u32, immediate: i16) -> u32 {
    14 << 26 | d << 21 | a << 16 | u32::from(immediate as u16)
}

const A: u32 = 1;
const B: u32 = 2;
const C: u32 = 3;
const D: u32 = 4;

/// A machine with v1, v2 and v3 as given.
fn machine(a: Vector, b: Vector, c: Vector) -> Machine {
    let mut machine = Machine::default();
    machine.vr[1..4].copy_from_slice(&[a, b, c]);
    machine
}

fn step(machine: &mut Machine, word: u32) {
    let outcome = run(machine, &[word], &mut [], 0, 0, 1);
    assert_eq!(outcome.answer, Answer::Finished, "{word:08x}");
}

/// v4 and SAT after one word of three sources.
fn three(word: u32, a: Vector, b: Vector, c: Vector) -> (Vector, bool) {
    let mut machine = machine(a, b, c);
    step(&mut machine, word);
    (machine.vr[4], machine.sat)
}

/// v4 and SAT after `code` on v1 and v2.
fn two(code: u32, a: Vector, b: Vector) -> (Vector, bool) {
    three(vx(code, D, A, B), a, b, Vector::ZERO)
}

/// The same value in every lane.
fn all<T: Lane>(value: T) -> Vector {
    T::build(|_| value)
}

/// Lane 0 and SAT after `code` on lanes that are all alike.
fn lane<T: Lane>(code: u32, a: T, b: T) -> (T, bool) {
    let (d, sat) = two(code, all(a), all(b));
    (d.lane(0), sat)
}

fn quad(value: u128) -> Vector {
    Vector::from_quad(value)
}

const COUNTING: u128 = 0x00010203_04050607_08090a0b_0c0d0e0f;
const TENS: u128 = 0x10111213_14151617_18191a1b_1c1d1e1f;

mod examples_of_document_01 {
    use super::*;

    #[test]
    fn vaddsbs() {
        assert_eq!(lane::<i8>(768, 127, 1), (127, true));
    }

    #[test]
    fn vaddubs() {
        assert_eq!(lane::<u8>(512, 255, 0), (255, false));
    }

    #[test]
    fn vsubsws() {
        assert_eq!(lane::<i32>(1920, i32::MIN, 1), (i32::MIN, true));
    }

    #[test]
    fn vavgsb() {
        assert_eq!(lane::<i8>(1282, -1, -2), (-1, false));
        assert_eq!(lane::<i8>(1282, -1, -3), (-2, false));
    }

    #[test]
    fn vmhaddshs() {
        let low = all(-32768_i16);
        let word = va(32, D, A, B, C);
        assert_eq!(three(word, low, low, all(0_i16)), (all(32767_i16), true));
        assert_eq!(three(word, low, low, all(-1_i16)), (all(32767_i16), false));
    }

    #[test]
    fn vmhraddshs() {
        let (a, b, c) = (all(-1_i16), all(16384_i16), all(0_i16));
        assert_eq!(three(va(33, D, A, B, C), a, b, c), (all(0_i16), false));
        assert_eq!(three(va(32, D, A, B, C), a, b, c), (all(-1_i16), false));
    }

    #[test]
    fn vmsumshs() {
        let a = i16::build(|i| if i % 2 == 0 { 1 } else { -1 });
        let most = all(i32::MAX);
        assert_eq!(
            three(va(41, D, A, B, C), a, all(1_i16), most),
            (most, false)
        );
    }

    #[test]
    fn vpkshus() {
        assert_eq!(two(270, all(255_i16), all(255_i16)), (all(255_u8), false));
        assert_eq!(two(270, all(256_i16), all(255_i16)), (all(255_u8), true));
    }

    #[test]
    fn vsubcuw() {
        assert_eq!(lane::<u32>(1408, 5, 5), (1, false));
        assert_eq!(lane::<u32>(1408, 4, 5), (0, false));
    }

    #[test]
    fn vrlb() {
        assert_eq!(lane::<u8>(4, 0x81, 9), (0x03, false));
    }

    #[test]
    fn lvsr() {
        let mut machine = Machine::default();
        step(&mut machine, x(38, D, 0, 0));
        assert_eq!(machine.vr[4], quad(TENS));
    }
}

mod arithmetic {
    use super::*;

    #[test]
    fn modulo_sums_and_differences_wrap() {
        assert_eq!(lane::<u8>(0, 255, 2), (1, false));
        assert_eq!(lane::<u16>(64, 0xffff, 2), (1, false));
        assert_eq!(lane::<u32>(128, u32::MAX, 2), (1, false));
        assert_eq!(lane::<u8>(1024, 1, 2), (255, false));
        assert_eq!(lane::<u16>(1088, 1, 2), (0xffff, false));
        assert_eq!(lane::<u32>(1152, 1, 2), (u32::MAX, false));
    }

    #[test]
    fn lanes_do_not_carry_into_their_neighbours() {
        let (a, b) = (quad(0x00ff << 112), quad(0x0001 << 112));
        assert_eq!(two(0, a, b).0, quad(0));
        assert_eq!(two(64, a, b).0, quad(0x0100 << 112));
    }

    #[test]
    fn carries() {
        assert_eq!(lane::<u32>(384, u32::MAX, 1), (1, false));
        assert_eq!(lane::<u32>(384, u32::MAX, 0), (0, false));
        assert_eq!(lane::<u32>(1408, 0, u32::MAX), (0, false));
        assert_eq!(lane::<u32>(1408, u32::MAX, 0), (1, false));
    }

    #[test]
    fn unsigned_sums_clip_above() {
        assert_eq!(lane::<u8>(512, 200, 56), (255, true));
        assert_eq!(lane::<u8>(512, 200, 55), (255, false));
        assert_eq!(lane::<u16>(576, 0xffff, 1), (0xffff, true));
        assert_eq!(lane::<u32>(640, u32::MAX, 1), (u32::MAX, true));
        assert_eq!(lane::<u32>(640, u32::MAX - 1, 1), (u32::MAX, false));
    }

    #[test]
    fn signed_sums_clip_at_both_ends() {
        assert_eq!(lane::<i8>(768, -128, -1), (-128, true));
        assert_eq!(lane::<i16>(832, 32767, 1), (32767, true));
        assert_eq!(lane::<i16>(832, -32768, -32768), (-32768, true));
        assert_eq!(lane::<i32>(896, i32::MAX, 1), (i32::MAX, true));
        assert_eq!(lane::<i32>(896, i32::MIN, 1), (i32::MIN + 1, false));
    }

    #[test]
    fn differences_clip() {
        assert_eq!(lane::<u8>(1536, 1, 2), (0, true));
        assert_eq!(lane::<u8>(1536, 2, 2), (0, false));
        assert_eq!(lane::<u16>(1600, 0, 0xffff), (0, true));
        assert_eq!(lane::<u32>(1664, 0, 1), (0, true));
        assert_eq!(lane::<i8>(1792, 0, -128), (127, true));
        assert_eq!(lane::<i16>(1856, -32768, 1), (-32768, true));
        assert_eq!(lane::<i32>(1920, 0, i32::MIN), (i32::MAX, true));
    }

    #[test]
    fn one_clipping_lane_sets_sat_and_none_clears_it() {
        let mut machine = machine(quad(0xff << 64), quad(0x01 << 64), Vector::ZERO);
        step(&mut machine, vx(512, D, A, B));
        assert!(machine.sat);
        step(&mut machine, vx(512, D, 10, 11));
        assert!(machine.sat);
    }

    #[test]
    fn maxima_and_minima_know_signs() {
        assert_eq!(lane::<u8>(2, 0x80, 0x7f).0, 0x80);
        assert_eq!(lane::<u16>(66, 0x8000, 1).0, 0x8000);
        assert_eq!(lane::<u32>(130, 0x8000_0000, 1).0, 0x8000_0000);
        assert_eq!(lane::<i8>(258, -128, 127).0, 127);
        assert_eq!(lane::<i16>(322, -32768, 1).0, 1);
        assert_eq!(lane::<i32>(386, i32::MIN, 1).0, 1);
        assert_eq!(lane::<u8>(514, 0x80, 0x7f).0, 0x7f);
        assert_eq!(lane::<u16>(578, 0x8000, 1).0, 1);
        assert_eq!(lane::<u32>(642, 0x8000_0000, 1).0, 1);
        assert_eq!(lane::<i8>(770, -128, 127).0, -128);
        assert_eq!(lane::<i16>(834, -32768, 1).0, -32768);
        assert_eq!(lane::<i32>(898, i32::MIN, 1).0, i32::MIN);
    }

    #[test]
    fn averages_round_up_on_exact_values() {
        assert_eq!(lane::<u8>(1026, 255, 254).0, 255);
        assert_eq!(lane::<u16>(1090, 0xffff, 0xffff).0, 0xffff);
        assert_eq!(lane::<u32>(1154, u32::MAX, 0).0, 0x8000_0000);
        assert_eq!(lane::<i16>(1346, -32768, -32767).0, -32767);
        assert_eq!(lane::<i32>(1410, i32::MIN, i32::MAX).0, 0);
    }
}

mod shifts {
    use super::*;

    #[test]
    fn rotates_take_the_low_bits_of_the_count() {
        assert_eq!(lane::<u8>(4, 0x81, 0xf8).0, 0x81);
        assert_eq!(lane::<u16>(68, 0x8001, 17).0, 0x0003);
        assert_eq!(lane::<u32>(132, 0x8000_0001, 33).0, 0x0000_0003);
    }

    #[test]
    fn lane_shifts() {
        assert_eq!(lane::<u8>(260, 0x81, 9).0, 0x02);
        assert_eq!(lane::<u16>(324, 0x8001, 31).0, 0x8000);
        assert_eq!(lane::<u32>(388, 3, 63).0, 0x8000_0000);
        assert_eq!(lane::<u8>(516, 0x81, 15).0, 0x01);
        assert_eq!(lane::<u16>(580, 0x8001, 15).0, 1);
        assert_eq!(lane::<u32>(644, 0x8000_0000, 31).0, 1);
        assert_eq!(lane::<i8>(772, -128, 0x47).0, -1);
        assert_eq!(lane::<i16>(836, -32768, 15).0, -1);
        assert_eq!(lane::<i32>(900, i32::MIN, 30).0, -2);
    }

    #[test]
    fn whole_shifts_take_the_last_three_bits_alone() {
        // The other bytes of B hold other counts, which 001 would forbid.
        let count = quad(0x01020304_05060708_090a0b0c_0d0e0ffb);
        assert_eq!(two(452, quad(1 << 127 | 1), count).0, quad(0b1000));
        assert_eq!(two(708, quad(1 << 127 | 1), count).0, quad(1 << 124));
    }

    #[test]
    fn octet_shifts_take_bits_121_to_124() {
        let count = quad(u128::MAX << 7 | 2 << 3 | 0b111);
        assert_eq!(two(1036, quad(COUNTING), count).0, quad(COUNTING << 16));
        assert_eq!(two(1100, quad(COUNTING), count).0, quad(COUNTING >> 16));
        assert_eq!(two(1036, quad(COUNTING), quad(0x78)).0, quad(0x0f << 120));
    }

    #[test]
    fn a_shift_of_two_registers_in_six_words() {
        // 001, vsr, programming notes: vW || vX shifted left by the bits in vY.
        let (high, low, bits) = (COUNTING, TENS, 43_u32);
        let mut machine = machine(quad(high), quad(low), all(bits as u8));
        let (w, x, y, t1, t2, t3, z) = (1, 2, 3, 4, 5, 6, 7);
        for word in [
            vx(1036, t1, w, y),
            vx(452, t1, t1, y),
            vx(1024, t3, 0, y),
            vx(1100, t2, x, t3),
            vx(708, t2, t2, t3),
            vx(1156, z, t1, t2),
        ] {
            step(&mut machine, word);
        }
        assert_eq!(machine.vr[7], quad(high << bits | low >> (128 - bits)));
    }
}

mod logic_and_status {
    use super::*;

    #[test]
    fn logic() {
        let (a, b) = (all(0b1100_u8), all(0b1010_u8));
        assert_eq!(two(1028, a, b).0, all(0b1000_u8));
        assert_eq!(two(1092, a, b).0, all(0b0100_u8));
        assert_eq!(two(1156, a, b).0, all(0b1110_u8));
        assert_eq!(two(1220, a, b).0, all(0b0110_u8));
        assert_eq!(two(1284, a, b).0, all(0b1111_0001_u8));
    }

    #[test]
    fn status_is_read_into_the_last_word() {
        let mut machine = Machine {
            nj: true,
            sat: true,
            ..Machine::default()
        };
        machine.vr[4] = all(0xff_u8);
        step(&mut machine, vx(1540, D, 0, 0));
        assert_eq!(machine.vr[4], quad(0x0001_0001));
    }

    #[test]
    fn status_takes_two_bits_and_can_turn_sat_off() {
        let mut machine = machine(quad(1 << 16), quad(!0x0001_0001), quad(1));
        machine.sat = true;
        step(&mut machine, vx(1604, 0, 0, A));
        assert_eq!((machine.nj, machine.sat), (true, false));
        step(&mut machine, vx(1604, 0, 0, C));
        assert_eq!((machine.nj, machine.sat), (false, true));
        step(&mut machine, vx(1604, 0, 0, B));
        assert_eq!((machine.nj, machine.sat), (false, false));
    }
}

mod products {
    use super::*;

    #[test]
    fn even_and_odd_bytes() {
        let a = u8::build(|i| if i % 2 == 0 { 255 } else { 2 });
        let b = u8::build(|i| if i % 2 == 0 { 255 } else { 128 });
        assert_eq!(two(520, a, b).0, all(65025_u16));
        assert_eq!(two(8, a, b).0, all(256_u16));
        assert_eq!(two(776, a, b).0, all(1_i16));
        assert_eq!(two(264, a, b).0, all(-256_i16));
    }

    #[test]
    fn even_and_odd_halves() {
        let a = u16::build(|i| if i % 2 == 0 { 0xffff } else { 2 });
        let b = u16::build(|i| if i % 2 == 0 { 0xffff } else { 0x8000 });
        assert_eq!(two(584, a, b).0, all(0xfffe_0001_u32));
        assert_eq!(two(72, a, b).0, all(0x0001_0000_u32));
        assert_eq!(two(840, a, b).0, all(1_i32));
        assert_eq!(two(328, a, b).0, all(-65536_i32));
    }

    #[test]
    fn products_stay_in_their_order() {
        let (d, _) = two(520, quad(COUNTING), all(1_u8));
        assert_eq!(d, u16::build(|i| 2 * i as u16));
        let (d, _) = two(8, quad(COUNTING), all(1_u8));
        assert_eq!(d, u16::build(|i| 2 * i as u16 + 1));
    }

    #[test]
    fn high_products_clip_below() {
        let (a, b, c) = (all(-32768_i16), all(32767_i16), all(-2_i16));
        assert_eq!(three(va(32, D, A, B, C), a, b, c), (all(-32768_i16), true));
        assert_eq!(three(va(33, D, A, B, C), a, b, c), (all(-32768_i16), true));
        let c = all(-1_i16);
        assert_eq!(three(va(32, D, A, B, C), a, b, c), (all(-32768_i16), false));
    }

    #[test]
    fn a_rounded_product_clips_where_the_other_does_not() {
        let (a, b, c) = (all(1_i16), all(16384_i16), all(32767_i16));
        assert_eq!(three(va(32, D, A, B, C), a, b, c), (all(32767_i16), false));
        assert_eq!(three(va(33, D, A, B, C), a, b, c), (all(32767_i16), true));
    }

    #[test]
    fn low_products_wrap() {
        let word = va(34, D, A, B, C);
        let most = all(0xffff_u16);
        assert_eq!(three(word, most, most, most), (all(0_u16), false));
        assert_eq!(
            three(word, all(3_u16), all(5_u16), all(7_u16)).0,
            all(22_u16)
        );
    }

    #[test]
    fn sums_of_byte_products() {
        let (a, b, c) = (all(0xff_u8), all(0xff_u8), all(10_u32));
        assert_eq!(
            three(va(36, D, A, B, C), a, b, c).0,
            all(4 * 65025 + 10_u32)
        );
        assert_eq!(three(va(37, D, A, B, C), a, b, c).0, all(10 - 4 * 255_i32));
        let c = all(u32::MAX);
        assert_eq!(three(va(36, D, A, B, C), a, b, c).0, all(4 * 65025 - 1_u32));
    }

    #[test]
    fn sums_of_half_products_modulo() {
        let (most, low, c) = (all(0xffff_u16), all(-32768_i16), all(1_u32));
        let expected = (2_u64 * 65535 * 65535 + 1) as u32;
        assert_eq!(three(va(38, D, A, B, C), most, most, c).0, all(expected));
        assert_eq!(
            three(va(40, D, A, B, C), low, low, c).0,
            all(0x8000_0001_u32)
        );
    }

    #[test]
    fn sums_of_half_products_clip_once() {
        let (most, low) = (all(0xffff_u16), all(-32768_i16));
        let zero = Vector::ZERO;
        assert_eq!(
            three(va(39, D, A, B, C), most, most, zero),
            (all(u32::MAX), true)
        );
        let one_each = u16::build(|i| if i % 2 == 0 { 0xffff } else { 1 });
        let sum = 65535_u32 * 65535 + 1;
        assert_eq!(
            three(va(39, D, A, B, C), one_each, one_each, zero),
            (all(sum), false)
        );
        assert_eq!(
            three(va(41, D, A, B, C), low, low, zero),
            (all(i32::MAX), true)
        );
        assert_eq!(
            three(va(41, D, A, B, C), low, low, all(-1_i32)),
            (all(i32::MAX), false)
        );
    }
}

mod sums {
    use super::*;

    #[test]
    fn quarters() {
        assert_eq!(two(1544, all(0xff_u8), all(1_u32)), (all(1021_u32), false));
        assert_eq!(
            two(1544, all(0xff_u8), all(u32::MAX - 1019)),
            (all(u32::MAX), true)
        );
        assert_eq!(
            two(1544, all(0xff_u8), all(u32::MAX - 1020)),
            (all(u32::MAX), false)
        );
        assert_eq!(two(1800, all(-1_i8), all(1_i32)), (all(-3_i32), false));
        assert_eq!(two(1800, all(-1_i8), all(i32::MIN)), (all(i32::MIN), true));
        assert_eq!(two(1608, all(-2_i16), all(1_i32)), (all(-3_i32), false));
        assert_eq!(two(1608, all(1_i16), all(i32::MAX)), (all(i32::MAX), true));
    }

    #[test]
    fn halves_go_to_words_1_and_3() {
        let a = i32::build(|i| [1, 2, 3, 4][i]);
        let b = i32::build(|i| [100, 10, 200, 20][i]);
        assert_eq!(two(1672, a, b), (i32::build(|i| [0, 13, 0, 27][i]), false));
        let most = all(i32::MAX);
        let clipped = i32::build(|i| [0, i32::MAX, 0, i32::MAX][i]);
        assert_eq!(two(1672, most, most), (clipped, true));
    }

    #[test]
    fn all_words_go_to_word_3() {
        let a = i32::build(|i| [1, 2, 3, 4][i]);
        let b = i32::build(|i| [100, 10, 200, 20][i]);
        assert_eq!(two(1928, a, b), (quad(30), false));
        assert_eq!(
            two(1928, all(i32::MIN), all(i32::MIN)),
            (quad(1 << 31), true)
        );
    }

    #[test]
    fn a_sum_is_exact_until_its_end() {
        let a = i32::build(|i| [i32::MAX, i32::MAX, i32::MIN, i32::MIN][i]);
        assert_eq!(two(1928, a, quad(5)), (quad(3), false));
    }
}

mod moves {
    use super::*;

    #[test]
    fn merges() {
        let (a, b) = (quad(COUNTING), quad(TENS));
        let merged = |code| two(code, a, b).0.quad();
        assert_eq!(merged(12), 0x00100111_02120313_04140515_06160717);
        assert_eq!(merged(76), 0x00011011_02031213_04051415_06071617);
        assert_eq!(merged(140), 0x00010203_10111213_04050607_14151617);
        assert_eq!(merged(268), 0x08180919_0a1a0b1b_0c1c0d1d_0e1e0f1f);
        assert_eq!(merged(332), 0x08091819_0a0b1a1b_0c0d1c1d_0e0f1e1f);
        assert_eq!(merged(396), 0x08090a0b_18191a1b_0c0d0e0f_1c1d1e1f);
    }

    #[test]
    fn splats() {
        let splat = |code, number| {
            let word = vx(code, D, number, B);
            three(word, Vector::ZERO, quad(COUNTING), Vector::ZERO).0
        };
        assert_eq!(splat(524, 15), all(0x0f_u8));
        assert_eq!(splat(588, 1), all(0x0203_u16));
        assert_eq!(splat(652, 3), all(0x0c0d0e0f_u32));
    }

    #[test]
    fn immediates() {
        let splat = |code, field| {
            let mut machine = Machine::default();
            step(&mut machine, vx(code, D, field, 0));
            machine.vr[4]
        };
        assert_eq!(splat(780, 16), all(-16_i8));
        assert_eq!(splat(844, 31), all(-1_i16));
        assert_eq!(splat(908, 15), all(15_i32));
        assert_eq!(splat(908, 16), all(-16_i32));
    }

    #[test]
    fn modulo_packs_put_a_first() {
        let (a, b) = (quad(COUNTING), quad(TENS));
        assert_eq!(two(14, a, b).0, quad(0x01030507_090b0d0f_11131517_191b1d1f));
        assert_eq!(two(78, a, b).0, quad(0x02030607_0a0b0e0f_12131617_1a1b1e1f));
    }

    #[test]
    fn packs_clip_to_each_range() {
        let packed = |code, value: Vector| two(code, value, value);
        assert_eq!(packed(142, all(0x8000_u16)), (all(0xff_u8), true));
        assert_eq!(packed(142, all(0x00ff_u16)), (all(0xff_u8), false));
        assert_eq!(packed(206, all(0x8000_0000_u32)), (all(0xffff_u16), true));
        assert_eq!(packed(270, all(-1_i16)), (all(0_u8), true));
        assert_eq!(packed(334, all(i32::MIN)), (all(0_u16), true));
        assert_eq!(packed(334, all(0xffff_i32)), (all(0xffff_u16), false));
        assert_eq!(packed(398, all(-129_i16)), (all(-128_i8), true));
        assert_eq!(packed(398, all(-128_i16)), (all(-128_i8), false));
        assert_eq!(packed(462, all(32768_i32)), (all(32767_i16), true));
        assert_eq!(packed(462, all(i32::MIN)), (all(-32768_i16), true));
    }

    #[test]
    fn a_pack_clips_by_either_source() {
        assert!(two(398, Vector::ZERO, quad(0x0080)).1);
        assert!(two(398, quad(0x0080), Vector::ZERO).1);
    }

    #[test]
    fn unpacks_extend_signs() {
        let b = quad(0x80010203_04050607_88090a0b_0c0d0e0f);
        let unpacked = |code| {
            let word = vx(code, D, 0, B);
            three(word, Vector::ZERO, b, Vector::ZERO).0.quad()
        };
        assert_eq!(unpacked(526), 0xff800001_00020003_00040005_00060007);
        assert_eq!(unpacked(590), 0xffff8001_00000203_00000405_00000607);
        assert_eq!(unpacked(654), 0xff880009_000a000b_000c000d_000e000f);
        assert_eq!(unpacked(718), 0xffff8809_00000a0b_00000c0d_00000e0f);
    }

    #[test]
    fn select_takes_b_where_c_is_one() {
        let (d, _) = three(va(42, D, A, B, C), all(0xaa_u8), all(0x55_u8), all(0x0f_u8));
        assert_eq!(d, all(0xa5_u8));
    }

    #[test]
    fn permute_takes_the_low_five_bits() {
        let (a, b) = (quad(COUNTING), quad(TENS));
        let c = quad(0x00011f10_0fe0ff21_02030405_06070809);
        let (d, _) = three(va(43, D, A, B, C), a, b, c);
        assert_eq!(d, quad(0x00011f10_0f001f01_02030405_06070809));
    }

    #[test]
    fn slides() {
        let slid = |bytes| {
            let word = va(44, D, A, B, bytes);
            three(word, quad(COUNTING), quad(TENS), Vector::ZERO).0
        };
        assert_eq!(slid(0), quad(COUNTING));
        assert_eq!(slid(3), quad(0x03040506_0708090a_0b0c0d0e_0f101112));
        assert_eq!(slid(15), quad(0x0f101112_13141516_1718191a_1b1c1d1e));
    }

    #[test]
    fn a_source_may_be_the_target() {
        let mut machine = machine(quad(COUNTING), quad(TENS), Vector::ZERO);
        step(&mut machine, vx(268, A, A, A));
        assert_eq!(machine.vr[1], quad(0x08080909_0a0a0b0b_0c0c0d0d_0e0e0f0f));
        step(&mut machine, vx(12, B, A, B));
        assert_eq!(machine.vr[2], quad(0x08100811_09120913_0a140a15_0b160b17));
    }
}

mod compares {
    use super::*;

    fn compared(code: u32, a: Vector, b: Vector) -> (Vector, u8) {
        let mut machine = machine(a, b, Vector::ZERO);
        machine.cr6 = 0b0101;
        step(&mut machine, vx(code, D, A, B));
        (machine.vr[4], machine.cr6)
    }

    const RC: u32 = 1024;
    const NONE: Vector = Vector::ZERO;

    #[test]
    fn equality() {
        let ones = quad(u128::MAX);
        assert_eq!(compared(6, all(7_u8), all(7_u8)), (ones, 0b0101));
        assert_eq!(compared(70, all(7_u16), all(8_u16)), (NONE, 0b0101));
        let (d, _) = compared(134, quad(COUNTING), quad(COUNTING ^ 1));
        assert_eq!(d, quad(u128::MAX << 32));
    }

    #[test]
    fn greater_knows_signs() {
        let ones = quad(u128::MAX);
        assert_eq!(compared(518, all(0x80_u8), all(0x7f_u8)).0, ones);
        assert_eq!(compared(582, all(0x8000_u16), all(1_u16)).0, ones);
        assert_eq!(compared(646, all(0x8000_0000_u32), all(1_u32)).0, ones);
        assert_eq!(compared(774, all(-128_i8), all(127_i8)).0, NONE);
        assert_eq!(compared(838, all(-32768_i16), all(1_i16)).0, NONE);
        assert_eq!(compared(902, all(1_i32), all(i32::MIN)).0, ones);
        assert_eq!(compared(902, all(1_i32), all(1_i32)).0, NONE);
    }

    #[test]
    fn recorded() {
        assert_eq!(compared(6 + RC, all(7_u8), all(7_u8)).1, 0b1000);
        assert_eq!(compared(70 + RC, all(7_u16), all(8_u16)).1, 0b0010);
        assert_eq!(
            compared(134 + RC, quad(COUNTING), quad(COUNTING ^ 1)).1,
            0b0000
        );
        for code in [518, 582, 646, 774, 838, 902] {
            assert_eq!(
                compared(code + RC, quad(COUNTING), quad(COUNTING)).1,
                0b0010
            );
        }
    }
}

mod addresses {
    use super::*;

    /// One word over sixteen counting bytes at 0x1000, with r1 and r2 as given.
    fn over_line(word: u32, r1: u32, r2: u32) -> (Answer, Machine, [u8; 16]) {
        let mut machine = Machine::default();
        machine.gpr[1] = r1;
        machine.gpr[2] = r2;
        machine.vr[4] = quad(TENS);
        let mut memory = COUNTING.to_be_bytes();
        let outcome = run(&mut machine, &[word], &mut memory, 0x1000, 0, 1);
        (outcome.answer, machine, memory)
    }

    #[test]
    fn the_examples_of_document_01() {
        let (answer, machine, _) = over_line(x(103, D, 0, 2), 0, 0x100f);
        assert_eq!((answer, machine.vr[4]), (Answer::Finished, quad(COUNTING)));
        let (answer, machine, _) = over_line(x(103, D, 0, 2), 0, 0x1010);
        assert_eq!(
            (answer, machine.vr[4]),
            (Answer::AddressOutside, quad(TENS))
        );
        let (answer, ..) = over_line(x(7, D, 1, 2), 0x1002, 0xffff_ffff);
        assert_eq!(answer, Answer::Finished);
        let mut bytes = [1; 16];
        let mut machine = Machine::default();
        machine.gpr[2] = 0xffff_ffff;
        let code = [x(359, D, 0, 2)];
        let outcome = run(&mut machine, &code, &mut bytes, 0xffff_fff0, 0, 1);
        assert_eq!(outcome.answer, Answer::Finished);
        assert_eq!(machine.vr[4], all(1_u8));
    }

    #[test]
    fn element_loads_keep_the_place_and_clear_the_rest() {
        let loaded = |code, address| over_line(x(code, D, 0, 2), 0, address).1.vr[4].quad();
        assert_eq!(loaded(7, 0x1003), 0x03 << 96);
        assert_eq!(loaded(7, 0x100f), 0x0f);
        assert_eq!(loaded(39, 0x1003), 0x0203 << 96);
        assert_eq!(loaded(71, 0x1007), 0x04050607 << 64);
        assert_eq!(loaded(71, 0x100f), 0x0c0d0e0f);
    }

    #[test]
    fn element_stores_change_their_bytes_alone() {
        let stored = |code, address| {
            let (answer, _, memory) = over_line(x(code, D, 0, 2), 0, address);
            assert_eq!(answer, Answer::Finished);
            u128::from_be_bytes(memory)
        };
        assert_eq!(stored(135, 0x1003), COUNTING | 0x10 << 96);
        assert_eq!(stored(167, 0x1003), COUNTING | 0x1010 << 96);
        assert_eq!(stored(199, 0x100d), COUNTING | 0x10101010);
        assert_eq!(stored(231, 0x100d), TENS);
        assert_eq!(stored(487, 0x1000), TENS);
    }

    #[test]
    fn a_refused_store_changes_nothing() {
        for code in [135, 167, 199, 231, 487] {
            let (answer, _, memory) = over_line(x(code, D, 0, 2), 0, 0x0fff);
            assert_eq!(answer, Answer::AddressOutside);
            assert_eq!(memory, COUNTING.to_be_bytes());
        }
    }

    #[test]
    fn alignment_vectors() {
        let made = |code, address| over_line(x(code, D, 1, 2), 1, address).1.vr[4].quad();
        assert_eq!(made(6, 0x4fff), COUNTING);
        assert_eq!(made(6, 2), 0x03040506_0708090a_0b0c0d0e_0f101112);
        assert_eq!(made(6, 14), 0x0f101112_13141516_1718191a_1b1c1d1e);
        assert_eq!(made(38, 0), 0x0f101112_13141516_1718191a_1b1c1d1e);
        assert_eq!(made(38, 14), 0x01020304_05060708_090a0b0c_0d0e0f10);
    }

    #[test]
    fn a_field_of_zero_means_the_number_for_a_and_the_register_for_b() {
        let mut machine = Machine::default();
        machine.gpr[0] = 5;
        step(&mut machine, x(6, D, 0, 0));
        assert_eq!(machine.vr[4].lane::<u8>(0), 5);
        step(&mut machine, addi(1, 0, -3));
        assert_eq!(machine.gpr[1], 0xffff_fffd);
        step(&mut machine, addi(0, 1, 4));
        assert_eq!(machine.gpr[0], 1);
        step(&mut machine, addi(0, 0, 9));
        assert_eq!(machine.gpr[0], 9);
    }

    #[test]
    fn unaligned_data_by_two_loads_and_a_permute() {
        // 001, lvsl and vperm: the sixteen bytes at 0x100c, over a line boundary.
        let mut memory: Vec<u8> = (0..32).collect();
        let mut machine = Machine::default();
        machine.gpr[1] = 0x100c;
        machine.gpr[2] = 15;
        let code = [
            x(103, 1, 0, 1),
            x(103, 2, 1, 2),
            x(6, 3, 0, 1),
            va(43, 4, 1, 2, 3),
        ];
        run(&mut machine, &code, &mut memory, 0x1000, 0, 4);
        assert_eq!(machine.vr[4], u8::build(|i| 12 + i as u8));
    }
}

mod runs {
    use super::*;

    const VOR: u32 = 0x1000_0484;

    fn outcome(answer: Answer, count: u32, place: u32) -> Outcome {
        Outcome {
            answer,
            count,
            place,
        }
    }

    fn ran(code: &[u32], place: u32, allowance: u32) -> Outcome {
        run(&mut Machine::default(), code, &mut [], 0, place, allowance)
    }

    #[test]
    fn finished_comes_before_allowance_used() {
        assert_eq!(ran(&[VOR; 3], 0, 3), outcome(Answer::Finished, 3, 3));
        assert_eq!(ran(&[VOR; 3], 0, 2), outcome(Answer::AllowanceUsed, 2, 2));
        assert_eq!(ran(&[VOR; 3], 3, 0), outcome(Answer::Finished, 0, 3));
        assert_eq!(ran(&[VOR; 3], 2, 0), outcome(Answer::AllowanceUsed, 0, 2));
        assert_eq!(ran(&[], 0, 0), outcome(Answer::Finished, 0, 0));
    }

    #[test]
    fn the_allowance_comes_before_the_word() {
        assert_eq!(ran(&[0], 0, 0), outcome(Answer::AllowanceUsed, 0, 0));
    }

    #[test]
    fn refusals_come_in_their_order() {
        let long = vec![VOR; 16_385];
        let mut machine = Machine::default();
        let misplaced = run(&mut machine, &long, &mut [0; 8], 0, 20_000, 1);
        assert_eq!(misplaced, outcome(Answer::MemoryMisplaced, 0, 20_000));
        assert_eq!(
            ran(&long, 20_000, 1),
            outcome(Answer::CodeTooLong, 0, 20_000)
        );
        assert_eq!(ran(&[VOR], 2, 1), outcome(Answer::PlaceBeyondCode, 0, 2));
        let far = u32::MAX;
        assert_eq!(
            ran(&[VOR], far, 1),
            outcome(Answer::PlaceBeyondCode, 0, far)
        );
        assert_eq!(ran(&long[1..], 16_384, 1).answer, Answer::Finished);
    }

    #[test]
    fn a_bad_word_keeps_the_work_before_it() {
        let mut machine = Machine::default();
        let code = [addi(1, 0, 7), 0, addi(1, 0, 8)];
        let stopped = run(&mut machine, &code, &mut [], 0, 0, 9);
        assert_eq!(stopped, outcome(Answer::UnknownWord, 1, 1));
        assert_eq!(machine.gpr[1], 7);
    }

    #[test]
    fn other_primaries_are_unknown() {
        for primary in (0..64).filter(|p| ![4, 14, 31].contains(p)) {
            assert_eq!(ran(&[primary << 26], 0, 1).answer, Answer::UnknownWord);
        }
    }

    #[test]
    fn five_hundred_codes_are_carried_under_primary_4() {
        let carried = (0..2048)
            .filter(|code| ran(&[4 << 26 | code], 0, 1).answer != Answer::UnknownWord)
            .count();
        assert_eq!(carried, 500);
    }

    #[test]
    fn twelve_codes_are_carried_under_primary_31() {
        let carried = (0..1024)
            .filter(|&code| ran(&[x(code, 0, 0, 0)], 0, 1).answer != Answer::UnknownWord)
            .count();
        assert_eq!(carried, 12);
    }

    #[test]
    fn reserved_bits_are_refused_one_by_one() {
        let field_a = 0x001f_0000;
        let field_b = 0x0000_f800;
        let field_d = 0x03e0_0000;
        let mut masks: Vec<(u32, u32)> = vec![
            (va(44, 0, 0, 0, 0), 0x400),
            (vx(1540, 0, 0, 0), field_a | field_b),
            (vx(1604, 0, 0, 0), field_d | field_a),
            (vx(524, 0, 0, 0), 0x0010_0000),
            (vx(588, 0, 0, 0), 0x0018_0000),
            (vx(652, 0, 0, 0), 0x001c_0000),
        ];
        masks.extend([526, 590, 654, 718].map(|code| (vx(code, 0, 0, 0), field_a)));
        masks.extend([780, 844, 908].map(|code| (vx(code, 0, 0, 0), field_b)));
        let indexed = [6, 38, 7, 39, 71, 103, 359, 135, 167, 199, 231, 487];
        masks.extend(indexed.map(|code| (x(code, 0, 0, 0), 1)));
        for (word, mask) in masks {
            for bit in (0..32).map(|bit| 1 << bit).filter(|bit| mask & bit != 0) {
                assert_eq!(ran(&[word | bit], 0, 1).answer, Answer::ReservedBit);
            }
        }
    }

    #[test]
    fn a_run_continued_is_one_run() {
        let code = [
            addi(1, 1, 5),
            vx(780, 3, 31, 0),
            vx(0, 3, 3, 3),
            addi(2, 1, 1),
        ];
        let mut whole = Machine::default();
        run(&mut whole, &code, &mut [], 0, 0, 4);
        let mut parts = Machine::default();
        let first = run(&mut parts, &code, &mut [], 0, 0, 3);
        assert_eq!(first, outcome(Answer::AllowanceUsed, 3, 3));
        let second = run(&mut parts, &code, &mut [], 0, first.place, 1);
        assert_eq!(second, outcome(Answer::Finished, 1, 4));
        assert_eq!(whole, parts);
    }
}
