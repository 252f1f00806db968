//! What the instructions do lane by lane (document 01, Lane rules).
//!
//! Every function reads its sources into values before it writes D.

use crate::machine::Machine;
use crate::vector::{Lane, Vector};
use crate::word::Word;

impl Machine {
    #[inline(always)]
    fn sources(&self, w: Word) -> (Vector, Vector) {
        (self.vr[w.a()], self.vr[w.b()])
    }

    /// Writes D with exact values moved into the lane's range; SAT is set where one moved, and
    /// never cleared.
    #[inline(always)]
    fn write_clipped<T: Lane>(&mut self, w: Word, exact: impl Fn(usize) -> T::Exact) {
        let mut clips = false;
        self.vr[w.d()] = T::build(|i| {
            let value = exact(i);
            let lane = T::clip(value);
            clips |= lane.exact() != value;
            lane
        });
        self.sat |= clips;
    }

    /// The operation on the lanes themselves.
    #[inline(always)]
    pub fn each<T: Lane>(&mut self, w: Word, operation: impl Fn(T, T) -> T) {
        let (a, b) = self.sources(w);
        self.vr[w.d()] = T::build(|i| operation(a.lane(i), b.lane(i)));
    }

    /// The exact result reduced to the lane.
    #[inline(always)]
    pub fn modulo<T: Lane>(&mut self, w: Word, f: impl Fn(T::Exact, T::Exact) -> T::Exact) {
        self.each(w, |a: T, b: T| T::reduce(f(a.exact(), b.exact())));
    }

    /// The exact result moved to the nearer end of the lane's range.
    #[inline(always)]
    pub fn saturate<T: Lane>(&mut self, w: Word, f: impl Fn(T::Exact, T::Exact) -> T::Exact) {
        let (a, b) = self.sources(w);
        self.write_clipped::<T>(w, |i| f(a.lane::<T>(i).exact(), b.lane::<T>(i).exact()));
    }

    /// The operation on whole registers.
    #[inline(always)]
    pub fn whole(&mut self, w: Word, operation: impl Fn(u128, u128) -> u128) {
        let (a, b) = self.sources(w);
        self.vr[w.d()] = Vector::from_quad(operation(a.quad(), b.quad()));
    }

    /// Lanes of all ones or all zeros; with Rc, CR6 becomes: all true, 0, none true, 0.
    #[inline(always)]
    pub fn compare<T: Lane>(&mut self, w: Word, holds: impl Fn(T, T) -> bool) {
        self.each(w, |a: T, b: T| T::reduce_product(-i64::from(holds(a, b))));
        if w.records() {
            self.cr6 = match self.vr[w.d()].quad() {
                u128::MAX => 0b1000,
                0 => 0b0010,
                _ => 0b0000,
            };
        }
    }

    /// Products of the even lanes (`odd` 0) or the odd ones (`odd` 1).
    #[inline(always)]
    pub fn multiply<N: Lane + Into<i64>, W: Lane>(&mut self, w: Word, odd: usize) {
        let (a, b) = self.sources(w);
        self.vr[w.d()] = W::build(|i| {
            let lane = 2 * i + odd;
            W::reduce_product(a.lane::<N>(lane).into() * b.lane::<N>(lane).into())
        });
    }

    /// floor((a * b + rounding) / 2^15) + c.
    #[inline(always)]
    pub fn multiply_high(&mut self, w: Word, rounding: i32) {
        let (a, b) = self.sources(w);
        let c = self.vr[w.c()];
        self.write_clipped::<i16>(w, |i| {
            let product = a.lane::<i16>(i).exact() * b.lane::<i16>(i).exact();
            ((product + rounding) >> 15) + c.lane::<i16>(i).exact()
        });
    }

    /// a * b + c modulo 2^16.
    #[inline(always)]
    pub fn multiply_low(&mut self, w: Word) {
        let (a, b) = self.sources(w);
        let c = self.vr[w.c()];
        self.vr[w.d()] = u16::build(|i| {
            let product = a.lane::<u16>(i).wrapping_mul(b.lane(i));
            product.wrapping_add(c.lane(i))
        });
    }

    /// For each word the products of its lanes and the word of C, modulo 2^32.
    #[inline(always)]
    pub fn multiply_sum<A, B, W>(&mut self, w: Word)
    where
        A: Lane + Into<i64>,
        B: Lane + Into<i64>,
        W: Lane + Into<i64>,
    {
        let (a, b) = self.sources(w);
        let c = self.vr[w.c()];
        self.vr[w.d()] =
            W::build(|i| W::reduce_product(products::<A, B>(a, b, i) + c.lane::<W>(i).into()));
    }

    /// As `multiply_sum`, but clipped once, after the whole sum.
    #[inline(always)]
    pub fn multiply_sum_clipped<N, W>(&mut self, w: Word)
    where
        N: Lane + Into<i64>,
        W: Lane<Exact = i64>,
    {
        let (a, b) = self.sources(w);
        let c = self.vr[w.c()];
        self.write_clipped::<W>(w, |i| products::<N, N>(a, b, i) + c.lane::<W>(i).exact());
    }

    /// For each word the lanes of A in it and the word of B.
    #[inline(always)]
    pub fn sum_quarter<N, W>(&mut self, w: Word)
    where
        N: Lane + Into<i64>,
        W: Lane<Exact = i64>,
    {
        let (a, b) = self.sources(w);
        self.write_clipped::<W>(w, |i| {
            let lanes = N::COUNT / 4;
            let sum: i64 = (0..lanes).map(|j| a.lane::<N>(lanes * i + j).into()).sum();
            sum + b.lane::<W>(i).exact()
        });
    }

    /// Each group of `group` words of A and the last word of that group in B, into the group's
    /// last word; the others become 0.
    #[inline(always)]
    pub fn sum_words(&mut self, w: Word, group: usize) {
        let (a, b) = self.sources(w);
        self.write_clipped::<i32>(w, |i| {
            if i % group != group - 1 {
                return 0;
            }
            let words = i + 1 - group..=i;
            let sum: i64 = words.map(|j| a.lane::<i32>(j).exact()).sum();
            sum + b.lane::<i32>(i).exact()
        });
    }

    /// Lanes of A and B in turn, beginning with lane `first` of each.
    #[inline(always)]
    pub fn merge<T: Lane>(&mut self, w: Word, first: usize) {
        let (a, b) = self.sources(w);
        self.vr[w.d()] = T::build(|i| {
            let source = if i % 2 == 0 { &a } else { &b };
            source.lane(first + i / 2)
        });
    }

    /// The low parts of the lanes of A followed by B.
    #[inline(always)]
    pub fn pack_low<W: Lane + Into<i64>, N: Lane>(&mut self, w: Word) {
        let (a, b) = self.sources(w);
        self.vr[w.d()] = N::build(|i| N::reduce_product(joined::<W>(&a, &b, i).into()));
    }

    /// The lanes of A followed by B, clipped to half their width.
    #[inline(always)]
    pub fn pack_clipped<W: Lane + Into<i64>, N: Lane<Exact = i32>>(&mut self, w: Word) {
        let (a, b) = self.sources(w);
        self.write_clipped::<N>(w, |i| clamp_to_i32(joined::<W>(&a, &b, i).into()));
    }
}

/// The sum of the products of those lanes of A and B that lie in word `i`.
#[inline(always)]
fn products<A, B>(a: Vector, b: Vector, i: usize) -> i64
where
    A: Lane + Into<i64>,
    B: Lane + Into<i64>,
{
    let lanes = A::COUNT / 4;
    (lanes * i..lanes * (i + 1))
        .map(|j| a.lane::<A>(j).into() * b.lane::<B>(j).into())
        .sum()
}

/// Lane `i` of A followed by B.
#[inline(always)]
fn joined<T: Lane>(a: &Vector, b: &Vector, i: usize) -> T {
    if i < T::COUNT {
        a.lane(i)
    } else {
        b.lane(i - T::COUNT)
    }
}

/// A pack's lane as an `i32`; what does not fit lies outside every half or byte either way.
#[inline(always)]
fn clamp_to_i32(value: i64) -> i32 {
    value.clamp(i32::MIN.into(), i32::MAX.into()) as i32
}
