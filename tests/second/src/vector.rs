//! A vector register: one 128-bit number, kept with its rightmost byte first.
//!
//! The papers number lanes from the left. `Lane::get` and `Lane::build` take those numbers;
//! the order of the bytes in store is known in this file alone.

/// Sixteen bytes, the rightmost first.
#[derive(Clone, Copy, Default, PartialEq, Eq)]
#[repr(C, align(16))]
pub struct Vector([u8; 16]);

impl Vector {
    pub const ZERO: Vector = Vector([0; 16]);

    /// The register as one number, bit 0 of the papers being its highest.
    #[inline(always)]
    pub fn quad(self) -> u128 {
        u128::from_le_bytes(self.0)
    }

    #[inline(always)]
    pub fn from_quad(quad: u128) -> Vector {
        Vector(quad.to_le_bytes())
    }

    /// The bytes as memory holds them, byte 0 of the papers first.
    pub fn to_memory(self) -> [u8; 16] {
        self.quad().to_be_bytes()
    }

    pub fn from_memory(bytes: [u8; 16]) -> Vector {
        Vector::from_quad(u128::from_be_bytes(bytes))
    }

    /// Lane `i` of this width, counted from the left.
    #[inline(always)]
    pub fn lane<T: Lane>(&self, i: usize) -> T {
        T::get(self, i)
    }

    /// Byte `n` of A followed by B, for each of the sixteen numbers in `numbers` modulo 32.
    #[inline(always)]
    pub fn permute(a: Vector, b: Vector, numbers: Vector) -> Vector {
        let mut pair = [0; 32];
        pair[..16].copy_from_slice(&b.0);
        pair[16..].copy_from_slice(&a.0);
        Vector(numbers.0.map(|n| pair[usize::from(!n & 31)]))
    }
}

impl std::fmt::Debug for Vector {
    fn fmt(&self, f: &mut std::fmt::Formatter<'_>) -> std::fmt::Result {
        write!(f, "{:032x}", self.quad())
    }
}

/// An integer that fills a vector in lanes.
pub trait Lane: Copy {
    /// Holds sums, differences and roundings of lanes without loss.
    type Exact: Copy + PartialEq;
    const COUNT: usize;

    fn get(vector: &Vector, i: usize) -> Self;
    fn build(lane: impl FnMut(usize) -> Self) -> Vector;

    fn exact(self) -> Self::Exact;
    /// The exact value reduced to the lane.
    fn reduce(exact: Self::Exact) -> Self;
    /// The exact value moved to the nearer end of the lane's range.
    fn clip(exact: Self::Exact) -> Self;
    /// As `reduce`, for products, which need 64 bits.
    fn reduce_product(product: i64) -> Self;
}

macro_rules! lane {
    ($lane:ty, $exact:ty) => {
        impl Lane for $lane {
            type Exact = $exact;
            const COUNT: usize = 16 / size_of::<$lane>();

            #[inline(always)]
            fn get(vector: &Vector, i: usize) -> Self {
                let start = 16 - size_of::<Self>() * (i + 1);
                Self::from_le_bytes(std::array::from_fn(|k| vector.0[start + k]))
            }

            #[inline(always)]
            fn build(mut lane: impl FnMut(usize) -> Self) -> Vector {
                let mut bytes = [0; 16];
                for i in 0..Self::COUNT {
                    let start = 16 - size_of::<Self>() * (i + 1);
                    bytes[start..start + size_of::<Self>()].copy_from_slice(&lane(i).to_le_bytes());
                }
                Vector(bytes)
            }

            #[inline(always)]
            fn exact(self) -> $exact {
                self.into()
            }

            #[inline(always)]
            fn reduce(exact: $exact) -> Self {
                exact as Self
            }

            #[inline(always)]
            fn clip(exact: $exact) -> Self {
                exact.clamp(Self::MIN.into(), Self::MAX.into()) as Self
            }

            #[inline(always)]
            fn reduce_product(product: i64) -> Self {
                product as Self
            }
        }
    };
}

lane!(u8, i32);
lane!(i8, i32);
lane!(u16, i32);
lane!(i16, i32);
lane!(u32, i64);
lane!(i32, i64);

#[cfg(test)]
mod tests {
    use super::*;

    const COUNTING: u128 = 0x000102030405060708090a0b0c0d0e0f;

    #[test]
    fn lanes_count_from_the_left() {
        let v = Vector::from_quad(COUNTING);
        assert_eq!(v.lane::<u8>(0), 0x00);
        assert_eq!(v.lane::<u8>(15), 0x0f);
        assert_eq!(v.lane::<u16>(1), 0x0203);
        assert_eq!(v.lane::<u32>(3), 0x0c0d0e0f);
        assert_eq!(v.to_memory()[3], 3);
    }

    #[test]
    fn building_from_the_lanes_gives_the_vector_back() {
        let v = Vector::from_quad(COUNTING);
        assert_eq!(u8::build(|i| v.lane(i)), v);
        assert_eq!(i16::build(|i| v.lane(i)), v);
        assert_eq!(u32::build(|i| v.lane(i)), v);
        assert_eq!(Vector::from_memory(v.to_memory()), v);
    }
}
