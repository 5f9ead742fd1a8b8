//! Words of 32 and 64 bits with the ordinary integer operations.

use core::fmt::{Debug, Display};
use core::ops::{Add, AddAssign, BitAnd, BitOr, Shl, Shr, Sub, SubAssign};

pub trait FheUint:
    Copy
    + Debug
    + Display
    + Default
    + Ord
    + Add<Output = Self>
    + AddAssign
    + Sub<Output = Self>
    + SubAssign
    + BitAnd<Output = Self>
    + BitOr<Output = Self>
    + Shl<u32, Output = Self>
    + Shr<u32, Output = Self>
    + rand::Lent
{
    type SignedInteger: Copy + Debug + Into<i128>;

    const ZERO: Self;
    const ONE: Self;
    const TWO: Self;
    const MAX: Self;
    const BITS: u32;
    const BYTES: usize;

    fn as_from(flag: bool) -> Self;
    fn is_zero(self) -> bool;
    fn is_power_of_two(self) -> bool;
    fn trailing_zeros(self) -> u32;
    fn leading_zeros(self) -> u32;
    fn bit_width(self) -> u32;
    fn widen(self) -> u128;
    fn narrow(wide: u128) -> Self;
}

macro_rules! words {
    ($($word:ident $signed:ident),*) => {$(
        impl FheUint for $word {
            type SignedInteger = $signed;

            const ZERO: Self = 0;
            const ONE: Self = 1;
            const TWO: Self = 2;
            const MAX: Self = $word::MAX;
            const BITS: u32 = $word::BITS;
            const BYTES: usize = size_of::<$word>();

            fn as_from(flag: bool) -> Self {
                flag as $word
            }
            fn is_zero(self) -> bool {
                self == 0
            }
            fn is_power_of_two(self) -> bool {
                $word::is_power_of_two(self)
            }
            fn trailing_zeros(self) -> u32 {
                $word::trailing_zeros(self)
            }
            fn leading_zeros(self) -> u32 {
                $word::leading_zeros(self)
            }
            fn bit_width(self) -> u32 {
                $word::BITS - $word::leading_zeros(self)
            }
            fn widen(self) -> u128 {
                self as u128
            }
            fn narrow(wide: u128) -> Self {
                $word::try_from(wide).expect("a word")
            }
        }
    )*};
}

words!(u32 i32, u64 i64);

pub trait Size {
    fn byte_count(&self) -> usize;
}

impl<T: FheUint> Size for Vec<T> {
    fn byte_count(&self) -> usize {
        self.len() * T::BYTES
    }
}

/// Named by primus_decompose's big_integer, which is compiled and never run.
#[derive(Debug, Clone)]
pub struct BigUint<S>(pub S);

impl<T: FheUint> BigUint<&[T]> {
    pub fn len(&self) -> usize {
        self.0.len()
    }
    pub fn is_empty(&self) -> bool {
        self.0.is_empty()
    }
    pub fn add_value_to(&self, _value: T, _out: &mut BigUint<&mut [T]>) -> bool {
        unimplemented!("big integers are left out")
    }
}
