//! The native modulus and an explicit one.

use primus_integer::FheUint;
use primus_reduce::Modulus;

/// 2^32 for `u32`, 2^64 for `u64`.
#[derive(Clone, Copy, Debug)]
pub struct NativeModulus<T>(core::marker::PhantomData<T>);

impl<T> NativeModulus<T> {
    pub fn new() -> Self {
        Self(core::marker::PhantomData)
    }
}

impl<T> Default for NativeModulus<T> {
    fn default() -> Self {
        Self::new()
    }
}

impl<T: FheUint> Modulus for NativeModulus<T> {
    type ValueT = T;

    fn explicit_value(self) -> Option<T> {
        None
    }
    fn minus_one(self) -> T {
        T::MAX
    }
}

/// Any number that a word holds.
#[derive(Clone, Copy, Debug)]
pub struct UintModulus<T>(pub T);

impl<T: FheUint> Modulus for UintModulus<T> {
    type ValueT = T;

    fn explicit_value(self) -> Option<T> {
        Some(self.0)
    }
    fn minus_one(self) -> T {
        self.0 - T::ONE
    }
}
