//! Arithmetic modulo q over canonical words, from document 01: every operation is the one on whole numbers,
//! reduced once. The modulus is known by q − 1, so that 2^32 and 2^64 need no case of their own.

use primus_integer::FheUint;
use rand::distr::Uniform;

pub mod prelude {
    pub use crate::{
        Modulus, ReduceAdd, ReduceAddAssign, ReduceNeg, ReduceNegAssign, ReduceNegSlice, ReduceSub,
        ReduceSubAssign,
    };
}

pub trait Modulus: Copy + core::fmt::Debug {
    type ValueT: FheUint;

    /// q, or `None` for the native modulus.
    fn explicit_value(self) -> Option<Self::ValueT>;
    fn minus_one(self) -> Self::ValueT;

    /// q as a whole number.
    fn size(self) -> u128 {
        self.minus_one().widen() + 1
    }
    /// x modulo q.
    fn residue(self, x: u128) -> Self::ValueT {
        Self::ValueT::narrow(x % self.size())
    }
    /// The word of a signed number.
    fn signed_residue(self, x: i128) -> Self::ValueT {
        Self::ValueT::narrow(x.rem_euclid(self.size() as i128) as u128)
    }
}

pub trait ReduceAdd<T> {
    type Output;
    fn reduce_add(self, a: T, b: T) -> Self::Output;
}

pub trait ReduceSub<T> {
    type Output;
    fn reduce_sub(self, a: T, b: T) -> Self::Output;
}

pub trait ReduceNeg<T> {
    type Output;
    fn reduce_neg(self, a: T) -> Self::Output;
}

pub trait ReduceMul<T> {
    type Output;
    fn reduce_mul(self, a: T, b: T) -> Self::Output;
}

pub trait ReduceAddAssign<T> {
    fn reduce_add_assign(self, a: &mut T, b: T);
}

pub trait ReduceSubAssign<T> {
    fn reduce_sub_assign(self, a: &mut T, b: T);
}

pub trait ReduceNegAssign<T> {
    fn reduce_neg_assign(self, a: &mut T);
}

pub trait ReduceNegSlice<T> {
    fn reduce_neg_slice_assign(self, a: &mut [T]);
}

impl<T: FheUint, M: Modulus<ValueT = T>> ReduceAdd<T> for M {
    type Output = T;
    fn reduce_add(self, a: T, b: T) -> T {
        self.residue(a.widen() + b.widen())
    }
}

impl<T: FheUint, M: Modulus<ValueT = T>> ReduceSub<T> for M {
    type Output = T;
    fn reduce_sub(self, a: T, b: T) -> T {
        self.signed_residue(a.widen() as i128 - b.widen() as i128)
    }
}

impl<T: FheUint, M: Modulus<ValueT = T>> ReduceNeg<T> for M {
    type Output = T;
    fn reduce_neg(self, a: T) -> T {
        self.signed_residue(-(a.widen() as i128))
    }
}

impl<T: FheUint, M: Modulus<ValueT = T>> ReduceMul<T> for M {
    type Output = T;
    fn reduce_mul(self, a: T, b: T) -> T {
        self.residue(a.widen() * b.widen())
    }
}

impl<T: FheUint, M: Modulus<ValueT = T>> ReduceAddAssign<T> for M {
    fn reduce_add_assign(self, a: &mut T, b: T) {
        *a = self.reduce_add(*a, b);
    }
}

impl<T: FheUint, M: Modulus<ValueT = T>> ReduceSubAssign<T> for M {
    fn reduce_sub_assign(self, a: &mut T, b: T) {
        *a = self.reduce_sub(*a, b);
    }
}

impl<T: FheUint, M: Modulus<ValueT = T>> ReduceNegAssign<T> for M {
    fn reduce_neg_assign(self, a: &mut T) {
        *a = self.reduce_neg(*a);
    }
}

impl<T: FheUint, M: Modulus<ValueT = T>> ReduceNegSlice<T> for M {
    fn reduce_neg_slice_assign(self, a: &mut [T]) {
        a.iter_mut().for_each(|x| *x = self.reduce_neg(*x));
    }
}

pub trait RingContext<T: FheUint>:
    Modulus<ValueT = T>
    + PrepareModulusSwitch
    + ReduceAdd<T, Output = T>
    + ReduceSub<T, Output = T>
    + ReduceNeg<T, Output = T>
    + ReduceMul<T, Output = T>
    + ReduceAddAssign<T>
    + ReduceSubAssign<T>
    + ReduceNegAssign<T>
    + ReduceNegSlice<T>
{
    fn uniform_distribution(self) -> Uniform<T> {
        Uniform::lent()
    }
    fn encode_signed(self, c: T::SignedInteger) -> T {
        self.signed_residue(c.into())
    }
    fn reduce_dot_product(self, a: &[T], b: &[T]) -> T {
        assert_eq!(a.len(), b.len(), "dot product length mismatch");
        a.iter().zip(b).fold(T::ZERO, |sum, (&x, &y)| {
            self.reduce_add(sum, self.reduce_mul(x, y))
        })
    }
    fn reduce_dot_product_signed(self, a: &[T], b: &[T::SignedInteger]) -> T {
        assert_eq!(a.len(), b.len(), "dot product length mismatch");
        a.iter().zip(b).fold(T::ZERO, |sum, (&x, &c)| {
            self.reduce_add(sum, self.reduce_mul(x, self.encode_signed(c)))
        })
    }
    fn reduce_add_slice_assign(self, a: &mut [T], b: &[T]) {
        assert_eq!(a.len(), b.len(), "slice length mismatch");
        a.iter_mut()
            .zip(b)
            .for_each(|(x, &y)| *x = self.reduce_add(*x, y));
    }
    fn reduce_sub_slice_assign(self, a: &mut [T], b: &[T]) {
        assert_eq!(a.len(), b.len(), "slice length mismatch");
        a.iter_mut()
            .zip(b)
            .for_each(|(x, &y)| *x = self.reduce_sub(*x, y));
    }
    fn reduce_add_mul_scalar_slice_assign(self, a: &mut [T], b: &[T], scalar: T) {
        assert_eq!(a.len(), b.len(), "slice length mismatch");
        a.iter_mut()
            .zip(b)
            .for_each(|(x, &y)| *x = self.reduce_add(*x, self.reduce_mul(y, scalar)));
    }
}

impl<T: FheUint, M: Modulus<ValueT = T>> RingContext<T> for M {}

/// From words modulo one modulus to words modulo another: ⌊(2 × value × to + from) / (2 × from)⌋ mod to,
/// which is document 01's encode and decode.
#[derive(Clone, Copy, Debug)]
pub struct ModulusSwitch<T> {
    from: u128,
    to: u128,
    kind: core::marker::PhantomData<T>,
}

impl<T: FheUint> ModulusSwitch<T> {
    pub fn switch(&self, value: T) -> T {
        let product = value.widen() * self.to;
        let half_up = product % self.from * 2 >= self.from;
        T::narrow((product / self.from + half_up as u128) % self.to)
    }

    pub fn switch_map<X>(&self, values: impl Iterator<Item = (T, X)>, mut write: impl FnMut(T, X)) {
        values.for_each(|(value, place)| write(self.switch(value), place));
    }
}

pub trait PrepareModulusSwitch: Modulus {
    fn prepare_switch_to<N: Modulus<ValueT = Self::ValueT>>(
        self,
        to: N,
    ) -> ModulusSwitch<Self::ValueT> {
        ModulusSwitch {
            from: self.size(),
            to: to.size(),
            kind: core::marker::PhantomData,
        }
    }
}

impl<M: Modulus> PrepareModulusSwitch for M {}
