//! Ciphertexts: what the supplied lwe files take from macros that were not supplied.

macro_rules! impl_common {
    ($name:ident) => {
        impl<S> $name<S>
        where
            S: RawData,
            <S as RawData>::Elem: FheUint,
        {
            pub fn new(data: S) -> Self {
                Self(data)
            }
        }

        impl<S, T> AsRef<[T]> for $name<S>
        where
            S: Data<Elem = T>,
            T: FheUint,
        {
            fn as_ref(&self) -> &[T] {
                self.0.as_slice()
            }
        }

        impl<S, T> AsMut<[T]> for $name<S>
        where
            S: DataMut<Elem = T>,
            T: FheUint,
        {
            fn as_mut(&mut self) -> &mut [T] {
                self.0.as_mut_slice()
            }
        }
    };
}

macro_rules! impl_neg_single_modulus {
    ($name:ident) => {
        impl<S, T> $name<S>
        where
            S: DataMut<Elem = T>,
            T: FheUint,
        {
            pub fn neg_assign<M>(&mut self, modulus: M)
            where
                M: Copy + ReduceNegSlice<T>,
            {
                modulus.reduce_neg_slice_assign(self.0.as_mut_slice());
            }
        }
    };
}

/// Sums and differences, scalars, factors, bytes: nothing supplied calls them.
macro_rules! left_out {
    ($($name:ident)*) => {$(
        macro_rules! $name {
            ($kind:ident) => {};
        }
    )*};
}

left_out!(impl_iters impl_bytes_io impl_basic_operation_single_modulus impl_mul_scalar_single_modulus impl_mul_factor_single_modulus);

mod dimension;
pub mod lwe;

pub use dimension::{GlweDimension, GlweDimensionError, LweDimension, LweDimensionError};

/// Named by dimension.rs and never made.
#[derive(Clone, Copy, Debug)]
pub struct GlweSize(usize);

impl GlweSize {
    pub fn mask_len(self) -> usize {
        self.0
    }
}
