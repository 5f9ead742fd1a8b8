//! Samplers that hand out what was lent: errors modulo q and ternary coefficients. Deviations, supports and
//! weights are recorded or ignored, never judged.

use primus_integer::FheUint;
use rand::Rng;
use rand::distr::Distribution;

#[derive(Clone, Copy, Debug, PartialEq)]
pub struct GaussianError;

impl core::fmt::Display for GaussianError {
    fn fmt(&self, f: &mut core::fmt::Formatter<'_>) -> core::fmt::Result {
        core::fmt::Debug::fmt(self, f)
    }
}

impl std::error::Error for GaussianError {}

/// Lent errors, as words.
#[derive(Clone, Copy, Debug)]
pub struct DiscreteGaussian<T> {
    standard_deviation: f64,
    modulus_minus_one: T,
}

impl<T: FheUint> DiscreteGaussian<T> {
    pub fn new(standard_deviation: f64, modulus_minus_one: T) -> Result<Self, GaussianError> {
        Ok(Self {
            standard_deviation,
            modulus_minus_one,
        })
    }
    pub fn standard_deviation(&self) -> f64 {
        self.standard_deviation
    }
    pub fn modulus_minus_one(&self) -> T {
        self.modulus_minus_one
    }
    pub fn sample_to<R: Rng + ?Sized>(&self, out: &mut [T], rng: &mut R) {
        out.iter_mut().for_each(|o| *o = self.sample(rng));
    }
}

impl<T: FheUint> Distribution<T> for DiscreteGaussian<T> {
    fn sample<R: Rng + ?Sized>(&self, rng: &mut R) -> T {
        let q = self.modulus_minus_one.widen() as i128 + 1;
        T::narrow((rng.lent_error() as i128).rem_euclid(q) as u128)
    }
}

/// Lent coefficients of −1, 0 and 1.
pub fn sample_sparse_ternary_values_to<R: Rng + ?Sized>(
    values: &mut [i8],
    minus_one: i8,
    rng: &mut R,
) {
    values.iter_mut().for_each(|v| {
        *v = match rng.lent_coefficient() {
            -1 => minus_one,
            c => c,
        }
    });
}

#[derive(Clone, Copy, Debug, PartialEq, Eq)]
pub struct BlockOccupancy;

/// No distribution is drawn from.
#[derive(Clone, Copy, Debug, PartialEq, Eq)]
pub enum SecretKeyDistr {
    Lent,
}

#[derive(Clone, Copy, Debug, PartialEq, Eq)]
pub struct SecretKeySamplerError;

impl core::fmt::Display for SecretKeySamplerError {
    fn fmt(&self, f: &mut core::fmt::Formatter<'_>) -> core::fmt::Result {
        core::fmt::Debug::fmt(self, f)
    }
}

impl std::error::Error for SecretKeySamplerError {}

#[derive(Clone, Copy, Debug)]
pub struct SecretKeySampler<T> {
    distr: SecretKeyDistr,
    kind: core::marker::PhantomData<T>,
}

impl<T: FheUint> SecretKeySampler<T> {
    pub fn try_new(distr: SecretKeyDistr) -> Result<Self, SecretKeySamplerError> {
        Ok(Self {
            distr,
            kind: core::marker::PhantomData,
        })
    }
    pub fn validate_length(&self, _length: usize) -> Result<(), SecretKeySamplerError> {
        Ok(())
    }
    pub fn validate_modulus(&self, _modulus_minus_one: T) -> Result<(), SecretKeySamplerError> {
        Ok(())
    }
    pub fn distr(&self) -> SecretKeyDistr {
        self.distr
    }
    pub fn sample_encoded_to<R: Rng + ?Sized>(
        &self,
        out: &mut [T],
        _modulus_minus_one: T,
        rng: &mut R,
    ) {
        out.iter_mut()
            .for_each(|o| *o = T::from_lent(rng.lent_word()));
    }
}
