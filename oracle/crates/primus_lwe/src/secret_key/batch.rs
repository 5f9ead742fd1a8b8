use primus_distr::DiscreteGaussian;
use primus_integer::FheUint;
use primus_lattice::lwe::{LweIter, LweIterMut};
use primus_reduce::RingContext;
use rand::distr::Uniform;

use super::LweSecretKey;

impl<T: FheUint> LweSecretKey<T> {
    /// One encryption after another.
    pub(super) fn encrypt_batch_iter_to<M, R>(
        &self,
        plaintexts: impl Iterator<Item = T>,
        output: &mut [T],
        modulus: M,
        uniform: Uniform<T>,
        noise: &DiscreteGaussian<T>,
        rng: &mut R,
    ) where
        M: RingContext<T>,
        R: rand::Rng + rand::CryptoRng,
    {
        for (plaintext, mut row) in plaintexts.zip(LweIterMut::new(output, self.dimension() + 1)) {
            self.as_view().encrypt_mask_body(plaintext, row.a_b_mut(), modulus, uniform, noise, rng);
        }
    }

    /// One phase after another.
    pub(super) fn decrypt_phase_iter<M: RingContext<T>>(
        &self,
        inputs: LweIter<'_, T>,
        modulus: M,
    ) -> impl Iterator<Item = T> {
        inputs.map(move |input| self.as_view().decrypt_phase(&input, modulus))
    }
}
