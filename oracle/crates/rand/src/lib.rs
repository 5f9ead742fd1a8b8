//! No randomness: a generator hands out what the caller lent, in order, each kind from its own run.

/// Hands out lent numbers; panics when a run is used up.
pub trait Rng {
    /// The next lent mask word.
    fn lent_word(&mut self) -> u64;
    /// The next lent error.
    fn lent_error(&mut self) -> i64;
    /// The next lent coefficient.
    fn lent_coefficient(&mut self) -> i8;
}

pub trait CryptoRng {}

impl<R: Rng + ?Sized> Rng for &mut R {
    fn lent_word(&mut self) -> u64 {
        (**self).lent_word()
    }
    fn lent_error(&mut self) -> i64 {
        (**self).lent_error()
    }
    fn lent_coefficient(&mut self) -> i8 {
        (**self).lent_coefficient()
    }
}

impl<R: CryptoRng + ?Sized> CryptoRng for &mut R {}

/// Words that can be lent.
pub trait Lent: Copy {
    fn from_lent(word: u64) -> Self;
}

impl Lent for u32 {
    fn from_lent(word: u64) -> Self {
        Self::try_from(word).expect("a lent word")
    }
}

impl Lent for u64 {
    fn from_lent(word: u64) -> Self {
        word
    }
}

pub mod distr {
    use super::{Lent, Rng};

    pub trait Distribution<T> {
        fn sample<R: Rng + ?Sized>(&self, rng: &mut R) -> T;

        fn sample_iter<R: Rng>(self, rng: R) -> Samples<Self, R, T>
        where
            Self: Sized,
        {
            Samples {
                distribution: self,
                rng,
                kind: core::marker::PhantomData,
            }
        }
    }

    impl<T, D: Distribution<T> + ?Sized> Distribution<T> for &D {
        fn sample<R: Rng + ?Sized>(&self, rng: &mut R) -> T {
            (**self).sample(rng)
        }
    }

    pub struct Samples<D, R, T> {
        distribution: D,
        rng: R,
        kind: core::marker::PhantomData<T>,
    }

    impl<T, D: Distribution<T>, R: Rng> Iterator for Samples<D, R, T> {
        type Item = T;

        fn next(&mut self) -> Option<T> {
            Some(self.distribution.sample(&mut self.rng))
        }
    }

    /// Lent mask words.
    #[derive(Clone, Copy, Debug)]
    pub struct Uniform<T>(core::marker::PhantomData<T>);

    impl<T> Uniform<T> {
        pub fn lent() -> Self {
            Self(core::marker::PhantomData)
        }
    }

    impl<T: Lent> Distribution<T> for Uniform<T> {
        fn sample<R: Rng + ?Sized>(&self, rng: &mut R) -> T {
            T::from_lent(rng.lent_word())
        }
    }
}
