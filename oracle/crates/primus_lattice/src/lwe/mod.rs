mod multiple_message;
mod single_message;

pub use multiple_message::MultiMsgLwe;
pub use single_message::Lwe;

use core::slice::{ChunksExact, ChunksExactMut};
use primus_integer::FheUint;

/// Whole ciphertexts of a run, in order.
pub struct LweIter<'a, T>(ChunksExact<'a, T>);

impl<'a, T> LweIter<'a, T> {
    pub fn new(data: &'a [T], lwe_len: usize) -> Self {
        Self(data.chunks_exact(lwe_len))
    }
}

impl<'a, T: FheUint> Iterator for LweIter<'a, T> {
    type Item = Lwe<&'a [T]>;

    fn next(&mut self) -> Option<Self::Item> {
        self.0.next().map(Lwe::new)
    }
    fn size_hint(&self) -> (usize, Option<usize>) {
        self.0.size_hint()
    }
}

impl<T: FheUint> ExactSizeIterator for LweIter<'_, T> {}

/// The same, to be written.
pub struct LweIterMut<'a, T>(ChunksExactMut<'a, T>);

impl<'a, T> LweIterMut<'a, T> {
    pub fn new(data: &'a mut [T], lwe_len: usize) -> Self {
        Self(data.chunks_exact_mut(lwe_len))
    }
}

impl<'a, T: FheUint> Iterator for LweIterMut<'a, T> {
    type Item = Lwe<&'a mut [T]>;

    fn next(&mut self) -> Option<Self::Item> {
        self.0.next().map(Lwe::new)
    }
}
