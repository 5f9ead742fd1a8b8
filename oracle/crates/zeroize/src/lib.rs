//! The two traits; a vector is overwritten and emptied.

pub trait Zeroize {
    fn zeroize(&mut self);
}

pub trait ZeroizeOnDrop {}

impl<T: Copy + Default> Zeroize for Vec<T> {
    fn zeroize(&mut self) {
        self.fill(T::default());
        self.clear();
    }
}
