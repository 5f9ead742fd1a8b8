//! Storage of words: a vector, a lent slice, a lent mutable slice.

pub trait RawData {
    type Elem;
}

pub trait Data: RawData {
    fn as_slice(&self) -> &[Self::Elem];

    fn len(&self) -> usize {
        self.as_slice().len()
    }
    fn is_empty(&self) -> bool {
        self.as_slice().is_empty()
    }
}

pub trait DataMut: Data {
    fn as_mut_slice(&mut self) -> &mut [Self::Elem];

    fn fill(&mut self, value: Self::Elem)
    where
        Self::Elem: Clone,
    {
        self.as_mut_slice().fill(value);
    }
}

pub trait DataOwned: DataMut {
    fn from_vec(data: Vec<Self::Elem>) -> Self;
}

impl<T> RawData for Vec<T> {
    type Elem = T;
}

impl<T> Data for Vec<T> {
    fn as_slice(&self) -> &[T] {
        self
    }
}

impl<T> DataMut for Vec<T> {
    fn as_mut_slice(&mut self) -> &mut [T] {
        self
    }
}

impl<T> DataOwned for Vec<T> {
    fn from_vec(data: Vec<T>) -> Self {
        data
    }
}

impl<T> RawData for &[T] {
    type Elem = T;
}

impl<T> Data for &[T] {
    fn as_slice(&self) -> &[T] {
        self
    }
}

impl<T> RawData for &mut [T] {
    type Elem = T;
}

impl<T> Data for &mut [T] {
    fn as_slice(&self) -> &[T] {
        self
    }
}

impl<T> DataMut for &mut [T] {
    fn as_mut_slice(&mut self) -> &mut [T] {
        self
    }
}
