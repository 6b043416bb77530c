//! `Array1 for Vec`: access and building only. Sums, norms and products are the traits' own (arrays.rs).
use std::fmt::{Debug, Display};
use std::ops::Range;

use crate::linalg::basic::arrays::{Array, Array1, ArrayView1, MutArray, MutArrayView1};

trait Value: Debug + Display + Copy + Sized {}
impl<T: Debug + Display + Copy + Sized> Value for T {}

impl<T: Value> Array<T, usize> for Vec<T> {
    fn get(&self, i: usize) -> &T {
        &self[i]
    }
    fn shape(&self) -> usize {
        self.len()
    }
    fn is_empty(&self) -> bool {
        self.len() == 0
    }
    fn iterator<'b>(&'b self, _: u8) -> Box<dyn Iterator<Item = &'b T> + 'b> {
        Box::new(self.iter())
    }
}

impl<T: Value> MutArray<T, usize> for Vec<T> {
    fn set(&mut self, i: usize, x: T) {
        self[i] = x;
    }
    fn iterator_mut<'b>(&'b mut self, _: u8) -> Box<dyn Iterator<Item = &'b mut T> + 'b> {
        Box::new(self.iter_mut())
    }
}

impl<T: Value> ArrayView1<T> for Vec<T> {}
impl<T: Value> MutArrayView1<T> for Vec<T> {}

impl<T: Value> Array1<T> for Vec<T> {
    fn slice<'a>(&'a self, range: Range<usize>) -> Box<dyn ArrayView1<T> + 'a> {
        Box::new(self[range].to_vec())
    }
    fn slice_mut<'a>(&'a mut self, _: Range<usize>) -> Box<dyn MutArrayView1<T> + 'a> {
        panic!("a fit takes no mutable slice")
    }
    fn fill(len: usize, value: T) -> Self {
        vec![value; len]
    }
    fn from_iterator<I: Iterator<Item = T>>(iter: I, len: usize) -> Self {
        iter.take(len).collect()
    }
    fn from_vec_slice(slice: &[T]) -> Self {
        slice.to_vec()
    }
    fn from_slice(slice: &'_ dyn ArrayView1<T>) -> Self {
        slice.iterator(0).copied().collect()
    }
}
