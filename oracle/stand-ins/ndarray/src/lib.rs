//! Stand-in: a read-only two-dimensional view, indexed `[[row, column]]`.
use std::ops::Index;
#[derive(Debug)]
pub struct ArrayView2<'a, T> {
    data: &'a [T],
    rows: usize,
    cols: usize,
}
impl<T> Clone for ArrayView2<'_, T> {
    fn clone(&self) -> Self {
        *self
    }
}
impl<T> Copy for ArrayView2<'_, T> {}
impl<'a, T> ArrayView2<'a, T> {
    pub fn from_shape((rows, cols): (usize, usize), data: &'a [T]) -> Result<Self, &'static str> {
        if rows.checked_mul(cols) == Some(data.len()) {
            Ok(Self { data, rows, cols })
        } else {
            Err("shape")
        }
    }
}
impl<T> Index<[usize; 2]> for ArrayView2<'_, T> {
    type Output = T;
    fn index(&self, [r, c]: [usize; 2]) -> &T {
        assert!(r < self.rows && c < self.cols, "index out of bounds");
        &self.data[r * self.cols + c]
    }
}
