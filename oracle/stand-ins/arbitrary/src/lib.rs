//! Stand-in: only the names the circuit file mentions. Never called by the oracle.
pub use arbitrary_derive::Arbitrary;
#[derive(Debug)]
pub struct Error;
pub type Result<T> = std::result::Result<T, Error>;
pub struct Unstructured<'a>(std::marker::PhantomData<&'a [u8]>);
impl<'a> Unstructured<'a> {
    pub fn arbitrary<A: Arbitrary<'a>>(&mut self) -> Result<A> {
        A::arbitrary(self)
    }
    pub fn arbitrary_len<A>(&mut self) -> Result<usize> {
        Err(Error)
    }
    pub fn int_in_range(&mut self, _: std::ops::RangeInclusive<i32>) -> Result<i32> {
        Err(Error)
    }
}
pub trait Arbitrary<'a>: Sized {
    fn arbitrary(u: &mut Unstructured<'a>) -> Result<Self>;
}
impl<'a> Arbitrary<'a> for usize {
    fn arbitrary(_: &mut Unstructured<'a>) -> Result<Self> {
        Err(Error)
    }
}
