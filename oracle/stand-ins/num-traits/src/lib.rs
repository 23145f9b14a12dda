//! Stand-in: the two traits, as the circuit file uses them.
pub trait Zero: Sized {
    fn zero() -> Self;
    fn is_zero(&self) -> bool;
}
pub trait One: Sized {
    fn one() -> Self;
    fn is_one(&self) -> bool;
}
