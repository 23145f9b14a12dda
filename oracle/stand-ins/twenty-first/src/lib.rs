//! Stand-in, written from document 01's definitions, NOT from twenty_first.
//! Base field: whole numbers below p = 2^64 - 2^32 + 1, modulo p.
//! Extension: triples (c0, c1, c2) with X^3 = X - 1.
//! Deliberately naive, `u128` and `%`, so that it can be checked by eye.
use arbitrary::{Arbitrary, Unstructured};
use num_traits::{One, Zero};
use std::fmt;
use std::ops::{Add, Mul, Neg, Sub};

pub mod prelude {
    pub use crate::{BFieldElement, XFieldElement};
}

pub const P: u64 = 18_446_744_069_414_584_321;

#[derive(Debug, Copy, Clone, PartialEq, Eq, Hash, Default)]
pub struct BFieldElement(u64);

#[derive(Debug, Copy, Clone, PartialEq, Eq, Hash, Default)]
pub struct XFieldElement {
    pub coefficients: [BFieldElement; 3],
}

impl BFieldElement {
    pub const P: u64 = P;

    pub const fn new(value: u64) -> Self {
        Self(value % P)
    }

    pub const fn value(&self) -> u64 {
        self.0
    }

    pub const fn lift(&self) -> XFieldElement {
        XFieldElement::new([*self, Self(0), Self(0)])
    }
}

impl XFieldElement {
    pub const fn new(coefficients: [BFieldElement; 3]) -> Self {
        Self { coefficients }
    }

    pub fn unlift(&self) -> Option<BFieldElement> {
        let [c0, c1, c2] = self.coefficients;
        (c1.is_zero() && c2.is_zero()).then_some(c0)
    }
}

impl Add for BFieldElement {
    type Output = Self;
    fn add(self, right: Self) -> Self {
        let sum = u128::from(self.0) + u128::from(right.0);
        Self((sum % u128::from(P)) as u64)
    }
}

impl Mul for BFieldElement {
    type Output = Self;
    fn mul(self, right: Self) -> Self {
        let product = u128::from(self.0) * u128::from(right.0);
        Self((product % u128::from(P)) as u64)
    }
}

impl Neg for BFieldElement {
    type Output = Self;
    fn neg(self) -> Self {
        Self((P - self.0) % P)
    }
}

impl Sub for BFieldElement {
    type Output = Self;
    fn sub(self, right: Self) -> Self {
        self + -right
    }
}

impl Add for XFieldElement {
    type Output = Self;
    fn add(self, right: Self) -> Self {
        let [a0, a1, a2] = self.coefficients;
        let [b0, b1, b2] = right.coefficients;
        Self::new([a0 + b0, a1 + b1, a2 + b2])
    }
}

impl Neg for XFieldElement {
    type Output = Self;
    fn neg(self) -> Self {
        Self::new(self.coefficients.map(|c| -c))
    }
}

impl Mul for XFieldElement {
    type Output = Self;
    fn mul(self, right: Self) -> Self {
        let mut c = [BFieldElement(0); 5];
        for (i, &a) in self.coefficients.iter().enumerate() {
            for (j, &b) in right.coefficients.iter().enumerate() {
                c[i + j] = c[i + j] + a * b;
            }
        }
        // X^3 = X - 1, and so X^4 = X^2 - X
        Self::new([c[0] - c[3], c[1] + c[3] - c[4], c[2] + c[4]])
    }
}

impl Add<XFieldElement> for BFieldElement {
    type Output = XFieldElement;
    fn add(self, right: XFieldElement) -> XFieldElement {
        self.lift() + right
    }
}

impl Mul<XFieldElement> for BFieldElement {
    type Output = XFieldElement;
    fn mul(self, right: XFieldElement) -> XFieldElement {
        self.lift() * right
    }
}

impl Add<BFieldElement> for XFieldElement {
    type Output = Self;
    fn add(self, right: BFieldElement) -> Self {
        self + right.lift()
    }
}

impl Mul<BFieldElement> for XFieldElement {
    type Output = Self;
    fn mul(self, right: BFieldElement) -> Self {
        self * right.lift()
    }
}

impl Zero for BFieldElement {
    fn zero() -> Self {
        Self(0)
    }
    fn is_zero(&self) -> bool {
        self.0 == 0
    }
}

impl One for BFieldElement {
    fn one() -> Self {
        Self(1)
    }
    fn is_one(&self) -> bool {
        self.0 == 1
    }
}

impl Zero for XFieldElement {
    fn zero() -> Self {
        BFieldElement(0).lift()
    }
    fn is_zero(&self) -> bool {
        *self == Self::zero()
    }
}

impl One for XFieldElement {
    fn one() -> Self {
        BFieldElement(1).lift()
    }
    fn is_one(&self) -> bool {
        *self == Self::one()
    }
}

impl From<u64> for BFieldElement {
    fn from(value: u64) -> Self {
        Self::new(value)
    }
}

impl From<i32> for BFieldElement {
    fn from(value: i32) -> Self {
        Self(i128::from(value).rem_euclid(i128::from(P)) as u64)
    }
}

impl From<BFieldElement> for XFieldElement {
    fn from(value: BFieldElement) -> Self {
        value.lift()
    }
}

impl fmt::Display for BFieldElement {
    fn fmt(&self, f: &mut fmt::Formatter<'_>) -> fmt::Result {
        write!(f, "{}", self.0)
    }
}

impl fmt::Display for XFieldElement {
    fn fmt(&self, f: &mut fmt::Formatter<'_>) -> fmt::Result {
        let [a, b, c] = self.coefficients;
        write!(f, "({c}·x² + {b}·x + {a})")
    }
}

impl<'a> Arbitrary<'a> for BFieldElement {
    fn arbitrary(_: &mut Unstructured<'a>) -> arbitrary::Result<Self> {
        Err(arbitrary::Error)
    }
}

impl<'a> Arbitrary<'a> for XFieldElement {
    fn arbitrary(_: &mut Unstructured<'a>) -> arbitrary::Result<Self> {
        Err(arbitrary::Error)
    }
}
