//! Products in the two fields, as one would write them by hand in Rust. Each takes and gives words below p.

pub const P: u64 = 0xffff_ffff_0000_0001;

/// 2^64 modulo p.
const E: u64 = 0xffff_ffff;

pub type Triple = [u64; 3];

#[inline(always)]
fn wide(a: u64, b: u64) -> u128 {
    a as u128 * b as u128
}

/// The compiler's own remainder.
#[inline(always)]
pub fn plain(a: u64, b: u64) -> u64 {
    (wide(a, b) % P as u128) as u64
}

#[inline(always)]
fn add(a: u64, b: u64) -> u64 {
    let (sum, wrapped) = a.overflowing_add(b);
    let (corrected, above) = sum.overflowing_add(E);
    if wrapped | above { corrected } else { sum }
}

#[inline(always)]
fn subtract(a: u64, b: u64) -> u64 {
    let (difference, wrapped) = a.overflowing_sub(b);
    if wrapped { difference.wrapping_sub(E) } else { difference }
}

/// x + top·2^128 modulo p, by 2^64 = 2^32 - 1 and 2^96 = -1.
#[inline(always)]
fn reduce(x: u128, top: u64) -> u64 {
    let (low, high) = (x as u64, (x >> 64) as u64);
    add(subtract(low, (high >> 32) + (top << 32)), (high & E) * E)
}

#[cold]
fn rarely() {}

/// The same with a branch for the borrow, which random words take about once in 2^32 products.
#[inline(always)]
fn reduce_branched(x: u128, top: u64) -> u64 {
    let (low, high) = (x as u64, (x >> 64) as u64);
    let (mut rest, borrow) = low.overflowing_sub((high >> 32) + (top << 32));
    if borrow {
        rarely();
        rest = rest.wrapping_sub(E);
    }
    add(rest, (high & E) * E)
}

#[inline(always)]
pub fn straight(a: u64, b: u64) -> u64 {
    reduce(wide(a, b), 0)
}

#[inline(always)]
pub fn branched(a: u64, b: u64) -> u64 {
    reduce_branched(wide(a, b), 0)
}

/// Montgomery's product a·b/2^64: another representation of the same field, whose words are converted at the edges.
#[inline(always)]
pub fn montgomery(a: u64, b: u64) -> u64 {
    let x = wide(a, b);
    let (low, high) = (x as u64, (x >> 64) as u64);
    let (sum, carry) = low.overflowing_add(low << 32);
    let part = sum.wrapping_sub(sum >> 32).wrapping_sub(carry as u64);
    subtract(high, part)
}

/// Nine products, each reduced by `product`.
#[inline(always)]
pub fn nine(a: Triple, b: Triple, product: impl Fn(u64, u64) -> u64) -> Triple {
    let d0 = product(a[0], b[0]);
    let d1 = add(product(a[0], b[1]), product(a[1], b[0]));
    let d2 = add(add(product(a[0], b[2]), product(a[1], b[1])), product(a[2], b[0]));
    let d3 = add(product(a[1], b[2]), product(a[2], b[1]));
    let d4 = product(a[2], b[2]);
    [subtract(d0, d3), subtract(add(d1, d3), d4), add(d2, d4)]
}

/// A sum of wide products, with what it carries out at 2^128.
#[inline(always)]
fn total(products: &[u128]) -> (u128, u64) {
    let mut sum = (products[0], 0);
    for product in &products[1..] {
        let (next, carry) = sum.0.overflowing_add(*product);
        sum = (next, sum.1 + carry as u64);
    }
    sum
}

/// Each of the five coefficients reduced once.
#[inline(always)]
pub fn five(a: Triple, b: Triple) -> Triple {
    let coefficient = |products: &[u128]| {
        let (sum, top) = total(products);
        reduce(sum, top)
    };
    let d0 = coefficient(&[wide(a[0], b[0])]);
    let d1 = coefficient(&[wide(a[0], b[1]), wide(a[1], b[0])]);
    let d2 = coefficient(&[wide(a[0], b[2]), wide(a[1], b[1]), wide(a[2], b[0])]);
    let d3 = coefficient(&[wide(a[1], b[2]), wide(a[2], b[1])]);
    let d4 = coefficient(&[wide(a[2], b[2])]);
    [subtract(d0, d3), subtract(add(d1, d3), d4), add(d2, d4)]
}

/// The fold made on the second factor first, so that each of the three words is one sum of three products.
#[inline(always)]
fn three(a: Triple, b: Triple, reduce: impl Fn(u128, u64) -> u64) -> Triple {
    let word = |x: u64, y: u64, z: u64| {
        let (sum, top) = total(&[wide(a[0], x), wide(a[1], y), wide(a[2], z)]);
        reduce(sum, top)
    };
    let (negated1, negated2) = (P - b[1], P - b[2]);
    let outer = add(b[0], b[2]);
    [word(b[0], negated2, negated1), word(b[1], outer, subtract(b[1], b[2])), word(b[2], b[1], outer)]
}

#[inline(always)]
pub fn three_straight(a: Triple, b: Triple) -> Triple {
    three(a, b, reduce)
}

#[inline(always)]
pub fn three_branched(a: Triple, b: Triple) -> Triple {
    three(a, b, reduce_branched)
}
