//! Times of the proved products beside products written by hand in Rust, in one run.
//!
//!     (cd ../../crates/field_abi && rt lib) && cargo run --release --offline
//!     field_bench NAME N      runs one chain of N products, for an instruction counter
//!
//! Each contender is a chain: one call, that is not inlined, of a loop that makes n products, each of the two before it. A call
//! into the static library cannot be inlined, so loops on both sides are compared, and both factors change with each turn, so
//! that no part of a product can be taken out of the loop.
mod products;

use products::{branched, five, montgomery, nine, plain, straight, three_branched, three_straight, Triple, P};
use std::hint::black_box;
use std::time::Instant;

extern "C" {
    fn field_multiply(a: u64, b: u64) -> u64;
    fn field_chain(a: u64, b: u64, n: u64) -> u64;
    fn field_triple_chain(x0: u64, x1: u64, x2: u64, y0: u64, y1: u64, y2: u64, n: u64) -> u64;
}

const ROUNDS: usize = 300;
const PRODUCTS: u64 = 50_000;

type Chain = fn(Triple, Triple, u64) -> u64;

fn ours_base(a: Triple, b: Triple, n: u64) -> u64 {
    unsafe { field_chain(a[0], b[0], n) }
}

fn ours_extension(a: Triple, b: Triple, n: u64) -> u64 {
    unsafe { field_triple_chain(a[0], a[1], a[2], b[0], b[1], b[2], n) }
}

macro_rules! base_chain {
    ($name:ident, $product:expr) => {
        #[inline(never)]
        fn $name(a: Triple, b: Triple, n: u64) -> u64 {
            let (mut x, mut y) = (a[0], b[0]);
            for _ in 0..n {
                (x, y) = (y, $product(x, y));
            }
            x
        }
    };
}

macro_rules! extension_chain {
    ($name:ident, $product:expr) => {
        #[inline(never)]
        fn $name(a: Triple, b: Triple, n: u64) -> u64 {
            let (mut x, mut y) = (a, b);
            for _ in 0..n {
                (x, y) = (y, $product(x, y));
            }
            x[0]
        }
    };
}

base_chain!(base_plain, plain);
base_chain!(base_straight, straight);
base_chain!(base_branched, branched);
base_chain!(base_montgomery, montgomery);
extension_chain!(extension_plain, |x, y| nine(x, y, plain));
extension_chain!(extension_nine, |x, y| nine(x, y, straight));
extension_chain!(extension_montgomery, |x, y| nine(x, y, montgomery));
extension_chain!(extension_five, five);
extension_chain!(extension_three, three_straight);
extension_chain!(extension_branched, three_branched);

struct Contender {
    name: &'static str,
    chain: Chain,
    /// Whether its words mean what ours mean, so that answers are compared and it may be the best one.
    same_words: bool,
}

const fn contender(name: &'static str, chain: Chain, same_words: bool) -> Contender {
    Contender { name, chain, same_words }
}

const BASE: &[Contender] = &[
    contender("ours_base", ours_base, true),
    contender("base_plain", base_plain, true),
    contender("base_straight", base_straight, true),
    contender("base_branched", base_branched, true),
    contender("base_montgomery", base_montgomery, false),
];

const EXTENSION: &[Contender] = &[
    contender("ours_extension", ours_extension, true),
    contender("extension_plain", extension_plain, true),
    contender("extension_nine", extension_nine, true),
    contender("extension_five", extension_five, true),
    contender("extension_three", extension_three, true),
    contender("extension_branched", extension_branched, true),
    contender("extension_montgomery", extension_montgomery, false),
];

/// Words below p, from a shift register.
struct Words(u64);

impl Words {
    fn next(&mut self) -> u64 {
        self.0 ^= self.0 << 13;
        self.0 ^= self.0 >> 7;
        self.0 ^= self.0 << 17;
        self.0 % P
    }

    fn triple(&mut self) -> Triple {
        [self.next(), self.next(), self.next()]
    }
}

/// All contenders over the same words answer alike.
fn compare(group: &[Contender]) -> usize {
    let mut words = Words(88172645463325252);
    let edges = [0, 1, 2, P - 1, P - 2, 1 << 32, (1 << 32) - 1, 1 << 63];
    let mut compared = 0;
    for round in 0..20_000 {
        let (mut a, mut b) = (words.triple(), words.triple());
        if round % 2 == 0 {
            a[round % 3] = edges[round / 6 % 8];
            b[round / 2 % 3] = edges[round / 48 % 8];
        }
        let n = words.next() % 4 + 1;
        let expected = (group[0].chain)(a, b, n);
        for other in group.iter().filter(|other| other.same_words) {
            assert_eq!((other.chain)(a, b, n), expected, "{} {a:?} {b:?} {n}", other.name);
            compared += 1;
        }
        assert_eq!(unsafe { field_multiply(a[0], b[0]) }, plain(a[0], b[0]));
    }
    compared
}

/// Nanoseconds a product: the least of many short rounds, which take turns so that all see the same machine.
fn measure(group: &[Contender]) -> Vec<f64> {
    let mut words = Words(1234567);
    let (a, b) = (words.triple(), words.triple());
    let mut least = vec![f64::MAX; group.len()];
    for _ in 0..ROUNDS {
        for (at, contender) in group.iter().enumerate() {
            let start = Instant::now();
            black_box((contender.chain)(black_box(a), black_box(b), black_box(PRODUCTS)));
            least[at] = least[at].min(start.elapsed().as_nanos() as f64 / PRODUCTS as f64);
        }
    }
    least
}

fn report(title: &str, group: &[Contender]) {
    let compared = compare(group);
    let times = measure(group);
    let best = (1..group.len()).filter(|&at| group[at].same_words).min_by(|&x, &y| times[x].total_cmp(&times[y])).unwrap();
    println!("{title}: {compared} answers compared, all alike; the least of {ROUNDS} chains of {PRODUCTS} products");
    for (contender, time) in group.iter().zip(&times) {
        println!("  {:<22}{time:>7.2} ns a product   ours / it {:>5.2}", contender.name, times[0] / time);
    }
    println!("  best: {}   ours / best {:.2}", group[best].name, times[0] / times[best]);
}

fn main() {
    let arguments: Vec<String> = std::env::args().skip(1).collect();
    if let [name, n] = &arguments[..] {
        let n: u64 = n.parse().expect("a number of products");
        let contender = BASE.iter().chain(EXTENSION).find(|contender| contender.name == name).expect("a contender's name");
        let mut words = Words(1234567);
        println!("{}", (contender.chain)(words.triple(), words.triple(), n));
        return;
    }
    report("base field", BASE);
    report("extension", EXTENSION);
}
