//! The proved library through its C calls: the public ones, and building's inner ones.
use atzunelca::sys::*;

use crate::calls::Call;

pub const PLACES: usize = 4096;

/// The words of a circuit with all places that there may be: dual-row, no node yet.
pub fn fresh() -> Vec<u64> {
    let mut m = vec![0; 2 + 6 * PLACES];
    assert_eq!(0, unsafe { atz_start(m.as_mut_ptr(), m.len(), 2) });
    m
}

/// One public call; a refusal is no part of a benchmark.
fn public(m: &mut [u64], call: &Call) -> u64 {
    let (p, n) = (m.as_mut_ptr(), m.len());
    let mut id = 0;
    let out = &mut id as *mut u64;
    let refused = unsafe {
        match *call {
            Call::Input { row, column } => atz_input(p, n, row.into(), column.into(), out, 1),
            Call::Challenge(index) => atz_challenge(p, n, index.into(), out, 1),
            Call::Base(word) => atz_base_constant(p, n, word, out, 1),
            Call::Add(left, right) => atz_add(p, n, left.into(), right.into(), out, 1),
            Call::Multiply(left, right) => atz_multiply(p, n, left.into(), right.into(), out, 1),
            Call::Subtract(left, right) => atz_subtract(p, n, left.into(), right.into(), out, 1),
            _ => unreachable!(),
        }
    };
    assert_eq!(0, refused);
    id
}

/// The class tables that go along with a circuit from call to call: numbers, keys, least ids.
struct Tables([Vec<u64>; 3]);

/// The inner calls: each takes the circuit and the three tables.
macro_rules! inner {
    ($($name:ident($($argument:ident),*) -> $answer:ty;)*) => {
        unsafe extern "C" {
            $(fn $name(
                m: *mut u64, words: usize, numbers: *mut u64, n: usize, keys: *mut u64, k: usize, least: *mut u64, l: usize,
                $($argument: u64),*
            ) -> $answer;)*
        }
    };
}
inner! {
    inner_tables() -> ();
    inner_main(column) -> u64;
    inner_aux(column) -> u64;
    inner_next_main(column) -> u64;
    inner_next_aux(column) -> u64;
    inner_challenge(index) -> u64;
    inner_base(word) -> u64;
    inner_add(left, right) -> u64;
    inner_multiply(left, right) -> u64;
    inner_subtract(left, right) -> u64;
}

/// SAFETY of all: m is a circuit that the tables fit, as the call before left them, and the arguments are in range.
macro_rules! with {
    ($m:ident, $tables:expr, $name:ident $(, $argument:expr)*) => {{
        let [n, k, l] = $tables;
        let (numbers, keys, least) = (n.as_mut_ptr(), k.as_mut_ptr(), l.as_mut_ptr());
        unsafe { $name($m.as_mut_ptr(), $m.len(), numbers, n.len(), keys, k.len(), least, l.len() $(, u64::from($argument))*) }
    }};
}

impl Tables {
    fn new(m: &mut [u64]) -> Self {
        let mut tables = Tables([vec![0; 4096], vec![0; 24574], vec![0; 4097]]);
        with!(m, &mut tables.0, inner_tables);
        tables
    }

    fn call(&mut self, m: &mut [u64], call: &Call) -> u64 {
        let tables = &mut self.0;
        match *call {
            Call::Input { row: 0, column } => with!(m, tables, inner_main, column),
            Call::Input { row: 1, column } => with!(m, tables, inner_aux, column),
            Call::Input { row: 2, column } => with!(m, tables, inner_next_main, column),
            Call::Input { column, .. } => with!(m, tables, inner_next_aux, column),
            Call::Challenge(index) => with!(m, tables, inner_challenge, index),
            Call::Base(word) => with!(m, tables, inner_base, word),
            Call::Add(left, right) => with!(m, tables, inner_add, left, right),
            Call::Multiply(left, right) => with!(m, tables, inner_multiply, left, right),
            Call::Subtract(left, right) => with!(m, tables, inner_subtract, left, right),
            _ => unreachable!(),
        }
    }
}

/// Ids in the order of the calls; a root's is the node that it names.
fn follow(calls: &[Call], mut step: impl FnMut(&Call) -> u64) -> Vec<u64> {
    let follow = |call: &Call| match call {
        Call::Root(id) => u64::from(*id),
        _ => step(call),
    };
    calls.iter().map(follow).collect()
}

#[inline(never)]
pub fn span_build_public(m: &mut [u64], calls: &[Call]) -> Vec<u64> {
    follow(calls, |call| public(m, call))
}

#[inline(never)]
pub fn span_build_inner(m: &mut [u64], calls: &[Call]) -> Vec<u64> {
    let mut tables = Tables::new(m);
    follow(calls, |call| tables.call(m, call))
}

#[derive(PartialEq)]
pub struct Lent {
    pub main: Vec<u64>,
    pub aux: Vec<u64>,
    pub challenges: Vec<u64>,
}

#[inline(never)]
pub fn span_evaluate_ours(m: &[u64], root: u64, lent: &Lent) -> [u64; 3] {
    let mut value = [0; 3];
    let (a, b, c) = (&lent.main, &lent.aux, &lent.challenges);
    let (main, aux, challenges) = (a.as_ptr(), b.as_ptr(), c.as_ptr());
    let (p, n, out) = (m.as_ptr(), m.len(), value.as_mut_ptr());
    let refused = unsafe { atz_evaluate(p, n, root, main, a.len(), aux, b.len(), challenges, c.len(), out, 3) };
    assert_eq!(0, refused);
    value
}

/// What a lowering needs and leaves: the circuit, the roots and the two lists.
pub struct Lowering {
    pub m: Vec<u64>,
    pub roots: Vec<u64>,
    pub main: Vec<u64>,
    pub aux: Vec<u64>,
}

impl Lowering {
    pub fn new(m: &[u64], roots: &[u64]) -> Self {
        Lowering { m: m.to_vec(), roots: roots.to_vec(), main: vec![0; PLACES], aux: vec![0; PLACES] }
    }
}

/// The refusal's number, or 0; the lists are cut to what stands there.
#[inline(never)]
pub fn span_lower_ours(lent: &mut Lowering, target: u64, mains: u64, auxs: u64) -> u64 {
    let mut counts = [0; 2];
    let Lowering { m, roots, main, aux } = lent;
    let (p, r, a, b) = (m.as_mut_ptr(), roots.as_mut_ptr(), main.as_mut_ptr(), aux.as_mut_ptr());
    let out = counts.as_mut_ptr();
    let refused =
        unsafe { atz_lower(p, m.len(), r, roots.len(), target, mains, auxs, a, main.len(), b, aux.len(), out, 2) };
    main.truncate(counts[0] as usize);
    aux.truncate(counts[1] as usize);
    refused
}

/// Fills the new columns of rows by one call.
#[inline(never)]
pub fn span_fill_ours(lowered: &Lowering, mains: u64, auxs: u64, rows: u64, trace: &mut Lent) {
    let Lowering { m, main: list, aux: other, .. } = lowered;
    let (p, l, k) = (m.as_ptr(), list.as_ptr(), other.as_ptr());
    let (a, b, c) = (trace.main.as_mut_ptr(), trace.aux.as_mut_ptr(), trace.challenges.as_ptr());
    let (x, y, z) = (trace.main.len(), trace.aux.len(), trace.challenges.len());
    let refused =
        unsafe { atz_fill_rows(p, m.len(), l, list.len(), k, other.len(), mains, auxs, rows, a, x, b, y, c, z) };
    assert_eq!(0, refused);
}

/// Public calls on two ids.
pub type Binary = unsafe extern "C" fn(*mut u64, usize, u64, u64, *mut u64, usize) -> u64;

pub const BINARY: [(&str, Binary); 3] = [("add", atz_add), ("multiply", atz_multiply), ("subtract", atz_subtract)];

pub fn binary(call: Binary, m: &mut [u64], left: u64, right: u64) -> u64 {
    let mut id = 0;
    assert_eq!(0, unsafe { call(m.as_mut_ptr(), m.len(), left, right, &mut id, 1) });
    id
}
