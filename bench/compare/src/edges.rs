//! Circuits whose trees have more places than any memory: what is answered, and in how many microseconds. The Rust would follow every path.
use crate::clock::{least, run};
use crate::ours::{self, Lowering};
use crate::{rust, shapes};

/// A circuit by ours alone, and its roots.
fn built(circuit: &str) -> (Vec<u64>, Vec<u64>) {
    let calls = shapes::calls_of_ours(circuit);
    let mut m = ours::fresh();
    let ids = ours::span_build_inner(&mut m, &calls);
    (m, vec![ids[ids.len() - 1]])
}

fn lowering(circuit: &str, target: u64) {
    let (m, roots) = built(circuit);
    let lower = |lent: &mut Lowering| ours::span_lower_ours(lent, target, rust::MAIN as u64, rust::AUX as u64);
    let mut lent = Lowering::new(&m, &roots);
    let number = lower(&mut lent);
    let [seconds] = least(20, [run(|| Lowering::new(&m, &roots), lower)]);
    let added = if number == 0 { lent.main.len() + lent.aux.len() } else { 0 };
    println!("lower\t{circuit}\tto {target}\trefusal {number}\tsubstitutions {added}\t{:.1} us", seconds * 1e6);
}

/// Two equal towers of squarings over one input, the first of them loose: each building call, on their tops.
fn towers(squarings: u64) {
    let mut m = ours::fresh();
    let mut put = |words: [u64; 6]| {
        let at = 2 + 6 * m[1] as usize;
        m[at..at + 6].copy_from_slice(&words);
        m[1] += 1;
        m[1] - 1
    };
    let input = put([5, 0, 0, 0, 1, 0]);
    let tops = [0, 1].map(|mark| (0..squarings).fold(input, |below, _| put([4, below, below, 0, mark, 0])));
    for (name, call) in ours::BINARY {
        let mut again = m.clone();
        let id = ours::binary(call, &mut again, tops[0], tops[1]);
        let [seconds] = least(50, [run(|| m.clone(), |m| ours::binary(call, m, tops[0], tops[1]))]);
        println!("{name}\ttwo towers of {squarings}, one loose\tid {id}\tused {}\t{:.1} us", again[1], seconds * 1e6);
    }
}

pub fn edges() {
    towers(200);
    lowering("tower 30", 2);
    lowering("sums 31", 2);
    lowering("sums 33", 2);
    lowering("tower 40", 2);
}
