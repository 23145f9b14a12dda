//! The proved library beside the Rust that it follows, on the same inputs in one process.
//!
//!   compare measure [WHAT]         times: building, evaluation, lowering, filling; see measure.rs
//!   compare once SPAN CIRCUIT...   one span alone, for callgrind to count
//!   compare edges                  ours on circuits with more paths than any memory
//!   compare stack                  bytes of stack, each call on the deepest circuit
//!   compare fuzz CALLS [SEED]      damaged circuits and slices, see fuzz.rs
mod both;
mod clock;
mod edges;
mod fuzz;
mod measure;
mod ours;
mod rust;
mod shapes;
mod stack;

/// The oracle's own files: its benchmark circuits are what both sides build.
macro_rules! oracle {
    ($($name:ident $file:literal)*) => { $(#[path = $file] #[allow(dead_code)] mod $name;)* };
}
oracle! {
    bench "../../../oracle/src/bench.rs"
    calls "../../../oracle/src/calls.rs"
    cells "../../../oracle/src/cells.rs"
    dump "../../../oracle/src/dump.rs"
    machine "../../../oracle/src/machine.rs"
    nodes "../../../oracle/src/nodes.rs"
}

fn main() {
    let arguments: Vec<String> = std::env::args().skip(1).collect();
    let number = |at: usize| arguments.get(at).map(|word| word.parse().expect("a number"));
    match arguments.first().map(String::as_str) {
        Some("measure") => measure::measure(arguments.get(1).map(String::as_str)),
        Some("once") => measure::once(&arguments[1], &arguments[2..].join(" ")),
        Some("edges") => edges::edges(),
        Some("stack") => stack::stack(),
        Some("fuzz") => fuzz::fuzz(number(1).expect("how many"), number(2).unwrap_or(1)),
        _ => panic!("measure, once, edges, stack or fuzz"),
    }
}
