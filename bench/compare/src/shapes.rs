//! The oracle's benchmark circuits, as lists of calls that both sides follow.
use crate::bench::Sketch;
use crate::calls::{Call, unhex};

/// The calls of a circuit, its roots among them, from the arguments that the oracle's `--bench` takes.
pub fn calls(name: &str) -> Vec<Call> {
    let arguments: Vec<String> = name.split(' ').map(String::from).collect();
    let (sketch, taken) = Sketch::new(&arguments);
    assert_eq!(taken, arguments.len());
    let frames = sketch.frames();
    let calls = frames.lines().map(|line| Call::parse(&unhex(line.as_bytes()).unwrap()).unwrap());
    calls.skip(1).collect()
}

/// The circuits of a table: one of each size.
pub fn family(name: &str, sizes: &[usize]) -> Vec<String> {
    let of = |size: &usize| match name {
        "products" => format!("products {size} 8"),
        "selectors" => format!("selectors {size} 12"),
        _ => format!("{name} {size}"),
    };
    sizes.iter().map(of).collect()
}

/// The same circuit with the sum of its roots as the one root, so that everything of use lies below it.
pub fn one_root(mut calls: Vec<Call>) -> Vec<Call> {
    let builder = crate::rust::Builder::new();
    let made = crate::rust::span_build_rust(&builder, &calls);
    let of = |(call, node): (&Call, &crate::rust::Node)| matches!(call, Call::Root(_)).then(|| node.clone());
    let roots: Vec<_> = calls.iter().zip(&made).filter_map(of).collect();
    let short = |node: &crate::rust::Node| crate::rust::id(node) as u16;
    let mut sum = roots[0].clone();
    calls.retain(|call| !matches!(call, Call::Root(_)));
    for root in &roots[1..] {
        calls.push(Call::Add(short(&sum), short(root)));
        sum = sum + root.clone();
    }
    calls.push(Call::Root(short(&sum)));
    builder.spy_forget_all();
    calls
}

/// The towers and doublings of `calls`, without the Rust, which can't follow them far.
pub fn calls_of_ours(name: &str) -> Vec<Call> {
    let (shape, count) = name.split_once(' ').unwrap();
    let count: u16 = count.parse().expect("a number");
    let mut calls = vec![Call::Input { row: 0, column: 0 }];
    let first = match shape {
        "tower" => 0,
        _ => {
            calls.extend([Call::Multiply(0, 0), Call::Multiply(1, 0)]);
            2
        }
    };
    let step = |id| {
        if shape == "tower" { Call::Multiply(id, id) } else { Call::Add(id, id) }
    };
    calls.extend((first..first + count).map(step));
    calls.push(Call::Root(first + count));
    calls
}
