//! Where document 01 refuses and the Rust goes on or panics: the smallest
//! inputs, run on the Rust. `run` compares this output with differences.txt.
use std::panic::{AssertUnwindSafe, catch_unwind};

use triton_constraint_circuit::*;

use crate::calls::{Call, unhex};
use crate::machine::{Circuit, Monad, start};
use crate::nodes::Expression;

type Builder = ConstraintCircuitBuilder<SingleRowIndicator>;

pub fn differences() {
    columns();
    loose();
    repeat();
    target();
    empty();
    full();
    no_room();
    degree_and_paths();
}

/// The answer, or the panic's first line.
fn attempt(action: impl FnOnce() -> String) -> String {
    match catch_unwind(AssertUnwindSafe(action)) {
        Ok(answer) => answer,
        Err(payload) => {
            let text = payload
                .downcast_ref::<String>()
                .map(String::as_str)
                .or(payload.downcast_ref::<&str>().copied())
                .unwrap_or("?");
            format!("panic: {}", text.lines().next().unwrap_or(""))
        }
    }
}

/// Print each frame and what the Rust does, with no refusal of ours but those
/// of `Machine`, which do not apply here.
fn frames(text: &str) -> Box<dyn Circuit> {
    let mut circuit = start(1);
    for line in text.split_whitespace() {
        let call = Call::parse(&unhex(line.as_bytes()).unwrap()).unwrap();
        let answer = match call {
            Call::Start(kind) => {
                circuit = start(kind);
                "00".into()
            }
            call => attempt(|| circuit.call(&call).hex()),
        };
        println!("  {line} -> {answer}");
        if answer.starts_with("panic") {
            break;
        }
    }
    circuit
}

fn show(circuit: &dyn Circuit) {
    for id in 0..circuit.used() {
        let node = circuit.node(id);
        let loose = if node.registered { "" } else { " (loose)" };
        let text = match node.expression {
            Expression::Base(word) if word == twenty_first::P - 1 => "-1".into(),
            Expression::Base(word) => format!("{word}"),
            Expression::Extension(words) => format!("{words:?}"),
            Expression::Challenge(index) => format!("challenge {index}"),
            Expression::Input { row, column } => format!("input, row byte {row}, column {column}"),
            Expression::Add(left, right) => format!("{left} + {right}"),
            Expression::Multiply(left, right) => format!("{left} * {right}"),
        };
        println!("    node {id}: {text}{loose}");
    }
    println!("    roots: {:?}", circuit.roots());
}

fn columns() {
    println!("COLUMNS: x^4, main count 0 though column 0 is in use");
    let circuit = frames("0001 01000000 0600000000 0600010001 090002 0a000200000000");
    show(&*circuit);
    println!("COLUMNS: the same, the input in use is not below the root");
    let circuit = frames("0001 01000000 01000001 0600000000 0600020002 090003 0a000200010000");
    show(&*circuit);
    println!("COLUMNS: count + M = 65,537; the new column still fits");
    frames("0001 01000000 0600000000 0600010001 090002 0a0002ffff0000");
    println!("COLUMNS: count 65,535, x^8: the second new column is 65,536");
    let circuit = frames("0001 01000000 0600000000 0600010001 0600020002 090003 0a0002ffff0000");
    show(&*circuit);
    println!("COLUMNS: column 5 of the next row, main count 4: the second new column is 5");
    let reads = "0002 01000000 01020005 0600000000 0600020000 0600030003 0500040001 090005";
    let circuit = frames(&format!("{reads} 0a000200040000"));
    show(&*circuit);
    println!("COLUMNS: x^4 and a next-row column at the main count, below no root");
    frames("0002 01000000 01020001 0600000000 0600020002 090003 0a000200010000");
    println!("COLUMNS: the same with a next-row auxiliary column, and no auxiliary column is added");
    frames("0002 01000000 01030000 0600000000 0600020002 090003 0a000200010000");
}

fn loose() {
    let first = "0001 01000000 0600000000 0600010001 090002 0a000200010000";
    println!("LOOSE: a loose node below a root that has to be lowered is chosen");
    frames(&format!("{first} 0600010001 090007 0a000200020000"));
    println!("LOOSE: a loose root of low degree beside a high one; the Rust goes on");
    let more = "090001 01000002 0600070007 0600080008 090009 0a000200030000";
    let circuit = frames(&format!("{first} {more}"));
    show(&*circuit);
    println!("LOOSE: a loose high root keeps its operand when that is replaced");
    let cube = "0001 01000000 0600000000 0600010000 0600020002 090003 0a000300010000";
    frames(&format!("{cube} 090002 0a000200020000"));
}

fn repeat() {
    println!("REPEAT: reference counts of x, x");
    let builder = Builder::new();
    let x = builder.input(SingleRowIndicator::Main(0));
    let mut roots = [x.consume(), x.consume()];
    println!(
        "  {}",
        attempt(|| {
            ConstraintCircuit::assert_unique_ids(&mut roots);
            "accepted".into()
        })
    );
    println!("REPEAT: reference counts of x^2, x");
    let mut roots = [(x.clone() * x.clone()).consume(), x.consume()];
    println!(
        "  {}",
        attempt(|| {
            ConstraintCircuit::assert_unique_ids(&mut roots);
            "accepted".into()
        })
    );
}

fn target() {
    println!("TARGET: target 1, no roots at all");
    println!(
        "  {}",
        attempt(|| {
            let info = DegreeLoweringInfo {
                target_degree: 1,
                num_main_cols: 0,
                num_aux_cols: 0,
            };
            let lists = Monad::<SingleRowIndicator>::lower_to_degree(&mut [], info);
            format!("{} {}", lists.0.len(), lists.1.len())
        })
    );
}

fn empty() {
    println!("EMPTY: the sum of no ids");
    println!(
        "  {}",
        attempt(|| {
            let sum: Monad<SingleRowIndicator> = std::iter::empty().sum();
            format!("id {}", sum.circuit.borrow().id)
        })
    );
}

fn full() {
    println!("FULL: 513 inputs in the frame program, the last answer");
    let mut circuit = start(1);
    let mut last = String::new();
    for column in 0..513 {
        last = circuit.call(&Call::Input { row: 0, column }).hex();
    }
    println!("  {last}");
    println!("FULL: x^4 with 5 of 512 places free, where 3·M is 6");
    let mut circuit = start(1);
    for column in 0..505 {
        circuit.call(&Call::Input { row: 0, column });
    }
    for call in [
        Call::Multiply(0, 0),
        Call::Multiply(505, 505),
        Call::Root(506),
        Call::Lower {
            target: 2,
            main: 505,
            aux: 0,
        },
    ] {
        let answer = circuit.call(&call).hex();
        println!("  {} -> {answer}", call.hex());
    }
    println!("  nodes used {}", circuit.used());
}

fn no_room() {
    println!("NO_ROOM: 65 roots are lowered by the Rust");
    let builder = Builder::new();
    let mut roots: Vec<_> = (0..65)
        .map(|column| {
            let x = builder.input(SingleRowIndicator::Main(column));
            x.clone() * x.clone() * x
        })
        .collect();
    let info = DegreeLoweringInfo {
        target_degree: 2,
        num_main_cols: 65,
        num_aux_cols: 0,
    };
    let (main, aux) = Monad::lower_to_degree(&mut roots, info);
    println!("  main {} aux {}", main.len(), aux.len());
    println!("NO_ROOM: x^3, where M is 2: the Rust fills one place of one list");
    frames("0001 01000000 0600000000 0600010000 090002 0a000200010000");
}

fn degree_and_paths() {
    println!("DEGREE, PATHS: smaller towers, what the Rust walks");
    for squarings in [4, 8, 12, 16] {
        let builder = Builder::new();
        let mut x = builder.input(SingleRowIndicator::Main(0));
        for _ in 0..squarings {
            x = x.clone() * x;
        }
        let degree = x.circuit.borrow().degree();
        let walk = Monad::all_nodes_in_multicircuit(&[x.consume()]).count();
        println!("  {squarings} squarings: degree {degree}, walk {walk}");
    }
}
