//! Every reading of a circuit as records; vectors/README.md has the format.
//! All of it is answered by the Rust's own public functions.
use std::collections::BTreeMap;
use std::fmt::Write;
use std::panic::{AssertUnwindSafe, catch_unwind};

use triton_constraint_circuit::ConstraintCircuit;
use twenty_first::prelude::*;

use crate::calls::refusal;
use crate::cells::cell;
use crate::machine::{Circuit, Machine, Monad, Rows, Tables};
use crate::nodes::Expression;

/// Columns and challenges below this have values in a dump.
pub const WIDTH: usize = 256;
/// Walks up to this length are written out, longer ones summed up.
pub const WALK: usize = 256;
/// Pairs of id and reference count on a line.
const PAIRS: usize = 256;

pub fn dump<II: Rows>(machine: &mut Machine<II>, seed: u64) -> String {
    let mut out = String::new();
    let wide = (0..machine.used()).any(|id| match machine.node(id).expression {
        Expression::Challenge(index) | Expression::Input { column: index, .. } => index >= WIDTH,
        _ => false,
    });
    let tables = (!wide).then(|| tell_cells(machine, seed, &mut out));
    nodes(machine, tables.as_ref(), &mut out);
    root_list(machine, &mut out);
    walks(machine, &mut out);
    reference_counts(machine, &mut out);
    out.push_str("e\n");
    out
}

/// The leaf's number among the kinds of the vectors, for leaves with a cell.
fn cell_of(expression: &Expression) -> Option<(u8, usize)> {
    match *expression {
        Expression::Challenge(index) => Some((2, index)),
        Expression::Input { row, column } => Some((5 + row, column)),
        _ => None,
    }
}

/// Fill tables from the seed, and write `t` for each cell read by a leaf that
/// no earlier dump of the same seed has told.
fn tell_cells<II: Rows>(machine: &mut Machine<II>, seed: u64, out: &mut String) -> Tables {
    let mut tables = Tables {
        main: vec![BFieldElement::new(0); 2 * WIDTH],
        aux: vec![BFieldElement::new(0).lift(); 2 * WIDTH],
        challenges: vec![BFieldElement::new(0).lift(); WIDTH],
    };
    if machine.told.0 != seed {
        machine.told = (seed, 0);
    }
    for id in 0..machine.used() {
        let Some((kind, index)) = cell_of(&machine.node(id).expression) else {
            continue;
        };
        let words = cell(seed, kind, index);
        let triple = XFieldElement::new(words.map(BFieldElement::new));
        let place = usize::from(kind >= 7) * WIDTH + index; // the next row is the second half
        let shown = match kind {
            5 | 7 => {
                tables.main[place] = triple.coefficients[0];
                format!("{:016x}", words[0])
            }
            6 | 8 => {
                tables.aux[place] = triple;
                hex(&triple)
            }
            _ => {
                tables.challenges[index] = triple;
                hex(&triple)
            }
        };
        if id >= machine.told.1 {
            writeln!(out, "t{kind:02x}{index:04x}{shown}").unwrap();
        }
    }
    machine.told.1 = machine.used();
    tables
}

fn nodes<II: Rows>(machine: &Machine<II>, tables: Option<&Tables>, out: &mut String) {
    let used = machine.used();
    let registered = (0..used).filter(|&id| machine.is_registered(id)).count();
    let roots = machine.root_list.len();
    let values = if tables.is_some() { 'v' } else { '-' };
    writeln!(out, "d{used:04x}{registered:04x}{roots:02x}{values}").unwrap();
    for id in 0..used {
        let node = machine.node(id);
        let mark = if node.registered { 'R' } else { 'L' };
        let expression = match node.expression {
            Expression::Base(word) => format!("00{word:016x}"),
            Expression::Extension([a, b, c]) => format!("01{a:016x}{b:016x}{c:016x}"),
            Expression::Challenge(index) => format!("02{index:04x}"),
            Expression::Add(left, right) => format!("03{left:04x}{right:04x}"),
            Expression::Multiply(left, right) => format!("04{left:04x}{right:04x}"),
            Expression::Input { row, column } => format!("{:02x}{column:04x}", 5 + row),
        };
        let monad = &machine.made[id];
        // equality of the Rust: by structure
        let class = (0..used).find(|&other| machine.made[other] == *monad);
        let class = class.expect("equal to itself");
        let circuit = monad.circuit.borrow();
        let base = circuit.evaluates_to_base_element();
        let degree = circuit.degree() + 1;
        write!(
            out,
            "n{id:04x}{mark}{expression}{degree:08x}{}{}{}{}{class:04x}",
            u8::from(base),
            u8::from(circuit.is_zero()),
            u8::from(circuit.is_one()),
            u8::from(circuit.is_neg_one()),
        )
        .unwrap();
        if let Some(tables) = tables {
            let value = Machine::evaluate(monad, tables);
            match value.unlift() {
                Some(word) if base => write!(out, "{word}", word = hex_word(word)).unwrap(),
                _ => write!(out, "{}", hex(&value)).unwrap(),
            }
        }
        out.push('\n');
    }
}

fn root_list<II: Rows>(machine: &Machine<II>, out: &mut String) {
    out.push('r');
    for root in machine.roots() {
        write!(out, "{root:04x}").unwrap();
    }
    let highest = Monad::multicircuit_degree(&machine.root_list) + 1;
    let visible = Monad::num_visible_nodes(&machine.root_list);
    write!(out, "\ng{highest:08x}\nv{visible:04x}\n").unwrap();
}

fn walks<II: Rows>(machine: &Machine<II>, out: &mut String) {
    for (number, root) in machine.root_list.iter().enumerate() {
        let walk: Vec<u64> = Monad::all_nodes_in_multicircuit(&[root.consume()])
            .map(|node| node.borrow().id)
            .collect();
        let length = walk.len();
        if length <= WALK {
            write!(out, "w{number:02x}{length:04x}").unwrap();
            for id in walk {
                write!(out, "{id:04x}").unwrap();
            }
            out.push('\n');
        } else {
            let sum = walk_sum(&walk);
            writeln!(out, "x{number:02x}{length:08x}{}", hex_word(sum)).unwrap();
        }
    }
}

/// A number that depends on every id and its place: one Horner step an id.
fn walk_sum(walk: &[u64]) -> BFieldElement {
    let factor = BFieldElement::new(1_000_003);
    walk.iter().fold(BFieldElement::new(0), |sum, &id| {
        sum * factor + BFieldElement::new(id + 1)
    })
}

/// The Rust counts on copies of the roots, and panics where an id is repeated.
fn reference_counts<II: Rows>(machine: &Machine<II>, out: &mut String) {
    let mut copies: Vec<_> = machine.root_list.iter().map(|r| r.consume()).collect();
    let counting = || ConstraintCircuit::assert_unique_ids(&mut copies);
    if catch_unwind(AssertUnwindSafe(counting)).is_err() {
        writeln!(out, "k{:02x}", refusal::REPEAT).unwrap();
        return;
    }
    out.push_str("k00\n");
    let counts: BTreeMap<u64, usize> = Monad::all_nodes_in_multicircuit(&copies)
        .map(|node| (node.borrow().id, node.borrow().ref_count))
        .collect();
    let counts: Vec<_> = counts.into_iter().collect();
    for some in counts.chunks(PAIRS) {
        out.push('q');
        for (id, count) in some {
            write!(out, "{id:04x}{count:08x}").unwrap();
        }
        out.push('\n');
    }
    for (number, copy) in copies.iter().enumerate() {
        let distinct = copy.all_ref_counters();
        write!(out, "u{number:02x}{:04x}", distinct.len()).unwrap();
        for count in distinct {
            write!(out, "{count:08x}").unwrap();
        }
        out.push('\n');
    }
}

fn hex_word(word: BFieldElement) -> String {
    format!("{:016x}", word.value())
}

fn hex(value: &XFieldElement) -> String {
    value.coefficients.map(hex_word).concat()
}
