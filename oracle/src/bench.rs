//! Benchmark circuits, and the Rust's times on them.
//!
//!   products NODES MAX_DEGREE   each root a product of 2 to MAX_DEGREE linear factors
//!   selectors NODES COUNT       each root a sum of selected quadratic terms
//!   tower COUNT                 x squared COUNT times
//!   sums COUNT                  x cubed, then doubled COUNT times
use std::panic::{AssertUnwindSafe, catch_unwind};
use std::time::Instant;

use triton_constraint_circuit::*;

use crate::calls::{Answer, Call};
use crate::cells::{Rng, cell};
use crate::machine::{Machine, Monad, Tables, start};
use twenty_first::prelude::*;

const MAIN: usize = 120;
const AUX: usize = 40;
const CHALLENGES: usize = 20;

/// A circuit as frames, with the answers they got: both sides build the same.
pub struct Sketch {
    circuit: Box<dyn crate::machine::Circuit>,
    rng: Rng,
    /// Each call and the id that it answered; 0 for a root.
    calls: Vec<(Call, u16)>,
}

impl Sketch {
    /// The circuit named by the arguments, and how many of them it took.
    pub fn new(arguments: &[String]) -> (Self, usize) {
        let number = |at: usize| arguments[at].parse::<usize>().expect("a number");
        let mut sketch = Self {
            circuit: start(2),
            rng: Rng::new(&[0]),
            calls: vec![],
        };
        let taken = match arguments[0].as_str() {
            "products" => {
                sketch.products(number(1), number(2));
                3
            }
            "selectors" => {
                sketch.selectors(number(1), number(2));
                3
            }
            "tower" => {
                let mut x = sketch.input(0, 0);
                for _ in 0..number(1) {
                    x = sketch.call(Call::Multiply(x, x));
                }
                sketch.root(x);
                2
            }
            "sums" => {
                let x = sketch.input(0, 0);
                let square = sketch.call(Call::Multiply(x, x));
                let mut s = sketch.call(Call::Multiply(square, x));
                for _ in 0..number(1) {
                    s = sketch.call(Call::Add(s, s));
                }
                sketch.root(s);
                2
            }
            other => panic!("no circuit {other}"),
        };
        (sketch, taken)
    }

    pub fn frames(&self) -> String {
        let mut text = Call::Start(2).hex() + "\n";
        for (call, _) in &self.calls {
            text += &call.hex();
            text += "\n";
        }
        text
    }

    fn call(&mut self, call: Call) -> u16 {
        let Answer::Id(id) = self.circuit.call(&call) else {
            panic!("refused");
        };
        let id = u16::try_from(id).unwrap();
        self.calls.push((call, id));
        id
    }

    fn root(&mut self, id: u16) {
        self.calls.push((Call::Root(id), 0));
    }

    fn input(&mut self, row: u8, column: usize) -> u16 {
        let column = column as u16;
        self.call(Call::Input { row, column })
    }

    fn cell(&mut self) -> u16 {
        let row = self.rng.pick(&[0, 0, 0, 0, 0, 2, 2, 2, 1, 3]);
        let width = if row % 2 == 0 { MAIN } else { AUX };
        let column = self.rng.below(width);
        self.input(row, column)
    }

    fn products(&mut self, nodes: usize, max_degree: usize) {
        while self.circuit.used() < nodes {
            let degree = 2 + self.rng.below(max_degree - 1);
            let mut product = self.linear();
            for _ in 1..degree {
                let factor = self.linear();
                product = self.call(Call::Multiply(product, factor));
            }
            self.root(product);
        }
    }

    fn linear(&mut self) -> u16 {
        let first = self.cell();
        match self.rng.below(3) {
            0 => {
                let second = self.cell();
                self.call(Call::Subtract(first, second))
            }
            1 => {
                let word = 1 + self.rng.below(8) as u64;
                let constant = self.call(Call::Base(word));
                self.call(Call::Subtract(first, constant))
            }
            _ => {
                let index = self.rng.below(CHALLENGES) as u16;
                let challenge = self.call(Call::Challenge(index));
                let second = self.cell();
                let weighed = self.call(Call::Multiply(challenge, second));
                self.call(Call::Add(first, weighed))
            }
        }
    }

    fn selectors(&mut self, nodes: usize, count: usize) {
        let one = self.call(Call::Base(1));
        let selectors: Vec<u16> = (0..count)
            .map(|number| {
                let mut product = one;
                for bit in 0..7 {
                    let input = self.input(0, bit);
                    let factor = match number * 37 >> bit & 1 {
                        1 => input,
                        _ => self.call(Call::Subtract(one, input)),
                    };
                    product = self.call(Call::Multiply(product, factor));
                }
                product
            })
            .collect();
        while self.circuit.used() < nodes {
            let mut sum = None;
            for _ in 0..1 + self.rng.below(6) {
                let (a, b, c) = (self.cell(), self.cell(), self.cell());
                let product = self.call(Call::Multiply(b, c));
                let term = self.call(Call::Subtract(a, product));
                let selector = self.rng.pick(&selectors);
                let selected = self.call(Call::Multiply(selector, term));
                sum = Some(match sum {
                    None => selected,
                    Some(so_far) => self.call(Call::Add(so_far, selected)),
                });
            }
            self.root(sum.unwrap());
        }
    }
}

type Builder = ConstraintCircuitBuilder<DualRowIndicator>;
type Node = Monad<DualRowIndicator>;

/// The same calls straight on the Rust's builder, with no bookkeeping of ours.
fn build(builder: &Builder, calls: &[(Call, u16)]) -> Vec<Node> {
    let highest = calls.iter().map(|&(_, answer)| usize::from(answer)).max();
    let mut by_id: Vec<Option<Node>> = vec![None; highest.unwrap_or(0) + 1];
    let mut roots = vec![];
    for &(call, answer) in calls {
        let get = |id: u16| by_id[usize::from(id)].clone().unwrap();
        let node = match call {
            Call::Input { row, column } => {
                let column = usize::from(column);
                builder.input(match row {
                    0 => DualRowIndicator::CurrentMain(column),
                    1 => DualRowIndicator::CurrentAux(column),
                    2 => DualRowIndicator::NextMain(column),
                    _ => DualRowIndicator::NextAux(column),
                })
            }
            Call::Challenge(index) => builder.challenge(index),
            Call::Base(word) => builder.b_constant(word),
            Call::Add(left, right) => get(left) + get(right),
            Call::Multiply(left, right) => get(left) * get(right),
            Call::Subtract(left, right) => get(left) - get(right),
            Call::Root(id) => {
                roots.push(get(id));
                continue;
            }
            _ => unreachable!(),
        };
        by_id[usize::from(answer)] = Some(node);
    }
    roots
}

fn tables() -> Tables {
    let triple = |kind, index| XFieldElement::new(cell(0, kind, index).map(BFieldElement::new));
    let two_rows = |width, kinds: [u8; 2]| -> Vec<XFieldElement> {
        let cells = kinds.map(|kind| (0..width).map(move |column| triple(kind, column)));
        cells.into_iter().flatten().collect()
    };
    let main = two_rows(MAIN, [5, 7]);
    Tables {
        main: main.iter().map(|x| x.coefficients[0]).collect(),
        aux: two_rows(AUX, [6, 8]),
        challenges: (0..CHALLENGES).map(|index| triple(2, index)).collect(),
    }
}

/// `--bench KIND ... [TARGET]`: each reading of all roots with its seconds, as
/// soon as it is known. Without a target nothing is lowered.
pub fn bench(arguments: &[String]) {
    let (sketch, taken) = Sketch::new(arguments);
    let target = arguments
        .get(taken)
        .map(|a| a.parse::<u16>().expect("a target"));
    println!(
        "{}: calls {}",
        arguments[..taken].join(" "),
        sketch.calls.len()
    );

    let builder = Builder::new();
    let mut roots = timed(
        || build(&builder, &sketch.calls),
        |roots| {
            format!(
                "build: nodes {} roots {}",
                builder.spy_id_counter(),
                roots.len()
            )
        },
    );
    timed(
        || Monad::multicircuit_degree(&roots),
        |degree| format!("degree: {degree}"),
    );
    let tables = tables();
    let zero = BFieldElement::new(0).lift();
    timed(
        || {
            roots
                .iter()
                .fold(zero, |sum, root| sum + Machine::evaluate(root, &tables))
        },
        |sum| format!("evaluate: sum {:016x}..", sum.coefficients[0].value()),
    );
    let copies: Vec<_> = roots.iter().map(|root| root.consume()).collect();
    timed(
        || Monad::all_nodes_in_multicircuit(&copies).count(),
        |length| format!("walk: {length}"),
    );
    timed(
        || reference_counts(copies),
        |highest| match highest {
            Some(highest) => format!("reference counts: highest {highest}"),
            None => "reference counts: REPEAT".into(),
        },
    );
    timed(
        || Monad::num_visible_nodes(&roots),
        |count| format!("visible: {count}"),
    );
    if let Some(target) = target {
        let info = DegreeLoweringInfo {
            target_degree: isize::try_from(target).unwrap(),
            num_main_cols: MAIN,
            num_aux_cols: AUX,
        };
        timed(
            || Monad::lower_to_degree(&mut roots, info),
            |(main, aux)| {
                let used = builder.spy_id_counter();
                format!(
                    "lower to {target}: main {} aux {} nodes {used}",
                    main.len(),
                    aux.len()
                )
            },
        );
    }
    builder.spy_forget_all();
}

/// The highest count in the root list, or nothing where the Rust panics.
fn reference_counts(mut roots: Vec<ConstraintCircuit<DualRowIndicator>>) -> Option<usize> {
    let counting = || ConstraintCircuit::assert_unique_ids(&mut roots);
    catch_unwind(AssertUnwindSafe(counting)).ok()?;
    let nodes = Monad::all_nodes_in_multicircuit(&roots);
    nodes.map(|node| node.borrow().ref_count).max()
}

/// Do it, and print what it was and the seconds it took.
fn timed<T>(action: impl FnOnce() -> T, say: impl FnOnce(&T) -> String) -> T {
    let clock = Instant::now();
    let answer = action();
    let seconds = clock.elapsed().as_secs_f64();
    println!("  {} seconds {seconds:.6}", say(&answer));
    answer
}
