//! The same calls straight on the Rust's builder.
use std::cell::RefCell;
use std::rc::Rc;

use ndarray::ArrayView2;
use triton_constraint_circuit::*;
use twenty_first::prelude::*;

use crate::calls::Call;
use crate::cells::cell;
use crate::ours::Lent;

pub type Builder = ConstraintCircuitBuilder<DualRowIndicator>;
pub type Node = ConstraintCircuitMonad<DualRowIndicator>;

/// Each call's node, in their order; a root's is the node that it names.
#[inline(never)]
pub fn span_build_rust(builder: &Builder, calls: &[Call]) -> Vec<Node> {
    let mut by_id: Vec<Option<Node>> = vec![None; 4096];
    let mut made = Vec::with_capacity(calls.len());
    for call in calls {
        let get = |id: u16| by_id[usize::from(id)].clone().unwrap();
        let node = match *call {
            Call::Input { row, column } => {
                let column = usize::from(column);
                builder.input(match row {
                    0 => DualRowIndicator::CurrentMain(column),
                    1 => DualRowIndicator::CurrentAux(column),
                    2 => DualRowIndicator::NextMain(column),
                    _ => DualRowIndicator::NextAux(column),
                })
            }
            Call::Challenge(index) => builder.challenge(index),
            Call::Base(word) => builder.b_constant(word),
            Call::Add(left, right) => get(left) + get(right),
            Call::Multiply(left, right) => get(left) * get(right),
            Call::Subtract(left, right) => get(left) - get(right),
            Call::Root(id) => get(id),
            _ => unreachable!(),
        };
        by_id[id(&node) as usize] = Some(node.clone());
        made.push(node);
    }
    made
}

pub fn id(node: &Node) -> u64 {
    node.circuit.borrow().id
}

pub const MAIN: usize = 120;
pub const AUX: usize = 40;
const CHALLENGES: usize = 20;

/// The tables that both evaluate on.
pub struct Tables {
    main: Vec<BFieldElement>,
    aux: Vec<XFieldElement>,
    challenges: Vec<XFieldElement>,
}

impl Tables {
    pub fn new() -> Self {
        let triple = |kind, index| XFieldElement::new(cell(0, kind, index).map(BFieldElement::new));
        let rows = |width, kinds: [u8; 2]| -> Vec<XFieldElement> {
            kinds.into_iter().flat_map(|kind| (0..width).map(move |column| triple(kind, column))).collect()
        };
        Self {
            main: rows(MAIN, [5, 7]).iter().map(|x| x.coefficients[0]).collect(),
            aux: rows(AUX, [6, 8]),
            challenges: (0..CHALLENGES).map(|index| triple(2, index)).collect(),
        }
    }

    pub fn lent(&self) -> Lent {
        let words = |list: &[XFieldElement]| list.iter().flat_map(|x| x.coefficients.map(|c| c.value())).collect();
        Lent {
            main: self.main.iter().map(|b| b.value()).collect(),
            aux: words(&self.aux),
            challenges: words(&self.challenges),
        }
    }
}

#[inline(never)]
pub fn span_evaluate_rust(root: &Node, tables: &Tables) -> [u64; 3] {
    let main = ArrayView2::from_shape((2, MAIN), &tables.main).unwrap();
    let aux = ArrayView2::from_shape((2, AUX), &tables.aux).unwrap();
    let value = root.circuit.borrow().evaluate(main, aux, &tables.challenges);
    value.coefficients.map(|c| c.value())
}

#[inline(never)]
pub fn span_lower_rust(roots: &mut [Node], target: u64) -> (Vec<Node>, Vec<Node>) {
    let info = DegreeLoweringInfo { target_degree: target as isize, num_main_cols: MAIN, num_aux_cols: AUX };
    Node::lower_to_degree(roots, info)
}

type Inner = Rc<RefCell<ConstraintCircuit<DualRowIndicator>>>;

/// What a new column's constraint says of it: of (input + -1·node), the node.
fn meaning(constraint: &Node) -> Inner {
    let CircuitExpression::BinOp(BinOp::Add, _, negated) = &constraint.circuit.borrow().expression else {
        panic!("no sum")
    };
    let CircuitExpression::BinOp(BinOp::Mul, left, right) = &negated.borrow().expression else { panic!("no product") };
    let is_constant = matches!(left.borrow().expression, CircuitExpression::BConst(_));
    if is_constant { right.clone() } else { left.clone() }
}

/// Rows one after the other, old and new columns, and what the new ones are to hold.
pub struct Trace {
    tables: Tables,
    widths: [usize; 2],
    rows: usize,
    meanings: [Vec<Inner>; 2],
}

impl Trace {
    /// Any words in the old columns, zeros in the new ones.
    pub fn new(main: &[Node], aux: &[Node], rows: usize) -> Self {
        let triple = |kind, index| XFieldElement::new(cell(0, kind, index).map(BFieldElement::new));
        let widths = [MAIN + main.len(), AUX + aux.len()];
        let column = |kind, old: usize, width: usize| -> Vec<XFieldElement> {
            let zero = BFieldElement::new(0).lift();
            (0..rows * width).map(|at| if at % width < old { triple(kind, at) } else { zero }).collect()
        };
        let tables = Tables {
            main: column(5, MAIN, widths[0]).iter().map(|x| x.coefficients[0]).collect(),
            aux: column(6, AUX, widths[1]),
            challenges: (0..CHALLENGES).map(|index| triple(2, index)).collect(),
        };
        let meanings = [main, aux].map(|list| list.iter().map(meaning).collect());
        Self { tables, widths, rows, meanings }
    }

    pub fn lent(&self) -> Lent {
        self.tables.lent()
    }
}

/// Evaluates each new column's node on each row but the last, and stores the value.
#[inline(never)]
pub fn span_fill_rust(trace: &mut Trace) {
    let Trace { tables: Tables { main, aux, challenges }, widths: [a, b], rows, meanings } = trace;
    let (a, b) = (*a, *b);
    for r in 0..*rows - 1 {
        for (k, node) in meanings.iter().enumerate().flat_map(|(k, list)| list.iter().enumerate().map(move |n| (k, n)))
        {
            let both = ArrayView2::from_shape((2, a), &main[r * a..][..2 * a]).unwrap();
            let beside = ArrayView2::from_shape((2, b), &aux[r * b..][..2 * b]).unwrap();
            let value = node.1.borrow().evaluate(both, beside, challenges);
            match k {
                0 => main[r * a + MAIN + node.0] = value.coefficients[0],
                _ => aux[r * b + AUX + node.0] = value,
            }
        }
    }
}
