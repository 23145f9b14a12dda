//! Document 01's calls on the unchanged upstream library.
//!
//! Only the accepted domain is the upstream's. BAD_ID, BAD_ROW, BAD_WORD,
//! EMPTY, TARGET and the 65th root are answered here, FRAME by `main`. The
//! other refusals are not given at all: upstream goes on, or panics.
use ndarray::ArrayView2;
use std::rc::Rc;
use triton_constraint_circuit::*;
use twenty_first::prelude::*;

use crate::calls::{Answer, Call, refusal};
use crate::nodes::{Expression, Node};

/// The row bytes of frame 01.
pub trait Rows: InputIndicator + 'static {
    fn of_row(row: u8, column: usize) -> Option<Self>;

    fn row(&self) -> u8 {
        u8::from(!self.is_main_table_column()) + 2 * u8::from(!self.is_current_row())
    }
}

impl Rows for SingleRowIndicator {
    fn of_row(row: u8, column: usize) -> Option<Self> {
        match row {
            0 => Some(Self::Main(column)),
            1 => Some(Self::Aux(column)),
            _ => None,
        }
    }
}

impl Rows for DualRowIndicator {
    fn of_row(row: u8, column: usize) -> Option<Self> {
        match row {
            0 => Some(Self::CurrentMain(column)),
            1 => Some(Self::CurrentAux(column)),
            2 => Some(Self::NextMain(column)),
            3 => Some(Self::NextAux(column)),
            _ => None,
        }
    }
}

pub const PLACES: usize = 512;
pub const ROOTS: usize = 64;

/// One circuit, whatever its row kind.
pub trait Circuit {
    fn call(&mut self, call: &Call) -> Answer;
    fn sum(&mut self, ids: &[u16]) -> Answer;
    fn node(&self, id: usize) -> Node;
    fn used(&self) -> usize;
    fn roots(&self) -> Vec<usize>;
    /// The records of a dump, see vectors/README.md. Cells of this seed that
    /// an earlier dump told are not told again.
    fn dump(&mut self, seed: u64) -> String;
}

/// A fresh circuit for the kind byte of frame 00.
pub fn start(kind: u8) -> Box<dyn Circuit> {
    match kind {
        1 => Box::new(Machine::<SingleRowIndicator>::new()),
        _ => Box::new(Machine::<DualRowIndicator>::new()),
    }
}

pub type Monad<II> = ConstraintCircuitMonad<II>;

pub struct Machine<II: Rows> {
    builder: ConstraintCircuitBuilder<II>,
    /// Every node ever made, by id: loose nodes stay usable.
    pub made: Vec<Monad<II>>,
    pub root_list: Vec<Monad<II>>,
    /// The seed of the tables, and how many nodes' cells were told.
    pub told: (u64, usize),
}

impl<II: Rows> Drop for Machine<II> {
    fn drop(&mut self) {
        self.builder.spy_forget_all();
    }
}

impl<II: Rows> Machine<II> {
    pub fn new() -> Self {
        Self {
            builder: ConstraintCircuitBuilder::new(),
            made: vec![],
            root_list: vec![],
            told: (0, 0),
        }
    }

    pub fn is_registered(&self, id: usize) -> bool {
        self.builder.spy_registered(id as u64).is_some()
    }

    /// Keep a handle to what the last call made. A lowering never makes a node
    /// loose that it made itself, so all of it is still registered.
    fn note(&mut self) {
        for id in self.made.len() as u64..self.builder.spy_id_counter() {
            let node = self.builder.spy_registered(id).expect("made and gone");
            assert_eq!(id, node.circuit.borrow().id);
            self.made.push(node);
        }
    }

    fn id_answer(&mut self, node: Monad<II>) -> Answer {
        self.note();
        let id = node.circuit.borrow().id;
        assert!(Rc::ptr_eq(&node.circuit, &self.made[id as usize].circuit));
        Answer::Id(id)
    }

    fn get(&self, id: u16) -> Result<Monad<II>, Answer> {
        let node = self.made.get(usize::from(id)).cloned();
        node.ok_or(Answer::Refused(refusal::BAD_ID))
    }

    /// The new node, or an early answer.
    fn build(&self, call: &Call) -> Result<Monad<II>, Answer> {
        Ok(match *call {
            Call::Input { row, column } => {
                let input = II::of_row(row, usize::from(column));
                self.builder
                    .input(input.ok_or(Answer::Refused(refusal::BAD_ROW))?)
            }
            Call::Challenge(index) => self.builder.challenge(index),
            Call::Base(value) => self.builder.b_constant(word(value)?),
            Call::Extension([a, b, c]) => {
                let words = [word(a)?, word(b)?, word(c)?];
                self.builder.x_constant(XFieldElement::new(words))
            }
            Call::Add(left, right) => self.get(left)? + self.get(right)?,
            Call::Multiply(left, right) => self.get(left)? * self.get(right)?,
            Call::Subtract(left, right) => self.get(left)? - self.get(right)?,
            Call::Negate(id) => -self.get(id)?,
            _ => return Err(Answer::Refused(refusal::FRAME)),
        })
    }

    fn add_root(&mut self, id: u16) -> Answer {
        match self.get(id) {
            Err(refused) => refused,
            Ok(_) if self.root_list.len() == ROOTS => Answer::Refused(refusal::NO_ROOM),
            Ok(root) => {
                self.root_list.push(root);
                Answer::Done
            }
        }
    }

    fn lower(&mut self, info: DegreeLoweringInfo) -> Answer {
        if info.target_degree < 2 {
            return Answer::Refused(refusal::TARGET);
        }
        let (main, aux) = Monad::lower_to_degree(&mut self.root_list, info);
        self.note();
        let ids = |list: Vec<Monad<II>>| list.iter().map(|m| m.circuit.borrow().id).collect();
        Answer::Lists(ids(main), ids(aux))
    }

    /// Tables of two rows, as wide as given; a single-row circuit reads the first.
    pub fn evaluate(node: &Monad<II>, tables: &Tables) -> XFieldElement {
        let main = ArrayView2::from_shape((2, tables.main.len() / 2), &tables.main).unwrap();
        let aux = ArrayView2::from_shape((2, tables.aux.len() / 2), &tables.aux).unwrap();
        let circuit = node.circuit.borrow();
        circuit.evaluate(main, aux, &tables.challenges)
    }
}

/// What a circuit is evaluated on.
#[derive(Debug, Default)]
pub struct Tables {
    pub main: Vec<BFieldElement>,
    pub aux: Vec<XFieldElement>,
    pub challenges: Vec<XFieldElement>,
}

fn word(value: u64) -> Result<BFieldElement, Answer> {
    if value < BFieldElement::P {
        Ok(BFieldElement::new(value))
    } else {
        Err(Answer::Refused(refusal::BAD_WORD))
    }
}

impl<II: Rows> Circuit for Machine<II> {
    fn call(&mut self, call: &Call) -> Answer {
        match *call {
            Call::Root(id) => self.add_root(id),
            Call::Lower { target, main, aux } => self.lower(DegreeLoweringInfo {
                target_degree: isize::try_from(target).unwrap(),
                num_main_cols: usize::from(main),
                num_aux_cols: usize::from(aux),
            }),
            _ => match self.build(call) {
                Err(early) => early,
                Ok(node) => self.id_answer(node),
            },
        }
    }

    fn sum(&mut self, ids: &[u16]) -> Answer {
        if ids.is_empty() {
            return Answer::Refused(refusal::EMPTY);
        }
        let nodes: Result<Vec<_>, _> = ids.iter().map(|&id| self.get(id)).collect();
        match nodes {
            Err(refused) => refused,
            Ok(nodes) => self.id_answer(nodes.into_iter().sum()),
        }
    }

    fn node(&self, id: usize) -> Node {
        let circuit = self.made[id].circuit.borrow();
        let id_of =
            |node: &Rc<std::cell::RefCell<ConstraintCircuit<II>>>| node.borrow().id as usize;
        Node {
            registered: self.is_registered(id),
            expression: match &circuit.expression {
                CircuitExpression::BConst(b) => Expression::Base(b.value()),
                CircuitExpression::XConst(x) => {
                    Expression::Extension(x.coefficients.map(|c| c.value()))
                }
                CircuitExpression::Challenge(index) => Expression::Challenge(*index),
                CircuitExpression::Input(input) => Expression::Input {
                    row: input.row(),
                    column: input.column(),
                },
                CircuitExpression::BinOp(BinOp::Add, l, r) => Expression::Add(id_of(l), id_of(r)),
                CircuitExpression::BinOp(BinOp::Mul, l, r) => {
                    Expression::Multiply(id_of(l), id_of(r))
                }
            },
        }
    }

    fn used(&self) -> usize {
        self.made.len()
    }

    fn roots(&self) -> Vec<usize> {
        let ids = self
            .root_list
            .iter()
            .map(|r| r.circuit.borrow().id as usize);
        ids.collect()
    }

    fn dump(&mut self, seed: u64) -> String {
        crate::dump::dump(self, seed)
    }
}
