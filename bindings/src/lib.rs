//! Constraint circuits over the proved library Atzunelca.
//!
//! Constraints are sums and products over columns, constants and challenges. Equal nodes are shared, and [`Circuit::lower`] brings the degree of a
//! list of constraints down to a target by adding columns, each with a constraint of its own. [`Circuit::fill_rows`] fills those columns of a trace.
//! What each call answers is proved against executable definitions; this crate only passes slices and gives the answers types.
//!
//! ```
//! use atzunelca::{Circuit, Row, RowKind};
//! # fn main() -> Result<(), atzunelca::Refusal> {
//! let mut circuit = Circuit::new(RowKind::Single, 64);
//! let x = circuit.input(Row::Main, 0)?;
//! let square = circuit.multiply(x, x)?;
//! let mut roots = [circuit.multiply(square, square)?];
//! assert_eq!(4, circuit.degree(roots[0])?);
//!
//! let lowered = circuit.lower(&mut roots, 2, 1, 0)?;
//! assert_eq!(2, circuit.degree(roots[0])?);
//! assert_eq!(1, lowered.main.len()); // column 1 = x², by the constraint lowered.main[0]
//! # Ok(()) }
//! ```
//!
//! # Stack
//!
//! A call takes up to [`STACK`] bytes of the thread's stack, on the worst circuit. A thread that Rust starts has 2 MiB.
pub mod sys;
mod types;

pub use types::{Expression, Id, Lowered, Node, Refusal, Row, RowKind, Rows, Tables};

/// The most nodes that a circuit holds, whatever is lent.
pub const MOST_NODES: usize = 4096;

/// How much stack a thread should have left for a call.
pub const STACK: usize = 2 << 20;

/// p = 2^64 - 2^32 + 1: words of both fields are below it.
pub const P: u64 = 0xffff_ffff_0000_0001;

/// A circuit in words of its own.
#[derive(Clone, PartialEq, Eq)]
pub struct Circuit {
    words: Vec<u64>,
}

impl std::fmt::Debug for Circuit {
    fn fmt(&self, f: &mut std::fmt::Formatter) -> std::fmt::Result {
        f.debug_struct("Circuit").field("used", &self.used()).field("words", &self.words.len()).finish()
    }
}

/// The answer, where nothing was refused.
fn answered<T>(number: u64, value: T) -> Result<T, Refusal> {
    match number {
        0 => Ok(value),
        _ => Err(Refusal::of(number).expect("a refusal of document 01")),
    }
}

/// The numbers of ids.
fn numbers(ids: &[Id]) -> (*const u64, usize) {
    (ids.as_ptr().cast(), ids.len())
}

/// Calls that answer values into a few words. SAFETY of all: the slices are this crate's own vectors and arrays, or borrowed from the caller.
macro_rules! call {
    ($name:ident, $places:literal, $($argument:expr),*) => {{
        let mut out = [0u64; $places];
        let number = unsafe { sys::$name($($argument,)* out.as_mut_ptr(), out.len()) };
        answered(number, out)
    }};
}

impl Circuit {
    /// A circuit with no nodes, and room for so many; at most [`MOST_NODES`] are ever used.
    pub fn new(kind: RowKind, places: usize) -> Self {
        let mut words = vec![0; 2 + 6 * places];
        let refused = unsafe { sys::atz_start(words.as_mut_ptr(), words.len(), kind as u64) };
        assert_eq!(0, refused);
        Circuit { words }
    }

    /// The circuit that these words are, as [`Circuit::words`] gave them.
    pub fn from_words(words: Vec<u64>) -> Result<Self, Refusal> {
        let number = unsafe { sys::atz_is_circuit(words.as_ptr(), words.len()) };
        answered(number, Circuit { words })
    }

    /// The words, for memory that is kept or lent elsewhere.
    pub fn words(&self) -> &[u64] {
        &self.words
    }

    fn lent(&self) -> (*const u64, usize) {
        (self.words.as_ptr(), self.words.len())
    }

    fn changed(&mut self) -> (*mut u64, usize) {
        (self.words.as_mut_ptr(), self.words.len())
    }

    /// How many nodes there are; ids are the numbers below.
    pub fn used(&self) -> Result<u64, Refusal> {
        let (m, n) = self.lent();
        call!(atz_used, 1, m, n).map(|[count]| count)
    }

    /// How many more there is room for.
    pub fn free(&self) -> Result<u64, Refusal> {
        let (m, n) = self.lent();
        call!(atz_free, 1, m, n).map(|[count]| count)
    }

    /// A node by its id.
    pub fn node(&self, id: Id) -> Result<Node, Refusal> {
        let (m, n) = self.lent();
        let words = call!(atz_read, 6, m, n, id.0)?;
        Ok(Node { expression: Expression::of(&words), registered: words[4] == 1, references: words[5] })
    }

    /// Whether two nodes are equal by structure.
    pub fn equal(&self, i: Id, j: Id) -> Result<bool, Refusal> {
        let (m, n) = self.lent();
        call!(atz_equal, 1, m, n, i.0, j.0).map(|[yes]| yes == 1)
    }

    /// An input.
    pub fn input(&mut self, row: Row, column: u64) -> Result<Id, Refusal> {
        let (m, n) = self.changed();
        call!(atz_input, 1, m, n, row as u64, column).map(|[id]| Id(id))
    }

    /// A challenge.
    pub fn challenge(&mut self, index: u64) -> Result<Id, Refusal> {
        let (m, n) = self.changed();
        call!(atz_challenge, 1, m, n, index).map(|[id]| Id(id))
    }

    /// A base constant, a word below [`P`].
    pub fn constant(&mut self, word: u64) -> Result<Id, Refusal> {
        let (m, n) = self.changed();
        call!(atz_base_constant, 1, m, n, word).map(|[id]| Id(id))
    }

    /// The constant 0.
    pub fn zero(&mut self) -> Result<Id, Refusal> {
        let (m, n) = self.changed();
        call!(atz_zero, 1, m, n).map(|[id]| Id(id))
    }

    /// The constant 1.
    pub fn one(&mut self) -> Result<Id, Refusal> {
        let (m, n) = self.changed();
        call!(atz_one, 1, m, n).map(|[id]| Id(id))
    }

    /// The constant -1.
    pub fn minus_one(&mut self) -> Result<Id, Refusal> {
        let (m, n) = self.changed();
        call!(atz_minus_one, 1, m, n).map(|[id]| Id(id))
    }

    /// The extension constant c0 + c1·X + c2·X²; a base constant where c1 = c2 = 0.
    pub fn extension_constant(&mut self, [c0, c1, c2]: [u64; 3]) -> Result<Id, Refusal> {
        let (m, n) = self.changed();
        call!(atz_extension_constant, 1, m, n, c0, c1, c2).map(|[id]| Id(id))
    }

    pub fn add(&mut self, left: Id, right: Id) -> Result<Id, Refusal> {
        let (m, n) = self.changed();
        call!(atz_add, 1, m, n, left.0, right.0).map(|[id]| Id(id))
    }

    pub fn multiply(&mut self, left: Id, right: Id) -> Result<Id, Refusal> {
        let (m, n) = self.changed();
        call!(atz_multiply, 1, m, n, left.0, right.0).map(|[id]| Id(id))
    }

    /// left - right, as left + (-1)·right.
    pub fn subtract(&mut self, left: Id, right: Id) -> Result<Id, Refusal> {
        let (m, n) = self.changed();
        call!(atz_subtract, 1, m, n, left.0, right.0).map(|[id]| Id(id))
    }

    /// (-1)·a.
    pub fn negate(&mut self, a: Id) -> Result<Id, Refusal> {
        let (m, n) = self.changed();
        call!(atz_negate, 1, m, n, a.0).map(|[id]| Id(id))
    }

    /// The sum of one id or more, from the left.
    pub fn sum(&mut self, ids: &[Id]) -> Result<Id, Refusal> {
        let (m, n) = self.changed();
        let (list, count) = numbers(ids);
        call!(atz_sum, 1, m, n, list, count).map(|[id]| Id(id))
    }

    /// Whether a node is the constant 0.
    pub fn is_zero(&self, id: Id) -> Result<bool, Refusal> {
        let (m, n) = self.lent();
        call!(atz_is_zero, 1, m, n, id.0).map(|[yes]| yes == 1)
    }

    /// Whether a node is the constant 1.
    pub fn is_one(&self, id: Id) -> Result<bool, Refusal> {
        let (m, n) = self.lent();
        call!(atz_is_one, 1, m, n, id.0).map(|[yes]| yes == 1)
    }

    /// Whether a node is the constant -1.
    pub fn is_minus_one(&self, id: Id) -> Result<bool, Refusal> {
        let (m, n) = self.lent();
        call!(atz_is_minus_one, 1, m, n, id.0).map(|[yes]| yes == 1)
    }

    /// The degree of a node; the zero constant has -1.
    pub fn degree(&self, id: Id) -> Result<i64, Refusal> {
        let (m, n) = self.lent();
        call!(atz_degree, 1, m, n, id.0).map(|[degree]| degree as i64)
    }

    /// The highest degree of a list of roots; of no roots, -1.
    pub fn highest(&self, roots: &[Id]) -> Result<i64, Refusal> {
        let (m, n) = self.lent();
        let (list, count) = numbers(roots);
        call!(atz_highest, 1, m, n, list, count).map(|[degree]| degree as i64)
    }

    /// Whether a node is made of base constants and main inputs only, so that its value lies in the base field.
    pub fn base_test(&self, id: Id) -> Result<bool, Refusal> {
        let (m, n) = self.lent();
        call!(atz_base_test, 1, m, n, id.0).map(|[yes]| yes == 1)
    }

    /// A node's value on tables.
    pub fn evaluate(&self, id: Id, tables: Tables) -> Result<[u64; 3], Refusal> {
        let (m, n) = self.lent();
        let Tables { main, aux, challenges } = tables;
        let (a, b, c) = (main.as_ptr(), aux.as_ptr(), challenges.as_ptr());
        call!(atz_evaluate, 3, m, n, id.0, a, main.len(), b, aux.len(), c, challenges.len())
    }

    /// How many structural classes lie below the roots, roots included.
    pub fn visible(&self, roots: &[Id]) -> Result<u64, Refusal> {
        let (m, n) = self.lent();
        let (list, count) = numbers(roots);
        call!(atz_visible, 1, m, n, list, count).map(|[count]| count)
    }

    /// The in-order walk from each root after the other, along each path: at most `most` ids, else [`Refusal::NoRoom`]. A tree can have more places
    /// than any memory.
    pub fn walk(&self, roots: &[Id], most: usize) -> Result<Vec<Id>, Refusal> {
        let mut stack = vec![0u64; self.used()? as usize];
        let mut list = vec![0u64; most];
        let ((m, n), (r, count)) = (self.lent(), numbers(roots));
        let (l, s) = (list.as_mut_ptr(), stack.as_mut_ptr());
        let [found] = call!(atz_walk, 1, m, n, r, count, l, list.len(), s, stack.len())?;
        list.truncate(found as usize);
        Ok(list.into_iter().map(Id).collect())
    }

    /// Writes to each node below the roots how many paths lead there from the roots; [`Circuit::node`] reads it.
    pub fn count_references(&mut self, roots: &[Id]) -> Result<(), Refusal> {
        let ((m, n), (list, count)) = (self.changed(), numbers(roots));
        answered(unsafe { sys::atz_count_references(m, n, list, count) }, ())
    }

    /// The sorted distinct reference counts below a node.
    pub fn distinct_counts(&self, id: Id) -> Result<Vec<u64>, Refusal> {
        let (m, n) = self.lent();
        let mut list = vec![0u64; MOST_NODES];
        let [found] = call!(atz_distinct_counts, 1, m, n, id.0, list.as_mut_ptr(), list.len())?;
        list.truncate(found as usize);
        Ok(list)
    }

    /// Lowers the degree of the roots to the target, which is 2 or more. There are so many main and auxiliary columns so far; new ones follow them.
    /// A root that was substituted names its new input afterwards.
    pub fn lower(
        &mut self,
        roots: &mut [Id],
        target: u64,
        main_count: u64,
        aux_count: u64,
    ) -> Result<Lowered, Refusal> {
        let (m, n) = self.changed();
        let mut lists = [vec![0u64; MOST_NODES], vec![0u64; MOST_NODES]];
        let [main, aux] = &mut lists;
        let (a, b) = (main.as_mut_ptr(), aux.as_mut_ptr());
        let r = roots.as_mut_ptr().cast();
        let counts =
            call!(atz_lower, 2, m, n, r, roots.len(), target, main_count, aux_count, a, main.len(), b, aux.len())?;
        let [main, aux] = [0, 1].map(|k| lists[k][..counts[k] as usize].iter().copied().map(Id).collect());
        Ok(Lowered { main, aux })
    }

    /// Computes the new columns of one row, from the lists and the counts of a lowering; of a dual-row circuit both rows are given, and the current
    /// one is filled. Where the lists are those of the circuit's latest lowering, no other words make every listed constraint zero.
    ///
    /// Main columns can be filled before there are challenges: with an empty auxiliary list, an auxiliary count of 0 and no auxiliary words; the
    /// auxiliary ones later, with the filled main columns counted as old.
    ///
    /// ```
    /// # use atzunelca::{Circuit, Row, RowKind, Rows};
    /// # fn main() -> Result<(), atzunelca::Refusal> {
    /// let mut circuit = Circuit::new(RowKind::Single, 64);
    /// let x = circuit.input(Row::Main, 0)?;
    /// let square = circuit.multiply(x, x)?;
    /// let fourth = circuit.multiply(square, square)?;
    /// let lowered = circuit.lower(&mut [fourth], 2, 1, 0)?;
    ///
    /// let mut main = [3, 0];
    /// circuit.fill(&lowered, 1, 0, Rows { main: &mut main, ..Rows::default() })?;
    /// assert_eq!([3, 9], main);
    /// # Ok(()) }
    /// ```
    pub fn fill(&self, lowered: &Lowered, main_count: u64, aux_count: u64, row: Rows) -> Result<(), Refusal> {
        let ((m, n), (l, news), (k, knews)) = (self.lent(), numbers(&lowered.main), numbers(&lowered.aux));
        let Rows { main, aux, challenges } = row;
        let (a, b, c) = (main.as_mut_ptr(), aux.as_mut_ptr(), challenges.as_ptr());
        let (x, y, z) = (main.len(), aux.len(), challenges.len());
        // SAFETY: borrowed slices, and those that are written are borrowed alone.
        let number = unsafe { sys::atz_fill(m, n, l, news, k, knews, main_count, aux_count, a, x, b, y, c, z) };
        answered(number, ())
    }

    /// The same for so many rows, one after the other: the circuit and the lists are checked once. A dual-row circuit reads the row after as the next
    /// row, and fills all but the last.
    pub fn fill_rows(
        &self,
        lowered: &Lowered,
        main_count: u64,
        aux_count: u64,
        rows: u64,
        tables: Rows,
    ) -> Result<(), Refusal> {
        let ((m, n), (l, news), (k, knews)) = (self.lent(), numbers(&lowered.main), numbers(&lowered.aux));
        let Rows { main, aux, challenges } = tables;
        let (a, b, c) = (main.as_mut_ptr(), aux.as_mut_ptr(), challenges.as_ptr());
        let (x, y, z) = (main.len(), aux.len(), challenges.len());
        // SAFETY: as above.
        let number =
            unsafe { sys::atz_fill_rows(m, n, l, news, k, knews, main_count, aux_count, rows, a, x, b, y, c, z) };
        answered(number, ())
    }
}
