//! What goes in and comes out: ids, rows, nodes, tables, refusals.
use std::fmt;

/// A node, by the number that its circuit gave it. Only the circuit that answered it knows what it means; any other refuses it, or reads a node of
/// its own.
#[repr(transparent)]
#[derive(Debug, Clone, Copy, PartialEq, Eq, PartialOrd, Ord, Hash)]
pub struct Id(pub u64);

impl fmt::Display for Id {
    fn fmt(&self, f: &mut fmt::Formatter) -> fmt::Result {
        self.0.fmt(f)
    }
}

/// Whether constraints see one row of the table, or two neighbours. It is fixed when a circuit starts.
#[derive(Debug, Clone, Copy, PartialEq, Eq, Hash)]
pub enum RowKind {
    Single = 1,
    Dual = 2,
}

/// Where an input stands. The last two are rows of a dual-row circuit only.
#[derive(Debug, Clone, Copy, PartialEq, Eq, Hash)]
pub enum Row {
    Main = 0,
    Aux = 1,
    NextMain = 2,
    NextAux = 3,
}

/// What a node is.
#[derive(Debug, Clone, Copy, PartialEq, Eq, Hash)]
pub enum Expression {
    Base(u64),
    Extension([u64; 3]),
    Challenge(u64),
    Add(Id, Id),
    Multiply(Id, Id),
    Input(Row, u64),
}

impl Expression {
    pub(crate) fn of(words: &[u64; 6]) -> Self {
        let [kind, a, b, c, ..] = *words;
        match kind {
            0 => Self::Base(a),
            1 => Self::Extension([a, b, c]),
            2 => Self::Challenge(a),
            3 => Self::Add(Id(a), Id(b)),
            4 => Self::Multiply(Id(a), Id(b)),
            5 => Self::Input(Row::Main, a),
            6 => Self::Input(Row::Aux, a),
            7 => Self::Input(Row::NextMain, a),
            _ => Self::Input(Row::NextAux, a),
        }
    }
}

/// A node as it is read. It is registered until a lowering substitutes it; then it is loose, but may still be used.
#[derive(Debug, Clone, Copy, PartialEq, Eq, Hash)]
pub struct Node {
    pub expression: Expression,
    pub registered: bool,
    pub references: u64,
}

/// What a node is evaluated on: one word a main column, three an auxiliary column or a challenge. Tables of a dual-row circuit hold two rows, the
/// next row the second half.
#[derive(Debug, Clone, Copy, Default)]
pub struct Tables<'a> {
    pub main: &'a [u64],
    pub aux: &'a [u64],
    pub challenges: &'a [u64],
}

/// Rows whose new columns are filled: tables as [`Tables`] has them, with so many columns a row as there are in all. What stood in the new cells
/// doesn't matter; all other words are only read.
#[derive(Debug, Default)]
pub struct Rows<'a> {
    pub main: &'a mut [u64],
    pub aux: &'a mut [u64],
    pub challenges: &'a [u64],
}

/// The constraints that a lowering added. Constraint k of a list belongs to the column count + k.
#[derive(Debug, Clone, PartialEq, Eq)]
pub struct Lowered {
    pub main: Vec<Id>,
    pub aux: Vec<Id>,
}

macro_rules! refusals {
    ($($name:ident = $number:literal, $code:literal, $meaning:literal;)*) => {
        /// Why a call was refused, by document 01's numbers. A refusal changed nothing.
        #[derive(Debug, Clone, Copy, PartialEq, Eq, Hash)]
        #[repr(u64)]
        pub enum Refusal {
            $(#[doc = $meaning] $name = $number,)*
        }

        impl Refusal {
            /// All of them, in the order of their numbers.
            pub const ALL: &'static [Refusal] = &[$(Refusal::$name),*];

            /// Document 01's name, as `NOT_CIRCUIT`.
            pub fn name(self) -> &'static str {
                match self { $(Refusal::$name => $code,)* }
            }

            fn meaning(self) -> &'static str {
                match self { $(Refusal::$name => $meaning,)* }
            }
        }
    };
}

refusals! {
    NotCircuit = 1, "NOT_CIRCUIT", "the words are no circuit";
    BadId = 2, "BAD_ID", "an id not below the used count";
    BadRow = 3, "BAD_ROW", "an input of the other row kind";
    BadIndex = 4, "BAD_INDEX", "a column or challenge over 65,535";
    BadWord = 5, "BAD_WORD", "a word at or above p";
    Full = 6, "FULL", "more new nodes needed than free places; lowering: fewer than 3·M free";
    Empty = 7, "EMPTY", "the sum of no ids";
    Target = 8, "TARGET", "a target below 2";
    Columns = 9, "COLUMNS", "lowering: a used input, of either row, at or above its count, or a count + M over 65,536";
    Loose = 10, "LOOSE", "lowering: a loose node below a root, or a loose root";
    Degree = 11, "DEGREE", "a degree over 2,147,483,647";
    Paths = 12, "PATHS", "a path count over 4,294,967,295";
    NoRoom = 13, "NO_ROOM", "a list or the walk stack is too short";
    Repeat = 14, "REPEAT", "a root named twice, or lying below another root";
    Table = 15, "TABLE", "a table whose length doesn't fit its layout, or a read beyond it";
    Frame = 16, "FRAME", "of the frame program only";
    NotLowered = 17, "NOT_LOWERED", "fill: a listed node is not its column plus -1 times an expression that can be worked out yet";
}

impl Refusal {
    /// Document 01's number.
    pub fn number(self) -> u64 {
        self as u64
    }

    /// The refusal of a number that a call returned, or nothing for 0.
    pub fn of(number: u64) -> Option<Self> {
        Self::ALL.iter().copied().find(|refusal| refusal.number() == number)
    }
}

impl fmt::Display for Refusal {
    fn fmt(&self, f: &mut fmt::Formatter) -> fmt::Result {
        write!(f, "{}: {}", self.name(), self.meaning())
    }
}

impl std::error::Error for Refusal {}
