//! Document 01's frames as values: bytes to call, call to bytes, answer to text.
use std::fmt::Write;

/// One frame. Operands are ids; words may still be out of range.
#[derive(Debug, Clone, Copy, PartialEq, Eq)]
pub enum Call {
    Start(u8),
    Input { row: u8, column: u16 },
    Challenge(u16),
    Base(u64),
    Extension([u64; 3]),
    Add(u16, u16),
    Multiply(u16, u16),
    Subtract(u16, u16),
    Negate(u16),
    Root(u16),
    Lower { target: u16, main: u16, aux: u16 },
}

impl Call {
    /// The frame's bytes, or nothing where document 01 says FRAME.
    pub fn parse(bytes: &[u8]) -> Option<Self> {
        let (&opcode, rest) = bytes.split_first()?;
        let half = |at: usize| u16::from_be_bytes([rest[at], rest[at + 1]]);
        let word = |at: usize| u64::from_be_bytes(rest[at..at + 8].try_into().unwrap());
        Some(match (opcode, rest.len()) {
            (0, 1) if matches!(rest[0], 1 | 2) => Self::Start(rest[0]),
            (1, 3) if rest[0] < 4 => Self::Input {
                row: rest[0],
                column: half(1),
            },
            (2, 2) => Self::Challenge(half(0)),
            (3, 8) => Self::Base(word(0)),
            (4, 24) => Self::Extension([word(0), word(8), word(16)]),
            (5, 4) => Self::Add(half(0), half(2)),
            (6, 4) => Self::Multiply(half(0), half(2)),
            (7, 4) => Self::Subtract(half(0), half(2)),
            (8, 2) => Self::Negate(half(0)),
            (9, 2) => Self::Root(half(0)),
            (10, 6) => Self::Lower {
                target: half(0),
                main: half(2),
                aux: half(4),
            },
            _ => return None,
        })
    }

    /// The frame as a line of hexadecimal.
    pub fn hex(&self) -> String {
        match *self {
            Self::Start(kind) => format!("00{kind:02x}"),
            Self::Input { row, column } => format!("01{row:02x}{column:04x}"),
            Self::Challenge(index) => format!("02{index:04x}"),
            Self::Base(word) => format!("03{word:016x}"),
            Self::Extension([a, b, c]) => format!("04{a:016x}{b:016x}{c:016x}"),
            Self::Add(left, right) => format!("05{left:04x}{right:04x}"),
            Self::Multiply(left, right) => format!("06{left:04x}{right:04x}"),
            Self::Subtract(left, right) => format!("07{left:04x}{right:04x}"),
            Self::Negate(id) => format!("08{id:04x}"),
            Self::Root(id) => format!("09{id:04x}"),
            Self::Lower { target, main, aux } => format!("0a{target:04x}{main:04x}{aux:04x}"),
        }
    }
}

/// Document 01's refusals that the oracle itself gives.
pub mod refusal {
    pub const BAD_ID: u8 = 2;
    pub const BAD_ROW: u8 = 3;
    pub const BAD_WORD: u8 = 5;
    pub const EMPTY: u8 = 7;
    pub const TARGET: u8 = 8;
    pub const NO_ROOM: u8 = 13;
    pub const REPEAT: u8 = 14;
    pub const FRAME: u8 = 16;
}

#[derive(Debug, Clone, PartialEq, Eq)]
pub enum Answer {
    Done,
    Id(u64),
    Lists(Vec<u64>, Vec<u64>),
    Refused(u8),
}

impl Answer {
    /// The answer as a line of hexadecimal.
    pub fn hex(&self) -> String {
        match self {
            Self::Done => "00".into(),
            Self::Id(id) => format!("00{id:04x}"),
            Self::Lists(main, aux) => {
                let mut text = format!("00{:04x}{:04x}", main.len(), aux.len());
                for id in main.iter().chain(aux) {
                    write!(text, "{id:04x}").unwrap();
                }
                text
            }
            Self::Refused(number) => format!("{number:02x}"),
        }
    }
}

/// Lower-case hexadecimal, two digits a byte; nothing else, and not nothing.
pub fn unhex(line: &[u8]) -> Option<Vec<u8>> {
    let digit = |c: u8| match c {
        b'0'..=b'9' => Some(c - b'0'),
        b'a'..=b'f' => Some(c - b'a' + 10),
        _ => None,
    };
    if line.is_empty() || line.len() % 2 == 1 {
        return None;
    }
    line.chunks(2)
        .map(|pair| Some(digit(pair[0])? * 16 + digit(pair[1])?))
        .collect()
}
