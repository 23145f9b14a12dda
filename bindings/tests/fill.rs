//! Request 1: the new columns of rows, and every refusal of a fill.
use atzunelca::*;

/// x⁴ of document 01, lowered to 2: the new column 1 is x², its constraint the node 6.
fn fourth() -> (Circuit, Lowered) {
    let mut circuit = Circuit::new(RowKind::Single, 64);
    let x = circuit.input(Row::Main, 0).unwrap();
    let square = circuit.multiply(x, x).unwrap();
    let mut roots = [circuit.multiply(square, square).unwrap()];
    let lowered = circuit.lower(&mut roots, 2, 1, 0).unwrap();
    (circuit, lowered)
}

const MAINS: u64 = 2;
const AUXS: u64 = 1;

/// A dual-row circuit with both lists: main columns 0 and 1, auxiliary column 0, challenge 0. Its roots before and after, the circuit before and after.
struct Steps {
    old: Circuit,
    old_roots: Vec<Id>,
    circuit: Circuit,
    roots: Vec<Id>,
    lowered: Lowered,
}

fn steps() -> Steps {
    let mut circuit = Circuit::new(RowKind::Dual, 256);
    let [x, y] = [0, 1].map(|column| circuit.input(Row::Main, column).unwrap());
    let next = circuit.input(Row::NextMain, 0).unwrap();
    let a = circuit.input(Row::Aux, 0).unwrap();
    let next_a = circuit.input(Row::NextAux, 0).unwrap();
    let alpha = circuit.challenge(0).unwrap();
    let power = |circuit: &mut Circuit, base: Id, exponent: u32| {
        (1..exponent).fold(base, |power, _| circuit.multiply(power, base).unwrap())
    };
    let stepped = power(&mut circuit, x, 5);
    let weighed = circuit.multiply(stepped, y).unwrap();
    let first = circuit.subtract(next, weighed).unwrap();
    let distance = circuit.subtract(alpha, next).unwrap();
    let cube = power(&mut circuit, distance, 3);
    let logged = circuit.multiply(cube, a).unwrap();
    let logged = circuit.multiply(logged, weighed).unwrap();
    let second = circuit.subtract(next_a, logged).unwrap();
    let old_roots = vec![first, second];
    let (old, mut roots) = (circuit.clone(), old_roots.clone());
    let lowered = circuit.lower(&mut roots, 2, MAINS, AUXS).unwrap();
    Steps { old, old_roots, circuit, roots, lowered }
}

/// A trace's words: any below p, new cells too.
struct Trace {
    rows: usize,
    widths: [usize; 2],
    main: Vec<u64>,
    aux: Vec<u64>,
}

const CHALLENGES: [u64; 3] = [1000, 1, P - 1];

impl Trace {
    fn new(lowered: &Lowered, rows: usize) -> Self {
        let widths = [MAINS as usize + lowered.main.len(), AUXS as usize + lowered.aux.len()];
        let mut word = 1u64;
        let mut words = |count: usize| -> Vec<u64> {
            let next = |_| {
                word = word.wrapping_mul(6364136223846793005).wrapping_add(1442695040888963407);
                word % P
            };
            (0..count).map(next).collect()
        };
        let (main, aux) = (words(rows * widths[0]), words(rows * 3 * widths[1]));
        Trace { rows, widths, main, aux }
    }

    fn tables(&mut self) -> Rows<'_> {
        Rows { main: &mut self.main, aux: &mut self.aux, challenges: &CHALLENGES }
    }

    /// Row r and the next.
    fn window(&self, r: usize) -> Tables<'_> {
        let [a, b] = self.widths;
        Tables { main: &self.main[r * a..][..2 * a], aux: &self.aux[r * 3 * b..][..6 * b], challenges: &CHALLENGES }
    }

    /// The old columns of row r and the next.
    fn old_window(&self, r: usize) -> [Vec<u64>; 2] {
        let [a, b] = self.widths;
        let rows = [r, r + 1];
        [
            rows.map(|r| &self.main[r * a..][..MAINS as usize]).concat(),
            rows.map(|r| &self.aux[3 * r * b..][..3 * AUXS as usize]).concat(),
        ]
    }
}

#[test]
fn three_becomes_nine() {
    let (circuit, lowered) = fourth();
    let mut main = [3, P]; // a cell to be filled may hold anything
    circuit.fill(&lowered, 1, 0, Rows { main: &mut main, ..Rows::default() }).unwrap();
    assert_eq!([3, 9], main);
    let mut main = [3, 0, 8, 4, 0, 8, 5, 0, 8];
    circuit.fill_rows(&lowered, 1, 0, 3, Rows { main: &mut main, ..Rows::default() }).unwrap();
    assert_eq!([3, 9, 8, 4, 16, 8, 5, 25, 8], main);
}

#[test]
fn every_constraint_is_zero() {
    let Steps { old, old_roots, circuit, roots, lowered } = steps();
    assert!(lowered.main.len() > 1 && lowered.aux.len() > 1, "{lowered:?}");
    let mut trace = Trace::new(&lowered, 9);
    let before = [trace.main.clone(), trace.aux.clone()];
    circuit.fill_rows(&lowered, MAINS, AUXS, 9, trace.tables()).unwrap();
    for r in 0..8 {
        let window = trace.window(r);
        for &constraint in lowered.main.iter().chain(&lowered.aux) {
            assert_eq!([0; 3], circuit.evaluate(constraint, window).unwrap());
        }
        let [main, aux] = trace.old_window(r);
        let given = Tables { main: &main, aux: &aux, challenges: &CHALLENGES };
        for (&root, &was) in roots.iter().zip(&old_roots) {
            assert_eq!(old.evaluate(was, given), circuit.evaluate(root, window));
        }
    }
    // All other words stay: the old columns, and the last row, which is only read.
    for (words, (now, then)) in [1, 3].iter().zip([&trace.main, &trace.aux].into_iter().zip(&before)) {
        let width = now.len() / trace.rows;
        let count = if *words == 1 { MAINS as usize } else { 3 * AUXS as usize };
        for at in 0..now.len() {
            if at / width == 8 || at % width < count {
                assert_eq!(then[at], now[at]);
            }
        }
    }
}

#[test]
fn one_row_is_filled_as_many() {
    let Steps { circuit, lowered, .. } = steps();
    let mut trace = Trace::new(&lowered, 6);
    let mut alone = Trace::new(&lowered, 6);
    circuit.fill_rows(&lowered, MAINS, AUXS, 6, trace.tables()).unwrap();
    let [a, b] = alone.widths;
    for r in (0..5).rev() {
        let (main, aux) = (&mut alone.main[r * a..][..2 * a], &mut alone.aux[r * 3 * b..][..6 * b]);
        circuit.fill(&lowered, MAINS, AUXS, Rows { main, aux, challenges: &CHALLENGES }).unwrap();
    }
    assert_eq!((trace.main, trace.aux), (alone.main, alone.aux));
}

#[test]
fn main_first_auxiliary_later() {
    let Steps { circuit, lowered, .. } = steps();
    let mut whole = Trace::new(&lowered, 5);
    let mut parts = Trace::new(&lowered, 5);
    circuit.fill_rows(&lowered, MAINS, AUXS, 5, whole.tables()).unwrap();
    let mains = Lowered { main: lowered.main.clone(), aux: vec![] };
    circuit.fill_rows(&mains, MAINS, 0, 5, Rows { main: &mut parts.main, ..Rows::default() }).unwrap();
    let auxs = Lowered { main: vec![], aux: lowered.aux.clone() };
    let filled = MAINS + lowered.main.len() as u64;
    circuit.fill_rows(&auxs, filled, AUXS, 5, parts.tables()).unwrap();
    assert_eq!((whole.main, whole.aux), (parts.main, parts.aux));
}

/// The refusal of one row of x⁴, whose table it leaves as it was.
fn refused(list: &[Id], main: &[u64], challenges: &[u64]) -> Refusal {
    let (circuit, _) = fourth();
    let mut now = main.to_vec();
    let lowered = Lowered { main: list.to_vec(), aux: vec![] };
    let answer = circuit.fill(&lowered, 1, 0, Rows { main: &mut now, aux: &mut [], challenges });
    assert_eq!(main, now);
    let rows = circuit.fill_rows(&lowered, 1, 0, 1, Rows { main: &mut now, aux: &mut [], challenges });
    assert_eq!(main, now);
    assert_eq!(answer, rows);
    answer.unwrap_err()
}

#[test]
fn refusals_in_their_order() {
    // Each call would also be refused for what stands below it.
    assert_eq!(Refusal::BadId, refused(&[Id(99)], &[P], &[P]));
    assert_eq!(Refusal::Table, refused(&[Id(2)], &[P], &[P, 0, 0]));
    assert_eq!(Refusal::Table, refused(&[Id(2)], &[P, 0], &[P]));
    assert_eq!(Refusal::BadWord, refused(&[Id(2)], &[P, 0], &[]));
    assert_eq!(Refusal::BadWord, refused(&[Id(6)], &[3, 0, P], &[]));
    assert_eq!(Refusal::BadWord, refused(&[Id(6)], &[3, 0], &[0, 0, P]));
    assert_eq!(Refusal::NotLowered, refused(&[Id(2)], &[3, 7], &[]));
    assert_eq!(Refusal::NotLowered, refused(&[Id(6), Id(6)], &[3, 7, 7], &[]));
}

#[test]
fn words_that_are_no_circuit() {
    let (circuit, lowered) = fourth();
    let mut m = circuit.words().to_vec();
    m[2 + 4] = 7; // an unknown mark
    let list: Vec<u64> = lowered.main.iter().map(|id| id.0).collect();
    let (mut main, mut aux, none) = ([P], [P], [0u64; 0]);
    let (a, b, c) = (main.as_mut_ptr(), aux.as_mut_ptr(), none.as_ptr());
    for words in [m.len(), 1, 0] {
        let (p, l) = (m.as_ptr(), list.as_ptr());
        // SAFETY: slices of this function, none twice.
        let numbers = unsafe {
            [
                sys::atz_fill(p, words, l, list.len(), c, 0, 1, 0, a, 1, b, 1, c, 0),
                sys::atz_fill_rows(p, words, l, list.len(), c, 0, 1, 0, 1, a, 1, b, 1, c, 0),
            ]
        };
        assert_eq!([1, 1], numbers);
    }
    assert_eq!(([P], [P]), (main, aux));
}

#[test]
fn how_many_rows() {
    let (circuit, lowered) = fourth();
    let rows = |rows: u64, main: &mut [u64]| circuit.fill_rows(&lowered, 1, 0, rows, Rows { main, ..Rows::default() });
    let mut main = [3, 0, 4, 0];
    assert_eq!(Err(Refusal::Table), rows(0, &mut main));
    assert_eq!(Err(Refusal::Table), rows(3, &mut main));
    assert_eq!(Err(Refusal::Table), rows(4, &mut main));
    assert_eq!(Err(Refusal::Table), rows(u64::MAX, &mut main));
    assert_eq!([3, 0, 4, 0], main);
    assert_eq!(Ok(()), rows(2, &mut main));
    assert_eq!([3, 9, 4, 16], main);
    // Without a new column there is nothing to do, whatever the number of rows; of a dual-row circuit two are read.
    let nothing = Lowered { main: vec![], aux: vec![] };
    let Steps { circuit: dual, .. } = steps();
    let of = |circuit: &Circuit, rows: u64| circuit.fill_rows(&nothing, 0, 0, rows, Rows::default());
    assert_eq!([Ok(()), Ok(())], [&circuit, &dual].map(|circuit| of(circuit, u64::MAX)));
    assert_eq!([Ok(()), Err(Refusal::Table)], [&circuit, &dual].map(|circuit| of(circuit, 1)));
    assert_eq!([Err(Refusal::Table); 2], [&circuit, &dual].map(|circuit| of(circuit, 0)));
}

#[test]
fn nodes_built_since() {
    let (mut circuit, lowered) = fourth();
    let y = circuit.input(Row::Main, 9).unwrap();
    circuit.multiply(y, y).unwrap();
    let mut main = [3, 0];
    circuit.fill(&lowered, 1, 0, Rows { main: &mut main, ..Rows::default() }).unwrap();
    assert_eq!([3, 9], main);
}
