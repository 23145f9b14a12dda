//! Whole traces: a single-row and a dual-row circuit are built and lowered, the new columns of 1,000 rows are filled by one call each, and every
//! constraint and every root is evaluated on every row.
//!
//! The single-row circuit says that y = x⁷ and that the log is (challenge - x)³, so each row stands alone. In the dual-row one x' = x⁵ + y, y' = x,
//! and the log takes the factor (challenge - x')² a step. Either trace meets its roots, so all of them must be zero, and one wrong cell must show.
use atzunelca::{Circuit, Id, Lowered, Refusal, Row, RowKind, Rows, Tables, P};

const ROWS: usize = 1000;
const ALPHA: [u64; 3] = [1000, 0, 0];

/// Old columns: x and y, and the log.
const MAINS: usize = 2;
const AUXS: usize = 1;

fn times(a: u64, b: u64) -> u64 {
    (u128::from(a) * u128::from(b) % u128::from(P)) as u64
}

fn plus(a: u64, b: u64) -> u64 {
    ((u128::from(a) + u128::from(b)) % u128::from(P)) as u64
}

fn minus(a: u64, b: u64) -> u64 {
    plus(a, P - b)
}

fn to_the(base: u64, exponent: u32) -> u64 {
    (1..exponent).fold(base, |power, _| times(power, base))
}

fn power(circuit: &mut Circuit, base: Id, exponent: u32) -> Result<Id, Refusal> {
    let mut power = base;
    for _ in 1..exponent {
        power = circuit.multiply(power, base)?;
    }
    Ok(power)
}

fn single(circuit: &mut Circuit) -> Result<Vec<Id>, Refusal> {
    let x = circuit.input(Row::Main, 0)?;
    let y = circuit.input(Row::Main, 1)?;
    let log = circuit.input(Row::Aux, 0)?;
    let alpha = circuit.challenge(0)?;
    let seventh = power(circuit, x, 7)?;
    let distance = circuit.subtract(alpha, x)?;
    let cube = power(circuit, distance, 3)?;
    Ok(vec![circuit.subtract(y, seventh)?, circuit.subtract(log, cube)?])
}

fn dual(circuit: &mut Circuit) -> Result<Vec<Id>, Refusal> {
    let x = circuit.input(Row::Main, 0)?;
    let y = circuit.input(Row::Main, 1)?;
    let next_x = circuit.input(Row::NextMain, 0)?;
    let next_y = circuit.input(Row::NextMain, 1)?;
    let log = circuit.input(Row::Aux, 0)?;
    let next_log = circuit.input(Row::NextAux, 0)?;
    let alpha = circuit.challenge(0)?;
    let fifth = power(circuit, x, 5)?;
    let stepped = circuit.add(fifth, y)?;
    let distance = circuit.subtract(alpha, next_x)?;
    let square = power(circuit, distance, 2)?;
    let logged = circuit.multiply(log, square)?;
    Ok(vec![circuit.subtract(next_x, stepped)?, circuit.subtract(next_y, x)?, circuit.subtract(next_log, logged)?])
}

/// x, y and the log of each row.
fn cells(kind: RowKind) -> Vec<[u64; 3]> {
    let mut row = [3, 5, 1];
    let step = |k: usize| {
        let [x, y, log] = row;
        row = match kind {
            RowKind::Single => {
                let x = to_the(k as u64 + 2, 9);
                [x, to_the(x, 7), to_the(minus(ALPHA[0], x), 3)]
            }
            RowKind::Dual if k == 0 => row,
            RowKind::Dual => {
                let next = plus(to_the(x, 5), y);
                [next, x, times(log, to_the(minus(ALPHA[0], next), 2))]
            }
        };
        row
    };
    (0..ROWS).map(step).collect()
}

/// How many constraints and roots are not zero, over all rows; and how many were evaluated.
fn broken(circuit: &Circuit, read: usize, all: &[Id], main: &[u64], aux: &[u64]) -> Result<[usize; 2], Refusal> {
    let (a, b) = (main.len() / ROWS, aux.len() / ROWS);
    let mut told = [0; 2];
    for r in 0..=ROWS - read {
        let tables = Tables { main: &main[r * a..][..read * a], aux: &aux[r * b..][..read * b], challenges: &ALPHA };
        for &id in all {
            told[0] += usize::from(circuit.evaluate(id, tables)? != [0; 3]);
            told[1] += 1;
        }
    }
    Ok(told)
}

fn trace(name: &str, kind: RowKind, build: fn(&mut Circuit) -> Result<Vec<Id>, Refusal>) -> Result<(), Refusal> {
    let mut circuit = Circuit::new(kind, 256);
    let mut roots = build(&mut circuit)?;
    let lowered: Lowered = circuit.lower(&mut roots, 2, MAINS as u64, AUXS as u64)?;
    let (a, b) = (MAINS + lowered.main.len(), 3 * (AUXS + lowered.aux.len()));
    let (mut main, mut aux) = (vec![0; ROWS * a], vec![0; ROWS * b]);
    for (r, [x, y, log]) in cells(kind).into_iter().enumerate() {
        main[r * a..][..MAINS].copy_from_slice(&[x, y]);
        aux[r * b] = log;
    }

    let rows = Rows { main: &mut main, aux: &mut aux, challenges: &ALPHA };
    circuit.fill_rows(&lowered, MAINS as u64, AUXS as u64, ROWS as u64, rows)?;

    let all: Vec<Id> = roots.iter().chain(&lowered.main).chain(&lowered.aux).copied().collect();
    let [wrong, evaluated] = broken(&circuit, kind as usize, &all, &main, &aux)?;
    println!(
        "{name}: {ROWS} rows, new columns {} main, {} auxiliary; {evaluated} values, {wrong} not zero",
        lowered.main.len(),
        lowered.aux.len()
    );
    assert_eq!(0, wrong);

    let last_filled = (ROWS - kind as usize) * a + a - 1;
    main[last_filled] = plus(main[last_filled], 1);
    assert!(broken(&circuit, kind as usize, &all, &main, &aux)?[0] > 0);
    Ok(())
}

fn main() -> Result<(), Refusal> {
    trace("single-row", RowKind::Single, single)?;
    trace("dual-row", RowKind::Dual, dual)
}
