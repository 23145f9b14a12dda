//! Document 01's examples and every refusal that a caller of this crate can get.
use atzunelca::*;

fn single() -> (Circuit, Id) {
    let mut circuit = Circuit::new(RowKind::Single, 64);
    let x = circuit.input(Row::Main, 0).unwrap();
    (circuit, x)
}

#[test]
fn x_to_the_fourth() {
    let (mut circuit, x) = single();
    let square = circuit.multiply(x, x).unwrap();
    let mut roots = [circuit.multiply(square, square).unwrap()];
    let lowered = circuit.lower(&mut roots, 2, 1, 0).unwrap();
    assert_eq!(lowered, Lowered { main: vec![Id(6)], aux: vec![] });
    assert_eq!(Expression::Input(Row::Main, 1), circuit.node(Id(3)).unwrap().expression);
    assert_eq!(Expression::Multiply(Id(3), Id(3)), circuit.node(roots[0]).unwrap().expression);
    assert!(!circuit.node(square).unwrap().registered);
    assert_eq!(Expression::Add(Id(3), Id(5)), circuit.node(Id(6)).unwrap().expression);
}

#[test]
fn one_factor_after_another() {
    let (mut circuit, x) = single();
    let mut power = x;
    for _ in 0..3 {
        power = circuit.multiply(power, x).unwrap();
    }
    let lowered = circuit.lower(&mut [power], 2, 1, 0).unwrap();
    assert_eq!(lowered, Lowered { main: vec![Id(7), Id(10)], aux: vec![] });
    assert_eq!(11, circuit.used().unwrap());
}

#[test]
fn main_and_auxiliary_columns() {
    let (mut circuit, x) = single();
    let a = circuit.input(Row::Aux, 0).unwrap();
    let squares = [x, a].map(|i| circuit.multiply(i, i).unwrap());
    let product = circuit.multiply(squares[0], squares[1]).unwrap();
    let lowered = circuit.lower(&mut [product], 2, 1, 1).unwrap();
    assert_eq!(lowered, Lowered { main: vec![Id(8)], aux: vec![Id(11)] });
}

#[test]
fn sharing_and_folding() {
    let (mut circuit, x) = single();
    let y = circuit.input(Row::Main, 1).unwrap();
    let product = circuit.multiply(x, y).unwrap();
    assert_eq!(product, circuit.multiply(y, x).unwrap());
    assert!(circuit.equal(product, product).unwrap());
    let difference = circuit.subtract(product, product).unwrap();
    assert_eq!(2, circuit.degree(difference).unwrap());
    let left = circuit.extension_constant([0, 1, 0]).unwrap();
    let right = circuit.extension_constant([5, P - 1, 0]).unwrap();
    let folded = circuit.add(left, right).unwrap();
    assert_eq!(Expression::Base(5), circuit.node(folded).unwrap().expression);
    let minus_one = circuit.minus_one().unwrap();
    assert!(circuit.is_minus_one(minus_one).unwrap());
    assert_eq!(product, circuit.sum(&[product]).unwrap());
}

#[test]
fn readings() {
    let mut circuit = Circuit::new(RowKind::Dual, 64);
    let now = circuit.input(Row::Main, 0).unwrap();
    let next = circuit.input(Row::NextMain, 0).unwrap();
    let challenge = circuit.challenge(0).unwrap();
    let weighed = circuit.multiply(challenge, now).unwrap();
    let root = circuit.subtract(next, weighed).unwrap();
    assert!(!circuit.base_test(root).unwrap());
    assert_eq!(1, circuit.degree(root).unwrap());
    let zero = circuit.zero().unwrap();
    assert_eq!(-1, circuit.degree(zero).unwrap());
    assert_eq!(-1, circuit.highest(&[]).unwrap());
    let tables = Tables { main: &[7, 30], aux: &[], challenges: &[4, 1, 0] };
    assert_eq!([2, P - 7, 0], circuit.evaluate(root, tables).unwrap());
    assert_eq!(7, circuit.visible(&[root]).unwrap());
    let walk = circuit.walk(&[root], 100).unwrap();
    assert_eq!(7, walk.len());
    circuit.count_references(&[root]).unwrap();
    assert_eq!(vec![1], circuit.distinct_counts(root).unwrap());
    assert_eq!(1, circuit.node(now).unwrap().references);
}

#[test]
fn bounds() {
    let (mut circuit, x) = single();
    assert!(circuit.input(Row::Main, 65_535).is_ok());
    assert_eq!(Err(Refusal::BadIndex), circuit.input(Row::Main, 65_536));
    assert_eq!(Err(Refusal::BadIndex), circuit.challenge(65_536));
    assert_eq!(Err(Refusal::BadRow), circuit.input(Row::NextMain, 0));
    assert_eq!(Err(Refusal::BadWord), circuit.constant(P));
    assert_eq!(Err(Refusal::BadId), circuit.multiply(x, Id(99)));
    assert_eq!(Err(Refusal::Empty), circuit.sum(&[]));
    assert_eq!(Err(Refusal::Target), circuit.lower(&mut [x], 1, 1, 0));
    assert!(circuit.lower(&mut [x], 2, 0, 0).is_ok());
    let mut full = Circuit::new(RowKind::Single, 5000);
    for column in 0..MOST_NODES as u64 {
        full.input(Row::Main, column).unwrap();
    }
    assert_eq!(0, full.free().unwrap());
    assert_eq!(Err(Refusal::Full), full.input(Row::Main, 5000));
}

#[test]
fn refusals_of_readings_and_lowering() {
    let (mut circuit, x) = single();
    assert_eq!(Err(Refusal::Repeat), circuit.count_references(&[x, x]));
    assert_eq!(Err(Refusal::NoRoom), circuit.walk(&[x], 0));
    assert_eq!(Err(Refusal::Table), circuit.evaluate(x, Tables::default()));
    assert_eq!(Err(Refusal::BadWord), circuit.evaluate(x, Tables { main: &[P], ..Tables::default() }));
    let square = circuit.multiply(x, x).unwrap();
    let fourth = circuit.multiply(square, square).unwrap();
    assert_eq!(Err(Refusal::Columns), circuit.lower(&mut [fourth], 2, 0, 0));
    let mut roots = [fourth];
    circuit.lower(&mut roots, 2, 1, 0).unwrap();
    let cube = circuit.multiply(square, x).unwrap();
    assert_eq!(Err(Refusal::Loose), circuit.lower(&mut [cube], 2, 2, 0));
    let (mut tower, mut top) = single();
    for _ in 0..31 {
        top = tower.multiply(top, top).unwrap();
    }
    assert_eq!(Err(Refusal::Degree), tower.degree(top));
    assert_eq!(Err(Refusal::Degree), tower.lower(&mut [top], 2, 1, 0));
    let (mut doublings, x) = single();
    let mut top = doublings.multiply(x, x).unwrap();
    top = doublings.multiply(top, x).unwrap();
    for _ in 0..33 {
        top = doublings.add(top, top).unwrap();
    }
    assert_eq!(Err(Refusal::Paths), doublings.lower(&mut [top], 2, 1, 0));
    assert_eq!(Err(Refusal::Paths), doublings.count_references(&[top]));
}

#[test]
fn words_in_and_out() {
    let (circuit, x) = single();
    let same = Circuit::from_words(circuit.words().to_vec()).unwrap();
    assert_eq!(circuit, same);
    let mut words = circuit.words().to_vec();
    words[2 + 4] = 7; // an unknown mark
    assert_eq!(Err(Refusal::NotCircuit), Circuit::from_words(words).map(|_| x));
    assert_eq!(Err(Refusal::NotCircuit), Circuit::from_words(vec![]).map(|_| x));
}

#[test]
fn a_refusal_changes_nothing() {
    let (mut circuit, x) = single();
    let before = circuit.words().to_vec();
    assert!(circuit.subtract(x, Id(9)).is_err());
    assert!(circuit.lower(&mut [x], 0, 0, 0).is_err());
    assert_eq!(before, circuit.words());
}

#[test]
fn numbers_and_names() {
    for (k, refusal) in Refusal::ALL.iter().enumerate() {
        assert_eq!(k as u64 + 1, refusal.number());
        assert_eq!(Some(*refusal), Refusal::of(k as u64 + 1));
    }
    assert_eq!(None, Refusal::of(0));
    assert_eq!("NO_ROOM: a list or the walk stack is too short", Refusal::NoRoom.to_string());
}
