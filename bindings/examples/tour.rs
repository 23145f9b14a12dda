//! A small AIR with a two-row transition constraint, lowered to degree 2. docs/TOUR.md goes through it.
//!
//! Main columns: 0 the clock, 1 the state, 2 whether the machine runs. Auxiliary column 0 logs the states as a running product over challenge 0.
//! A step: while the machine runs the next state is state^7 + clock, and the log takes a factor; else both stay.
use atzunelca::{Circuit, Expression, Id, Lowered, Refusal, Row, RowKind, Rows, Tables, P};

/// The two transition constraints; each must be zero on two neighbouring rows.
fn constraints(circuit: &mut Circuit) -> Result<[Id; 2], Refusal> {
    let clock = circuit.input(Row::Main, 0)?;
    let state = circuit.input(Row::Main, 1)?;
    let runs = circuit.input(Row::Main, 2)?;
    let next_state = circuit.input(Row::NextMain, 1)?;
    let log = circuit.input(Row::Aux, 0)?;
    let next_log = circuit.input(Row::NextAux, 0)?;
    let alpha = circuit.challenge(0)?;
    let one = circuit.one()?;
    let rests = circuit.subtract(one, runs)?;

    let mut power = state;
    for _ in 1..7 {
        power = circuit.multiply(power, state)?;
    }
    let stepped = circuit.add(power, clock)?;
    let moved = circuit.subtract(next_state, stepped)?;
    let stayed = circuit.subtract(next_state, state)?;
    let while_running = circuit.multiply(runs, moved)?;
    let while_resting = circuit.multiply(rests, stayed)?;
    let step = circuit.add(while_running, while_resting)?;

    let distance = circuit.subtract(alpha, next_state)?;
    let taken = circuit.multiply(runs, distance)?;
    let factor = circuit.add(taken, rests)?;
    let logged = circuit.multiply(log, factor)?;
    let logging = circuit.subtract(next_log, logged)?;
    Ok([step, logging])
}

/// A node as a formula.
fn formula(circuit: &Circuit, id: Id) -> String {
    let of = |id| formula(circuit, id);
    match circuit.node(id).unwrap().expression {
        Expression::Base(word) if word == P - 1 => "-1".into(),
        Expression::Base(word) => word.to_string(),
        Expression::Extension(words) => format!("{words:?}"),
        Expression::Challenge(index) => format!("challenge{index}"),
        Expression::Add(left, right) => format!("({} + {})", of(left), of(right)),
        Expression::Multiply(left, right) => format!("{}·{}", of(left), of(right)),
        Expression::Input(row, column) => match row {
            Row::Main => format!("main{column}"),
            Row::Aux => format!("aux{column}"),
            Row::NextMain => format!("main{column}'"),
            Row::NextAux => format!("aux{column}'"),
        },
    }
}

/// What a constraint says of its column: of (input + -1·node), the node.
fn meaning(circuit: &Circuit, constraint: Id) -> Id {
    let Expression::Add(_, negated) = circuit.node(constraint).unwrap().expression else { panic!("no sum") };
    let Expression::Multiply(left, right) = circuit.node(negated).unwrap().expression else { panic!("no product") };
    if circuit.is_minus_one(left).unwrap() {
        right
    } else {
        left
    }
}

/// One main row of the trace: clock, state, whether the machine runs.
type MainRow = [u64; 3];

/// Two neighbouring rows with the new columns of the first filled.
fn filled(
    circuit: &Circuit,
    lowered: &Lowered,
    rows: [MainRow; 2],
    logs: [[u64; 3]; 2],
    alpha: &[u64],
) -> Result<[Vec<u64>; 2], Refusal> {
    let (main_width, aux_width) = (3 + lowered.main.len(), 1 + lowered.aux.len());
    let mut main = vec![0; 2 * main_width];
    let mut aux = vec![0; 2 * 3 * aux_width];
    for row in 0..2 {
        main[row * main_width..][..3].copy_from_slice(&rows[row]);
        aux[row * 3 * aux_width..][..3].copy_from_slice(&logs[row]);
    }
    circuit.fill(lowered, 3, 1, Rows { main: &mut main, aux: &mut aux, challenges: alpha })?;
    Ok([main, aux])
}

fn main() -> Result<(), Refusal> {
    let mut circuit = Circuit::new(RowKind::Dual, 256);
    let mut roots = constraints(&mut circuit)?.to_vec();
    println!(
        "nodes {}, degrees {:?}",
        circuit.used()?,
        roots.iter().map(|&r| circuit.degree(r).unwrap()).collect::<Vec<_>>()
    );

    let lowered = circuit.lower(&mut roots, 2, 3, 1)?;
    println!(
        "nodes {}, degrees {:?}",
        circuit.used()?,
        roots.iter().map(|&r| circuit.degree(r).unwrap()).collect::<Vec<_>>()
    );
    for (k, &constraint) in lowered.main.iter().enumerate() {
        println!("main column {} = {}", 3 + k, formula(&circuit, meaning(&circuit, constraint)));
    }
    for (k, &constraint) in lowered.aux.iter().enumerate() {
        println!("aux column {} = {}", 1 + k, formula(&circuit, meaning(&circuit, constraint)));
    }
    for &root in &roots {
        println!("root {}", formula(&circuit, root));
    }

    // 2^7 + 5 = 133, and the log 1 becomes alpha - 133.
    let alpha = [1000, 1, 0];
    for (name, next) in [("a step", 133), ("no step", 134)] {
        let logs = [[1, 0, 0], [1000 - 133, 1, 0]];
        let [main, aux] = filled(&circuit, &lowered, [[5, 2, 1], [6, next, 1]], logs, &alpha)?;
        let tables = Tables { main: &main, aux: &aux, challenges: &alpha };
        let all = roots.iter().chain(&lowered.main).chain(&lowered.aux);
        let values: Vec<_> = all.map(|&id| circuit.evaluate(id, tables).unwrap()).collect();
        let broken = values.iter().filter(|value| **value != [0; 3]).count();
        println!("{name}: {} constraints, {broken} broken", values.len());
    }
    Ok(())
}
