//! Times side by side, as lines of words with tabs between: what, circuit, nodes, how many calls or substitutions, then microseconds: the Rust's,
//! ours, and of building ours by the inner calls; of filling a row's, and rows a second. Both sides' answers are compared first.
use crate::both::{Both, Forgetting};
use crate::calls::Call;
use crate::clock::{least, run};
use crate::{ours, rust, shapes};

fn line(what: &str, circuit: &str, nodes: u64, count: usize, seconds: &[f64]) {
    let micros: Vec<String> = seconds.iter().map(|s| format!("{:.2}", s * 1e6)).collect();
    println!("{what}\t{circuit}\t{nodes}\t{count}\t{}", micros.join("\t"));
}

fn build(circuit: &str, turns: usize) {
    let calls = shapes::calls(circuit);
    let both = Both::new(&calls);
    let mut words = ours::fresh();
    assert_eq!(both.ids, ours::span_build_public(&mut words, &calls));
    assert_eq!(both.m, words);
    let seconds = least(
        turns,
        [
            run(|| Forgetting(rust::Builder::new()), |b| rust::span_build_rust(&b.0, &calls)),
            run(ours::fresh, |m| ours::span_build_public(m, &calls)),
            run(ours::fresh, |m| ours::span_build_inner(m, &calls)),
        ],
    );
    let steps = calls.iter().filter(|call| !matches!(call, Call::Root(_))).count();
    line("build", circuit, both.used(), steps, &seconds);
}

fn evaluate(circuit: &str, turns: usize) {
    let both = Both::new(&shapes::one_root(shapes::calls(circuit)));
    let (root, node) = both.last();
    let tables = rust::Tables::new();
    let lent = tables.lent();
    assert_eq!(rust::span_evaluate_rust(node, &tables), ours::span_evaluate_ours(&both.m, root, &lent));
    let seconds = least(
        turns,
        [
            run(|| (), |_| rust::span_evaluate_rust(node, &tables)),
            run(|| (), |_| ours::span_evaluate_ours(&both.m, root, &lent)),
        ],
    );
    line("evaluate", circuit, both.used(), 1, &seconds);
}

const MAINS: u64 = rust::MAIN as u64;
const AUXS: u64 = rust::AUX as u64;

fn lower(circuit: &str, target: u64, turns: usize) {
    let calls = shapes::calls(circuit);
    let both = Both::new(&calls);
    let (before, ids, mut nodes) = (both.used(), both.root_ids(), both.root_nodes());
    let mut lent = ours::Lowering::new(&both.m, &ids);
    assert_eq!(0, ours::span_lower_ours(&mut lent, target, MAINS, AUXS), "{circuit}");
    let (main, aux) = rust::span_lower_rust(&mut nodes, target);
    for (list, other) in [(&main, &lent.main), (&aux, &lent.aux), (&nodes, &lent.roots)] {
        assert!(list.iter().map(rust::id).eq(other.iter().copied()), "another lowering");
    }
    assert_eq!(lent.m[1], both.builder.0.spy_id_counter());
    let again = || {
        let both = Both::new(&calls);
        let nodes = both.root_nodes();
        (both, nodes)
    };
    let seconds = least(
        turns,
        [
            run(again, |(_, nodes)| rust::span_lower_rust(nodes, target)),
            run(|| ours::Lowering::new(&both.m, &ids), |lent| ours::span_lower_ours(lent, target, MAINS, AUXS)),
        ],
    );
    line(&format!("lower to {target}"), circuit, before, main.len() + aux.len(), &seconds);
}

/// So many rows are filled, and one more is read.
const ROWS: usize = 1000;

/// A circuit lowered to 2 on both sides, and rows whose new columns are to be filled.
struct Filling {
    rows: usize,
    both: Both,
    lowered: ours::Lowering,
    lists: [Vec<rust::Node>; 2],
}

impl Filling {
    /// None where the lowering is refused: it wants three free places for each node of degree above 1.
    fn new(circuit: &str, rows: usize) -> Option<Self> {
        let both = Both::new(&shapes::calls(circuit));
        let mut lowered = ours::Lowering::new(&both.m, &both.root_ids());
        if ours::span_lower_ours(&mut lowered, 2, MAINS, AUXS) != 0 {
            return None;
        }
        let (main, aux) = rust::span_lower_rust(&mut both.root_nodes(), 2);
        Some(Filling { rows, both, lowered, lists: [main, aux] })
    }

    fn trace(&self) -> rust::Trace {
        rust::Trace::new(&self.lists[0], &self.lists[1], self.rows + 1)
    }

    fn ours(&self, trace: &mut ours::Lent) {
        ours::span_fill_ours(&self.lowered, MAINS, AUXS, self.rows as u64 + 1, trace);
    }
}

/// The line has the number of new columns, microseconds a row, and rows a second.
fn fill(circuit: &str, turns: usize) {
    let Some(filling) = Filling::new(circuit, ROWS) else { return eprintln!("{circuit}: its lowering is refused") };
    let (mut theirs, mut lent) = (filling.trace(), filling.trace().lent());
    rust::span_fill_rust(&mut theirs);
    filling.ours(&mut lent);
    assert!(theirs.lent() == lent, "another filling");
    let seconds = least(
        turns,
        [run(|| filling.trace(), rust::span_fill_rust), run(|| filling.trace().lent(), |trace| filling.ours(trace))],
    );
    let [rust, ours] = seconds.map(|s| s / ROWS as f64);
    let columns = filling.lists.iter().map(Vec::len).sum();
    line("fill", circuit, filling.both.used(), columns, &[rust, ours, 1e-6 / rust, 1e-6 / ours]);
}

/// One span alone, for callgrind to count between its entry and its return.
pub fn once(what: &str, circuit: &str) {
    let calls = shapes::calls(circuit);
    // After `=` the target of a lowering, or how many rows are filled.
    let (span, target) =
        what.split_once('=').map_or((what, 0), |(span, target)| (span, target.parse().expect("a number")));
    let filling = || Filling::new(circuit, target as usize).expect("lowered");
    match span {
        "span_build_rust" => drop(rust::span_build_rust(&Forgetting(rust::Builder::new()).0, &calls)),
        "span_build_public" => drop(ours::span_build_public(&mut ours::fresh(), &calls)),
        "span_build_inner" => drop(ours::span_build_inner(&mut ours::fresh(), &calls)),
        "span_evaluate_rust" => {
            _ = rust::span_evaluate_rust(Both::new(&shapes::one_root(calls)).last().1, &rust::Tables::new())
        }
        "span_evaluate_ours" => {
            let both = Both::new(&shapes::one_root(calls));
            ours::span_evaluate_ours(&both.m, both.last().0, &rust::Tables::new().lent());
        }
        "span_lower_rust" => drop(rust::span_lower_rust(&mut Both::new(&calls).root_nodes(), target)),
        "span_lower_ours" => {
            let both = Both::new(&calls);
            ours::span_lower_ours(&mut ours::Lowering::new(&both.m, &both.root_ids()), target, MAINS, AUXS);
        }
        "span_fill_rust" => rust::span_fill_rust(&mut filling().trace()),
        "span_fill_ours" => {
            let filling = filling();
            filling.ours(&mut filling.trace().lent());
        }
        _ => panic!("no span {what}"),
    }
}

/// All of it, or what begins with a word.
pub fn measure(only: Option<&str>) {
    let wants = |what: &str| only.is_none_or(|only| what.starts_with(only));
    if wants("build") {
        for (shape, sizes) in [
            ("products", &[250, 500, 1000, 2000, 4000][..]),
            ("selectors", &[250, 500, 1000, 2000, 4000]),
            ("tower", &[250, 500]),
            ("sums", &[250, 500]),
        ] {
            shapes::family(shape, sizes).iter().for_each(|circuit| build(circuit, 15));
        }
    }
    if wants("evaluate") {
        for (shape, sizes) in [
            ("products", &[250, 500, 1000, 1865, 3700][..]),
            ("selectors", &[250, 500, 1000, 1910, 3750]),
            ("tower", &[8, 12, 16, 20]),
            ("sums", &[8, 12, 16, 20]),
        ] {
            shapes::family(shape, sizes).iter().for_each(|circuit| evaluate(circuit, 300));
        }
    }
    if wants("lower") {
        for (shape, sizes, targets) in [
            ("products", &[250, 500, 1000, 1500][..], &[2, 3, 4, 5][..]),
            ("selectors", &[250, 500, 1000, 1200], &[2, 3, 4, 5]),
            ("tower", &[6, 8, 10, 12], &[2]),
            ("sums", &[6, 8, 10, 12], &[2]),
        ] {
            for circuit in shapes::family(shape, sizes) {
                targets.iter().for_each(|&target| lower(&circuit, target, 11));
            }
        }
    }
    if wants("fill") {
        for shape in ["products", "selectors"] {
            shapes::family(shape, &[250, 500, 1000, 1200, 1500, 2000]).iter().for_each(|circuit| fill(circuit, 11));
        }
    }
}
