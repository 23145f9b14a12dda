//! Damages random words of grown circuits and of other lent slices, calls, and checks what every call owes: that it returns, with a number of
//! document 01; that a refusal left every slice as it was and answered zeros; that nothing is written beyond an answer or outside a slice; that a
//! circuit that was changed is one still; and that every listed constraint is zero on every row that was filled.
use std::collections::BTreeMap;

use atzunelca::sys::*;

use crate::cells::Rng;
use crate::clock;

const GUARD: u64 = 0xa5a5_5a5a_dead_beef;
const BEYOND: usize = 4;

/// A slice with words around it that no call may touch.
#[derive(Clone, PartialEq)]
struct Lent(Vec<u64>);

impl Lent {
    fn new(words: &[u64]) -> Self {
        let guard = [GUARD; BEYOND];
        Lent([&guard[..], words, &guard[..]].concat())
    }

    fn filled(length: usize) -> Self {
        Self::new(&vec![GUARD; length])
    }

    fn len(&self) -> usize {
        self.0.len() - 2 * BEYOND
    }

    fn words(&self) -> &[u64] {
        &self.0[BEYOND..self.0.len() - BEYOND]
    }

    fn words_mut(&mut self) -> &mut [u64] {
        let end = self.0.len() - BEYOND;
        &mut self.0[BEYOND..end]
    }

    fn ptr(&self) -> *const u64 {
        self.words().as_ptr()
    }

    fn ptr_mut(&mut self) -> *mut u64 {
        self.words_mut().as_mut_ptr()
    }

    fn guarded(&self) -> bool {
        let inside = self.0.len() - BEYOND;
        self.0[..BEYOND].iter().chain(&self.0[inside..]).all(|&word| word == GUARD)
    }
}

/// Everything that one call may be lent.
#[derive(Clone, PartialEq)]
struct Slices {
    m: Lent,
    ids: Lent,
    others: Lent,
    first: Lent,
    second: Lent,
    third: Lent,
    out: Lent,
}

/// What an accepted call answers: how many values, and how many places of `first` and `second` it may write.
struct Promise {
    values: usize,
    lists: fn(&[u64]) -> [u64; 2],
    changes: bool,
    is_id: bool,
}

const NAMES: [&str; 32] = [
    "start",
    "is_circuit",
    "read",
    "used",
    "free",
    "equal",
    "input",
    "challenge",
    "base_constant",
    "zero",
    "one",
    "minus_one",
    "extension_constant",
    "add",
    "multiply",
    "subtract",
    "negate",
    "sum",
    "is_zero",
    "is_one",
    "is_minus_one",
    "degree",
    "highest",
    "base_test",
    "evaluate",
    "visible",
    "walk",
    "count_references",
    "distinct_counts",
    "lower",
    "fill",
    "fill_rows",
];

/// The two fills, the last of the names.
const FILLS: usize = NAMES.len() - 2;

/// Which refusals a call may give, by their numbers.
fn allowed(call: usize) -> &'static [u64] {
    match NAMES[call] {
        "start" | "is_circuit" | "used" | "free" => &[1],
        "input" => &[1, 3, 4, 6],
        "challenge" => &[1, 4, 6],
        "base_constant" | "extension_constant" => &[1, 5, 6],
        "zero" | "one" | "minus_one" => &[1, 6],
        "add" | "multiply" | "subtract" | "negate" => &[1, 2, 6],
        "sum" => &[1, 2, 6, 7],
        "degree" | "highest" => &[1, 2, 11],
        "evaluate" => &[1, 2, 5, 15],
        "walk" | "distinct_counts" => &[1, 2, 13],
        "count_references" => &[1, 2, 12, 14],
        "lower" => &[1, 2, 6, 8, 9, 10, 11, 12, 13],
        "fill" | "fill_rows" => &[1, 2, 5, 15, 17],
        _ => &[1, 2],
    }
}

fn promise(call: usize) -> Promise {
    let values = match NAMES[call] {
        "start" | "is_circuit" | "count_references" | "fill" | "fill_rows" => 0,
        "read" => 6,
        "evaluate" => 3,
        "lower" => 2,
        _ => 1,
    };
    let lists: fn(&[u64]) -> [u64; 2] = match NAMES[call] {
        "walk" => |out| [out[0], u64::MAX],
        "distinct_counts" => |out| [out[0], 0],
        "lower" => |out| [out[0], out[1]],
        _ => |_| [0, 0],
    };
    let changes = matches!(call, 0 | 6..=17) || matches!(NAMES[call], "count_references" | "lower");
    Promise { values, lists, changes, is_id: (6..=17).contains(&call) }
}

/// SAFETY: the slices are apart, each as long as it says.
fn call(which: usize, s: &mut Slices, [a, b, c]: [u64; 3]) -> u64 {
    let (n, room, count) = (s.m.len(), s.out.len(), s.ids.len());
    let (p, m, out) = (s.m.ptr(), s.m.ptr_mut(), s.out.ptr_mut());
    let (ids, ids_mut) = (s.ids.ptr(), s.ids.ptr_mut());
    let (others, more) = (s.others.ptr(), s.others.len());
    let (first, second, third) = (s.first.ptr_mut(), s.second.ptr_mut(), s.third.ptr());
    let (firsts, seconds, thirds) = (s.first.len(), s.second.len(), s.third.len());
    unsafe {
        match NAMES[which] {
            "start" => atz_start(m, n, a),
            "is_circuit" => atz_is_circuit(p, n),
            "read" => atz_read(p, n, a, out, room),
            "used" => atz_used(p, n, out, room),
            "free" => atz_free(p, n, out, room),
            "equal" => atz_equal(p, n, a, b, out, room),
            "input" => atz_input(m, n, a, b, out, room),
            "challenge" => atz_challenge(m, n, a, out, room),
            "base_constant" => atz_base_constant(m, n, a, out, room),
            "zero" => atz_zero(m, n, out, room),
            "one" => atz_one(m, n, out, room),
            "minus_one" => atz_minus_one(m, n, out, room),
            "extension_constant" => atz_extension_constant(m, n, a, b, c, out, room),
            "add" => atz_add(m, n, a, b, out, room),
            "multiply" => atz_multiply(m, n, a, b, out, room),
            "subtract" => atz_subtract(m, n, a, b, out, room),
            "negate" => atz_negate(m, n, a, out, room),
            "sum" => atz_sum(m, n, ids, count, out, room),
            "is_zero" => atz_is_zero(p, n, a, out, room),
            "is_one" => atz_is_one(p, n, a, out, room),
            "is_minus_one" => atz_is_minus_one(p, n, a, out, room),
            "degree" => atz_degree(p, n, a, out, room),
            "highest" => atz_highest(p, n, ids, count, out, room),
            "base_test" => atz_base_test(p, n, a, out, room),
            "evaluate" => atz_evaluate(p, n, a, first, firsts, second, seconds, third, thirds, out, room),
            "visible" => atz_visible(p, n, ids, count, out, room),
            "walk" => atz_walk(p, n, ids, count, first, firsts, second, seconds, out, room),
            "count_references" => atz_count_references(m, n, ids, count),
            "distinct_counts" => atz_distinct_counts(p, n, a, first, firsts, out, room),
            "lower" => atz_lower(m, n, ids_mut, count, a, b, c, first, firsts, second, seconds, out, room),
            "fill" => atz_fill(p, n, ids, count, others, more, a, b, first, firsts, second, seconds, third, thirds),
            "fill_rows" => {
                atz_fill_rows(p, n, ids, count, others, more, a, b, c, first, firsts, second, seconds, third, thirds)
            }
            _ => unreachable!(),
        }
    }
}

/// A word that tests look at: an edge, a small one, or any.
fn word(rng: &mut Rng, used: u64) -> u64 {
    const P: u64 = atzunelca::P;
    match rng.below(8) {
        0 => rng.pick(&[0, 1, 2, 3, 4, 5, 8, 9, 4096, 4097, 65_535, 65_536, P - 1, P, P + 1, u64::MAX]),
        1 => used.wrapping_add(rng.below(3) as u64).wrapping_sub(1),
        2 => rng.next(),
        _ => rng.below(used as usize + 1) as u64,
    }
}

/// An id, mostly of a node, and often of a late one.
fn id(rng: &mut Rng, used: u64) -> u64 {
    match rng.below(100) {
        0..3 => word(rng, used),
        3..40 => used.saturating_sub(1 + rng.below(3) as u64),
        _ => rng.below(used.max(1) as usize) as u64,
    }
}

/// How many columns of each table a grown circuit has, before it is lowered.
const COLUMNS: usize = 8;

/// A circuit and the two lists of its lowering, if it was lowered.
struct Grown {
    m: Vec<u64>,
    lists: [Vec<u64>; 2],
}

/// A circuit grown by calls: so many nodes or fewer, some lowered.
fn grown(rng: &mut Rng, nodes: u64) -> Grown {
    let places = nodes as usize + rng.below(30) + if rng.percent(50) { 3 * nodes as usize } else { 0 };
    let mut m = vec![0; 2 + 6 * places + rng.below(6)];
    let (p, n) = (m.as_mut_ptr(), m.len());
    let mut out = 0;
    let mut lists = [vec![], vec![]];
    unsafe {
        atz_start(p, n, 1 + rng.below(2) as u64);
        // Some have a tower of squarings or doublings in them: high degrees, many paths.
        let tower = rng.below(20);
        for _ in 0..20 * nodes {
            let used = *p.add(1);
            if used >= nodes {
                break;
            }
            let refused = match rng.below(if used < 4 { 5 } else { 12 }) {
                5.. if tower == 0 => atz_multiply(p, n, used - 1, used - 1, &mut out, 1),
                5.. if tower == 1 && used > 7 => atz_add(p, n, used - 1, used - 1, &mut out, 1),
                0..=2 => atz_input(p, n, rng.below(4) as u64, rng.below(COLUMNS) as u64, &mut out, 1),
                3 => atz_challenge(p, n, rng.below(4) as u64, &mut out, 1),
                4 => atz_extension_constant(p, n, rng.below(4) as u64, rng.below(2) as u64, 0, &mut out, 1),
                5..=8 => {
                    atz_multiply(p, n, id(rng, used), used - 1 - rng.below(used as usize).min(3) as u64, &mut out, 1)
                }
                9 => atz_subtract(p, n, id(rng, used), id(rng, used), &mut out, 1),
                _ => atz_add(p, n, id(rng, used), id(rng, used), &mut out, 1),
            };
            if refused == 6 {
                break;
            }
        }
        if rng.percent(40) {
            let used = *p.add(1);
            let mut roots = [used - 1, rng.below(used as usize) as u64];
            lists = [vec![0u64; 4096], vec![0u64; 4096]];
            let [main, aux] = &mut lists;
            let mut counts = [0; 2];
            let target = 2 + rng.below(3) as u64;
            atz_lower(
                p,
                n,
                roots.as_mut_ptr(),
                2,
                target,
                COLUMNS as u64,
                COLUMNS as u64,
                main.as_mut_ptr(),
                4096,
                aux.as_mut_ptr(),
                4096,
                counts.as_mut_ptr(),
                2,
            );
            main.truncate(counts[0] as usize);
            aux.truncate(counts[1] as usize);
        }
    }
    Grown { m, lists }
}

/// Lists, tables and counts of a fill: mostly those of the circuit's lowering, with a few rows of its width or wider.
fn rows(rng: &mut Rng, which: usize, grown: &Grown, s: &mut Slices) -> [u64; 3] {
    let used = grown.m[1];
    let kind = grown.m[0] as usize;
    let [mut main, mut aux] = grown.lists.clone();
    for list in [&mut main, &mut aux] {
        match rng.below(12) {
            0 if !list.is_empty() => {
                let at = rng.below(list.len());
                list[at] = id(rng, used);
            }
            1 => list.push(id(rng, used)),
            2 => list.truncate(rng.below(list.len() + 1)),
            _ => (),
        }
    }
    let rows = if NAMES[which] == "fill" { kind } else { kind - 1 + rng.below(4) };
    let counts = [0; 2].map(|_| if rng.percent(95) { COLUMNS } else { rng.below(COLUMNS + 3) });
    let wider = [0; 2].map(|_| if rng.percent(80) { 0 } else { rng.below(3) });
    let lengths = [rows * (counts[0] + main.len() + wider[0]), 3 * rows * (counts[1] + aux.len() + wider[1]), 12];
    let [first, second, third] = lengths.map(|length| {
        let length = if rng.percent(97) { length } else { rng.below(length + 4) };
        let mut words: Vec<u64> = (0..length).map(|_| rng.next() >> 2).collect();
        if rng.percent(10) && length > 0 {
            words[rng.below(length)] = if rng.percent(50) { atzunelca::P } else { word(rng, used) };
        }
        Lent::new(&words)
    });
    (s.ids, s.others, s.first, s.second, s.third) = (Lent::new(&main), Lent::new(&aux), first, second, third);
    let count = |rng: &mut Rng, count: usize| if rng.percent(98) { count as u64 } else { word(rng, used) };
    [count(rng, counts[0]), count(rng, counts[1]), count(rng, rows)]
}

/// What is wrong with rows that were filled: a cell that isn't new was written, or a listed constraint isn't zero.
fn badly_filled(which: usize, before: &Slices, after: &Slices, [mains, auxs, rows]: [u64; 3]) -> Option<&'static str> {
    if before.ids != after.ids || before.others != after.others {
        return Some("a list that was changed");
    }
    let (news, more) = (after.ids.len(), after.others.len());
    if news + more == 0 {
        let same = before.first == after.first && before.second == after.second;
        return (!same).then_some("a word written though there is no new column");
    }
    let kind = after.m.words()[0] as usize;
    let rows = if NAMES[which] == "fill" { kind } else { rows as usize };
    let filled = rows + 1 - kind;
    let tables = [(&before.first, &after.first, 1, mains, news), (&before.second, &after.second, 3, auxs, more)];
    for (old, new, words, count, fresh) in tables {
        let (width, from) = (new.len() / rows, words * count as usize);
        for at in 0..new.len() {
            let is_new = at / width < filled && (from..from + words * fresh).contains(&(at % width));
            if !is_new && old.words()[at] != new.words()[at] {
                return Some("a cell that isn't to be filled");
            }
        }
    }
    let (a, b) = (after.first.len() / rows, after.second.len() / rows);
    for r in 0..filled {
        let (main, aux) = (&after.first.words()[r * a..][..kind * a], &after.second.words()[r * b..][..kind * b]);
        for &constraint in after.ids.words().iter().chain(after.others.words()) {
            let mut out = [1; 3];
            let (m, c) = (after.m.words(), after.third.words());
            let (p, x, y, z) = (m.as_ptr(), main.as_ptr(), aux.as_ptr(), c.as_ptr());
            let (n, o) = (m.len(), out.as_mut_ptr());
            // SAFETY: as in `call`.
            let number = unsafe { atz_evaluate(p, n, constraint, x, main.len(), y, aux.len(), z, c.len(), o, 3) };
            if (number, out) != (0, [0; 3]) {
                return Some("a listed constraint that isn't zero");
            }
        }
    }
    None
}

/// Slices and arguments for a call on this circuit, some of them damaged.
fn prepared(rng: &mut Rng, which: usize, grown: &Grown) -> (Slices, [u64; 3]) {
    let circuit = &grown.m[..];
    let used = circuit[1];
    let mut m = Lent::new(if rng.percent(3) { &circuit[..rng.below(circuit.len() + 1)] } else { circuit });
    let damages = rng.pick(&[0, 1, 1, 1, 1, 2, 3, 8]);
    let in_use = (2 + 6 * used as usize).min(m.len());
    for _ in 0..damages {
        if in_use > 0 {
            let at = if rng.percent(5) { rng.below(m.len()) } else { rng.below(in_use) };
            m.words_mut()[at] = word(rng, used);
        }
    }
    let ids: Vec<u64> = (0..rng.pick(&[0, 1, 1, 2, 2, 3, 5])).map(|_| id(rng, used)).collect();
    let small = |rng: &mut Rng, length: usize| -> Vec<u64> {
        let damaged = rng.percent(10);
        (0..length).map(|_| if damaged { word(rng, used) } else { rng.next() >> 2 }).collect()
    };
    let (first, second, third) = match NAMES[which] {
        "evaluate" => {
            let lengths = if rng.percent(70) { [48, 144, 60] } else { [rng.below(50), rng.below(150), rng.below(40)] };
            let [a, b, c] = lengths.map(|length| Lent::new(&small(rng, length)));
            (a, b, c)
        }
        "walk" => {
            (Lent::filled(rng.below(400)), Lent::filled(used as usize + rng.below(20) * rng.below(2)), Lent::filled(0))
        }
        "lower" => {
            let room = if rng.percent(80) { 4096.min(used as usize) } else { rng.below(20) };
            (Lent::filled(room), Lent::filled(room), Lent::filled(0))
        }
        _ => (Lent::filled(rng.below(60)), Lent::filled(0), Lent::filled(0)),
    };
    let arguments = match NAMES[which] {
        "start" => [rng.below(4) as u64, 0, 0],
        "input" => [rng.below(5) as u64, word(rng, used), 0],
        "challenge" | "base_constant" | "extension_constant" => [word(rng, used), word(rng, used), word(rng, used)],
        "lower" => {
            let count = |rng: &mut Rng| {
                if rng.percent(90) { 8 + rng.below(40) as u64 } else { word(rng, used) }
            };
            let target = if rng.percent(90) { 2 + rng.below(4) as u64 } else { word(rng, used) };
            [target, count(rng), count(rng)]
        }
        _ => [id(rng, used), id(rng, used), 0],
    };
    let out = Lent::filled(rng.pick(&[0, 1, 1, 1, 2, 3, 6, 6, 8]));
    let mut slices = Slices { m, ids: Lent::new(&ids), others: Lent::filled(0), first, second, third, out };
    let arguments = match NAMES[which] {
        "fill" | "fill_rows" => rows(rng, which, grown, &mut slices),
        _ => arguments,
    };
    (slices, arguments)
}

/// What is wrong with an answer, if anything is.
fn wrong(which: usize, number: u64, before: &Slices, after: &Slices, arguments: [u64; 3]) -> Option<&'static str> {
    let all = [&after.m, &after.ids, &after.others, &after.first, &after.second, &after.third, &after.out];
    if !all.iter().all(|slice| slice.guarded()) {
        return Some("a word outside a slice");
    }
    let Promise { values, lists, changes, is_id } = promise(which);
    let told = values.min(after.out.len());
    if after.out.words()[told..] != before.out.words()[told..] {
        return Some("a word of `out` beyond the values");
    }
    if number != 0 {
        if !allowed(which).contains(&number) {
            return Some("a refusal that this call doesn't give");
        }
        let unchanged = Slices { out: after.out.clone(), ..before.clone() };
        if unchanged != *after {
            return Some("a refusal that changed a slice");
        }
        return after.out.words()[..told]
            .iter()
            .any(|&word| word != 0)
            .then_some("a refusal whose values are no zeros");
    }
    if !changes && before.m != after.m || before.third != after.third {
        return Some("a reading that changed a slice");
    }
    if which != 0 && unsafe { atz_is_circuit(after.m.ptr(), after.m.len()) } != 0 {
        return Some("accepted, and no circuit afterwards");
    }
    if is_id && told == 1 && after.out.words()[0] >= after.m.words()[1] {
        return Some("an id of no node");
    }
    if which >= FILLS {
        return badly_filled(which, before, after, arguments);
    }
    if told == values {
        let written = lists(after.out.words());
        for (list, old, most) in
            [(&after.first, &before.first, written[0]), (&after.second, &before.second, written[1])]
        {
            let most = usize::try_from(most).unwrap_or(usize::MAX).min(list.len());
            if list.words()[most..] != old.words()[most..] {
                return Some("a list place beyond the answer");
            }
        }
    }
    None
}

/// As many calls as it takes for `most` on damaged circuits; prints how many of each were accepted and refused, and the longest.
pub fn fuzz(most: u64, seed: u64) {
    let mut rng = Rng::new(&[seed]);
    let mut told: BTreeMap<(usize, u64), u64> = BTreeMap::new();
    let mut longest = (0.0, 0, 0);
    let mut circuit = grown(&mut rng, 20);
    let begun = std::time::Instant::now();
    let (mut damaged, mut turn, mut fills) = (0, 0, 0);
    while damaged < most {
        if turn % 50 == 0 {
            let nodes = if turn % 100_000 == 0 { 500 + rng.below(3500) } else { 1 + rng.below(40) };
            circuit = grown(&mut rng, nodes as u64);
        }
        // Few circuits have new columns: those are filled more often than others.
        let lowered = circuit.lists.iter().any(|list| !list.is_empty());
        let which = if lowered && rng.percent(40) { FILLS + rng.below(2) } else { rng.below(NAMES.len()) };
        let (mut slices, arguments) = prepared(&mut rng, which, &circuit);
        damaged += u64::from(slices.m.words() != circuit.m);
        let before = slices.clone();
        let clock = clock::now();
        let number = call(which, &mut slices, arguments);
        let seconds = clock::now() - clock;
        if seconds > longest.0 {
            longest = (seconds, which, circuit.m[1]);
        }
        if let Some(wrong) = wrong(which, number, &before, &slices, arguments) {
            println!("turn {turn} of seed {seed}: {} {arguments:?} answered {number}: {wrong}", NAMES[which]);
            std::process::exit(1);
        }
        *told.entry((which, number)).or_default() += 1;
        let columns = slices.ids.len() + slices.others.len();
        fills += u64::from(which >= FILLS && number == 0 && columns > 0);
        turn += 1;
    }
    for (which, name) in NAMES.iter().enumerate() {
        let of = told.range((which, 0)..(which + 1, 0)).map(|((_, number), count)| format!("{number}: {count}"));
        println!("{name}: {}", of.collect::<Vec<_>>().join(", "));
    }
    let refused: u64 = told.iter().filter(|((_, number), _)| *number != 0).map(|(_, count)| count).sum();
    println!(
        "calls {turn}, of them {damaged} on damaged circuits, refused {refused}, fills of new columns {fills}, wrong 0, longest {:.3} ms ({}, {} nodes), {:.0} seconds in all",
        longest.0 * 1e3,
        NAMES[longest.1],
        longest.2,
        begun.elapsed().as_secs_f64()
    );
}
