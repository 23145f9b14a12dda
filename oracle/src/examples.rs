//! Hand-written circuits: document 01's examples and the edges that random
//! circuits do not meet.
use crate::calls::{Call, unhex};
use crate::record::Recorder;

/// A name, then frames; `!` is a dump.
const EXAMPLES: [(&str, &str); 15] = [
    (
        "x^4, document 01's input",
        "0001 01000000 0600000000 0600010001 090002 0a000200010000 !",
    ),
    (
        "(p-1) + 1 = 0, (p-1)*(p-1) = 1, 2^32 * 2^32 = 4294967295",
        "0001 03ffffffff00000000 030000000000000001 0500000001 0600000000 \
         030000000100000000 0600030003 !",
    ),
    (
        "X*X^2 = (p-1, 1, 0), X^2*X^2 = (0, p-1, 1)",
        "0001 04000000000000000000000000000000010000000000000000 \
         04000000000000000000000000000000000000000000000001 \
         0600000001 0600010001 !",
    ),
    (
        "(0, 1, 0) + (5, p-1, 0) folds to the base constant 5",
        "0002 04000000000000000000000000000000010000000000000000 \
         040000000000000005ffffffff000000000000000000000000 0500000001 030000000000000005 !",
    ),
    (
        "((x*x)*x)*x, target 2: main list 7, 10; eleven nodes",
        "0001 01000000 0600000000 0600010000 0600020000 090003 0a000200010000 !",
    ),
    (
        "x^2*a^2, target 2: main list 8, auxiliary list 11",
        "0001 01000000 01010000 0600000000 0600010001 0600020003 090004 0a000200010001 !",
    ),
    (
        "a*b then b*a is one node; x^2 - x^2 has degree 2",
        "0002 01000000 01020000 0600000001 0600010000 0600000000 0700030003 090006 090002 !",
    ),
    (
        "column and challenge 65,535; no values",
        "0002 0100ffff 0101ffff 0102ffff 0103ffff 02ffff 0600000003 0500050004 090006 !",
    ),
    (
        "the highest count for x^4: the new column is 65,534",
        "0001 01000000 0600000000 0600010001 090002 0a0002fffe0000 !",
    ),
    (
        "no roots, or all within target: accepted, whatever the counts",
        "0001 0a000200000000 01000005 0600000000 090001 0a000200000000 0aff0000000000 !",
    ),
    (
        "the constraint of the second lowering is an old node",
        "0001 01000000 0600000000 0600010001 090002 0a000200010000 ! \
         0600000000 0500050007 0600070007 090009 0a000200020000 !",
    ),
    (
        "a loose root, and a lowering that has nothing to do",
        "0001 01000000 0600000000 0600010001 090002 0a000200010000 \
         090001 0a000200000000 0600000000 090007 !",
    ),
    (
        "subtracting zero and negating constants make the leaf -1",
        "0001 01000000 030000000000000000 0700000001 080001 !",
    ),
    (
        "the count lies above a next-row column: x^6 plus column 5 of the next row",
        "0002 01000000 01020005 0600000000 0600020000 0600030003 0500040001 090005 \
         0a000200060000 !",
    ),
    (
        "zero as a root beside a high one, one root twice",
        "0001 01000000 030000000000000000 0600000000 0600020002 090001 090003 090003 \
         0a000300010000 !",
    ),
];

pub fn examples(recorder: &mut Recorder, first: u64) {
    for (number, (name, frames)) in (first..).zip(EXAMPLES) {
        recorder.comment(name);
        for word in frames.split_whitespace() {
            if word == "!" {
                recorder.dump();
                continue;
            }
            let bytes = unhex(word.as_bytes()).expect(word);
            match Call::parse(&bytes).expect(word) {
                Call::Start(kind) => recorder.begin(number, kind),
                Call::Root(id) => recorder.root(id),
                Call::Lower { target, main, aux } => {
                    recorder.lower(target, [usize::from(main), usize::from(aux)]);
                }
                call => {
                    recorder.build(call);
                }
            }
        }
    }
    all_orders(recorder, first + EXAMPLES.len() as u64);
}

/// Every operation on every pair of: zero, one, -1, a base constant, an
/// extension constant, a challenge, an input, a sum, a product.
fn all_orders(recorder: &mut Recorder, number: u64) {
    recorder.comment("add, multiply, subtract and negate on every pair of kinds");
    recorder.begin(number, 1);
    let minus_one = twenty_first::P - 1;
    let mut ids = vec![];
    for word in [0, 1, minus_one, 7] {
        ids.push(recorder.build(Call::Base(word)));
    }
    ids.push(recorder.build(Call::Extension([3, minus_one, 2])));
    ids.push(recorder.build(Call::Challenge(0)));
    ids.push(recorder.build(Call::Input { row: 0, column: 0 }));
    let (challenge, input) = (ids[5], ids[6]);
    ids.push(recorder.build(Call::Add(input, challenge)));
    ids.push(recorder.build(Call::Multiply(challenge, input)));
    for &left in &ids {
        recorder.build(Call::Negate(left));
        for &right in &ids {
            recorder.build(Call::Add(left, right));
            recorder.build(Call::Multiply(left, right));
            recorder.build(Call::Subtract(left, right));
        }
    }
    recorder.dump();
}
