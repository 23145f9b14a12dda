//! How much stack each call takes: it runs on a stack that was filled with a pattern, and what it didn't reach still has it.
use std::ffi::c_void;

use atzunelca::sys::*;

unsafe extern "C" {
    fn pthread_attr_init(attributes: *mut [u64; 8]) -> i32;
    fn pthread_attr_setstack(attributes: *mut [u64; 8], stack: *mut c_void, size: usize) -> i32;
    fn pthread_create(
        thread: *mut u64,
        attributes: *const [u64; 8],
        run: extern "C" fn(*mut c_void) -> *mut c_void,
        argument: *mut c_void,
    ) -> i32;
    fn pthread_join(thread: u64, answer: *mut *mut c_void) -> i32;
}

const SIZE: usize = 8 << 20;
const PATTERN: u8 = 0xa5;

extern "C" fn enter(run: *mut c_void) -> *mut c_void {
    // SAFETY: `used` hands over a pointer to this closure, which outlives the thread.
    unsafe { (*run.cast::<Box<dyn FnMut()>>())() };
    std::ptr::null_mut()
}

fn used(run: impl FnMut()) -> usize {
    let mut stack = vec![PATTERN; SIZE + 4096];
    let begin = stack.as_ptr().align_offset(4096);
    let mut boxed: Box<dyn FnMut()> = Box::new(run);
    let (mut attributes, mut thread) = ([0; 8], 0);
    unsafe {
        pthread_attr_init(&mut attributes);
        assert_eq!(0, pthread_attr_setstack(&mut attributes, stack.as_mut_ptr().add(begin).cast(), SIZE));
        assert_eq!(0, pthread_create(&mut thread, &attributes, enter, (&raw mut boxed).cast()));
        pthread_join(thread, std::ptr::null_mut());
    }
    let untouched = stack[begin..].iter().take_while(|&&byte| byte == PATTERN).count();
    SIZE - untouched
}

/// A descending chain, the deepest circuit there is: each node adds the next to itself, the last is an input, and so many places are free.
fn chain(nodes: usize, free: usize) -> Vec<u64> {
    let mut m = vec![0; 2 + 6 * (nodes + free)];
    (m[0], m[1]) = (1, nodes as u64);
    for i in 0..nodes {
        let words = if i + 1 == nodes { [5, 0, 0, 0, 1, 0] } else { [3, i as u64 + 1, i as u64 + 1, 0, 1, 0] };
        m[2 + 6 * i..][..6].copy_from_slice(&words);
    }
    m
}

/// A chain that can be lowered: the square of the square of a sum, each node of which adds the input to the next.
fn tall(nodes: usize, free: usize) -> Vec<u64> {
    let mut m = chain(nodes, free);
    for i in 0..nodes - 1 {
        let next = i as u64 + 1;
        let words = if i < 2 { [4, next, next, 0] } else { [3, next, nodes as u64 - 1, 0] };
        m[2 + 6 * i..][..4].copy_from_slice(&words);
    }
    m
}

pub fn stack() {
    let idle = used(|| ());
    let say = |name: &str, bytes: usize| println!("{name}\t{}", bytes - idle);
    let deep = chain(4096, 0);
    let room = chain(4090, 6);
    let (p, n) = (deep.as_ptr(), deep.len());
    let word = [0u64];
    let ids = vec![0u64; 4096];
    let (mut out, mut list, mut other) = ([0u64; 6], vec![0u64; 8192], vec![0u64; 8192]);
    let (o, l, s) = (out.as_mut_ptr(), list.as_mut_ptr(), other.as_mut_ptr());
    unsafe {
        say("is_circuit", used(|| _ = atz_is_circuit(p, n)));
        say("equal", used(|| _ = atz_equal(p, n, 0, 1, o, 6)));
        let mut m = room.clone();
        say("input", used(|| _ = atz_input(m.as_mut_ptr(), m.len(), 0, 1, o, 6)));
        let mut m = room.clone();
        say("add", used(|| _ = atz_add(m.as_mut_ptr(), m.len(), 0, 2, o, 6)));
        let mut m = room.clone();
        say("subtract", used(|| _ = atz_subtract(m.as_mut_ptr(), m.len(), 0, 2, o, 6)));
        let mut m = deep.clone();
        say("subtract, full", used(|| _ = atz_subtract(m.as_mut_ptr(), m.len(), 0, 2, o, 6)));
        let mut m = deep.clone();
        say("sum, full", used(|| _ = atz_sum(m.as_mut_ptr(), m.len(), ids.as_ptr(), 4096, o, 6)));
        say("degree", used(|| _ = atz_degree(p, n, 0, o, 6)));
        say("base_test", used(|| _ = atz_base_test(p, n, 0, o, 6)));
        say("evaluate", used(|| _ = atz_evaluate(p, n, 0, word.as_ptr(), 1, word.as_ptr(), 0, word.as_ptr(), 0, o, 6)));
        say("visible", used(|| _ = atz_visible(p, n, word.as_ptr(), 1, o, 6)));
        say("walk", used(|| _ = atz_walk(p, n, word.as_ptr(), 1, l, 8192, s, 8192, o, 6)));
        let mut m = deep.clone();
        say("count_references", used(|| _ = atz_count_references(m.as_mut_ptr(), m.len(), word.as_ptr(), 1)));
        say("distinct_counts", used(|| _ = atz_distinct_counts(p, n, 0, l, 8192, o, 6)));
        let mut m = tall(4080, 16);
        let (mut roots, mut number) = ([0u64], 0);
        let bytes = used(|| {
            number = atz_lower(m.as_mut_ptr(), m.len(), roots.as_mut_ptr(), 1, 2, 1, 0, l, 8192, s, 8192, o, 6)
        });
        assert_eq!((0, 1), (number, out[0]));
        say("lower", bytes);
        let (mut row, mut none) = ([1u64, 0], [0u64]);
        let (a, b) = (row.as_mut_ptr(), none.as_mut_ptr());
        let (p, n) = (m.as_ptr(), m.len());
        let bytes = used(|| number = atz_fill(p, n, l, 1, s, 0, 1, 0, a, 2, b, 0, word.as_ptr(), 0));
        assert_eq!(0, number);
        say("fill", bytes);
    }
}
