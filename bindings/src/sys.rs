//! The calls as include/atzunelca.h declares them. A slice is a pointer and its length in words.
//!
//! # Safety
//!
//! Each pointer is valid for its length, not null even where the length is 0, and a slice that is written overlaps no other slice of the call.
//! Nothing else is asked: any words and any numbers are answered, by a value or by a refusal.

extern "C" {
    pub fn atz_start(circuit: *mut u64, words: usize, kind: u64) -> u64;
    pub fn atz_is_circuit(circuit: *const u64, words: usize) -> u64;
    pub fn atz_read(circuit: *const u64, words: usize, id: u64, out: *mut u64, room: usize) -> u64;
    pub fn atz_used(circuit: *const u64, words: usize, out: *mut u64, room: usize) -> u64;
    pub fn atz_free(circuit: *const u64, words: usize, out: *mut u64, room: usize) -> u64;
    pub fn atz_equal(circuit: *const u64, words: usize, i: u64, j: u64, out: *mut u64, room: usize) -> u64;

    pub fn atz_input(circuit: *mut u64, words: usize, row: u64, column: u64, out: *mut u64, room: usize) -> u64;
    pub fn atz_challenge(circuit: *mut u64, words: usize, index: u64, out: *mut u64, room: usize) -> u64;
    pub fn atz_base_constant(circuit: *mut u64, words: usize, word: u64, out: *mut u64, room: usize) -> u64;
    pub fn atz_zero(circuit: *mut u64, words: usize, out: *mut u64, room: usize) -> u64;
    pub fn atz_one(circuit: *mut u64, words: usize, out: *mut u64, room: usize) -> u64;
    pub fn atz_minus_one(circuit: *mut u64, words: usize, out: *mut u64, room: usize) -> u64;
    pub fn atz_extension_constant(
        circuit: *mut u64,
        words: usize,
        c0: u64,
        c1: u64,
        c2: u64,
        out: *mut u64,
        room: usize,
    ) -> u64;
    pub fn atz_add(circuit: *mut u64, words: usize, left: u64, right: u64, out: *mut u64, room: usize) -> u64;
    pub fn atz_multiply(circuit: *mut u64, words: usize, left: u64, right: u64, out: *mut u64, room: usize) -> u64;
    pub fn atz_subtract(circuit: *mut u64, words: usize, left: u64, right: u64, out: *mut u64, room: usize) -> u64;
    pub fn atz_negate(circuit: *mut u64, words: usize, a: u64, out: *mut u64, room: usize) -> u64;
    pub fn atz_sum(circuit: *mut u64, words: usize, ids: *const u64, count: usize, out: *mut u64, room: usize) -> u64;

    pub fn atz_is_zero(circuit: *const u64, words: usize, id: u64, out: *mut u64, room: usize) -> u64;
    pub fn atz_is_one(circuit: *const u64, words: usize, id: u64, out: *mut u64, room: usize) -> u64;
    pub fn atz_is_minus_one(circuit: *const u64, words: usize, id: u64, out: *mut u64, room: usize) -> u64;
    pub fn atz_degree(circuit: *const u64, words: usize, id: u64, out: *mut u64, room: usize) -> u64;
    pub fn atz_highest(
        circuit: *const u64,
        words: usize,
        roots: *const u64,
        count: usize,
        out: *mut u64,
        room: usize,
    ) -> u64;
    pub fn atz_base_test(circuit: *const u64, words: usize, id: u64, out: *mut u64, room: usize) -> u64;
    pub fn atz_evaluate(
        circuit: *const u64,
        words: usize,
        id: u64,
        main: *const u64,
        main_words: usize,
        aux: *const u64,
        aux_words: usize,
        challenges: *const u64,
        challenge_words: usize,
        out: *mut u64,
        room: usize,
    ) -> u64;
    pub fn atz_visible(
        circuit: *const u64,
        words: usize,
        roots: *const u64,
        count: usize,
        out: *mut u64,
        room: usize,
    ) -> u64;

    pub fn atz_walk(
        circuit: *const u64,
        words: usize,
        roots: *const u64,
        count: usize,
        list: *mut u64,
        list_words: usize,
        stack: *mut u64,
        stack_words: usize,
        out: *mut u64,
        room: usize,
    ) -> u64;
    pub fn atz_count_references(circuit: *mut u64, words: usize, roots: *const u64, count: usize) -> u64;
    pub fn atz_distinct_counts(
        circuit: *const u64,
        words: usize,
        id: u64,
        list: *mut u64,
        list_words: usize,
        out: *mut u64,
        room: usize,
    ) -> u64;

    pub fn atz_lower(
        circuit: *mut u64,
        words: usize,
        roots: *mut u64,
        count: usize,
        target: u64,
        main_count: u64,
        aux_count: u64,
        main_list: *mut u64,
        main_room: usize,
        aux_list: *mut u64,
        aux_room: usize,
        out: *mut u64,
        room: usize,
    ) -> u64;

    pub fn atz_fill(
        circuit: *const u64,
        words: usize,
        main_list: *const u64,
        main_new: usize,
        aux_list: *const u64,
        aux_new: usize,
        main_count: u64,
        aux_count: u64,
        main: *mut u64,
        main_words: usize,
        aux: *mut u64,
        aux_words: usize,
        challenges: *const u64,
        challenge_words: usize,
    ) -> u64;
    pub fn atz_fill_rows(
        circuit: *const u64,
        words: usize,
        main_list: *const u64,
        main_new: usize,
        aux_list: *const u64,
        aux_new: usize,
        main_count: u64,
        aux_count: u64,
        rows: u64,
        main: *mut u64,
        main_words: usize,
        aux: *mut u64,
        aux_words: usize,
        challenges: *const u64,
        challenge_words: usize,
    ) -> u64;
}
