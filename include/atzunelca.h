/* Atzunelca: constraint circuits, as a proved library. Licence: MIT OR Apache-2.0.
 *
 * The library is crates/abi/out/libabi.a, which `rt lib` in crates/abi writes (x86-64 Linux). It has no state, allocates nothing, and calls nothing
 * but memcpy and memset. docs/EMBEDDING.md says how to link it, docs/REFERENCE.md says more of each call.
 *
 * HOW EVERY CALL ANSWERS
 *   It returns the number of its refusal, or 0 (ATZ_OK) if it is accepted. Its values stand in the first places of `out`, the last slice lent, as
 *   far as there are places; places beyond keep their words. On a refusal the values are zeros, and everything else that was lent is as it was.
 *   A call that answers no value takes no `out`.
 *
 * SLICES
 *   A slice is a pointer and its length in words. The pointer is never null, even if the length is 0. A slice that is written (no `const`) must not
 *   overlap any other slice of the same call, and no other thread may touch a slice meanwhile. That is all a caller owes: any words and any numbers
 *   are answered, by a value or by a refusal.
 *
 * A CIRCUIT
 *   2 + 6 words a place: word 0 the row kind, word 1 the used count, then for each place its kind, three words, mark (1 registered, 0 loose) and
 *   reference count. Lend ATZ_WORDS(places) words; at most ATZ_MOST_NODES places are used. Ids count from 0. Start it with atz_start.
 *
 * STACK
 *   Lend a thread at least ATZ_STACK bytes: the deepest call on the worst circuit takes less.
 */
#ifndef ATZUNELCA_H
#define ATZUNELCA_H

#include <stddef.h>
#include <stdint.h>

#ifdef __cplusplus
extern "C" {
#endif

#define ATZ_MOST_NODES 4096
#define ATZ_WORDS(places) (2 + 6 * (size_t)(places))
#define ATZ_STACK 2097152

/* p = 2^64 - 2^32 + 1: words of both fields are below it. */
#define ATZ_P UINT64_C(18446744069414584321)

/* Refusals. Of those that apply the lowest is given, with four exceptions: see atz_evaluate, atz_count_references, atz_lower and atz_fill. */
enum {
    ATZ_OK = 0,
    ATZ_NOT_CIRCUIT = 1, /* the lent words are no circuit; of atz_start, too few words or an unknown row kind */
    ATZ_BAD_ID = 2,      /* an id not below the used count */
    ATZ_BAD_ROW = 3,     /* an input of the other row kind, or an unknown row */
    ATZ_BAD_INDEX = 4,   /* a column or challenge over 65,535 */
    ATZ_BAD_WORD = 5,    /* a word at or above p */
    ATZ_FULL = 6,        /* more new nodes needed than free places; lowering: fewer than 3·M free */
    ATZ_EMPTY = 7,       /* the sum of no ids */
    ATZ_TARGET = 8,      /* a target below 2 */
    ATZ_COLUMNS = 9,     /* lowering: a used input, of either row, at or above its count, or a count + M over 65,536 */
    ATZ_LOOSE = 10,      /* lowering: a loose node below a root, or a loose root */
    ATZ_DEGREE = 11,     /* a degree over 2,147,483,647 */
    ATZ_PATHS = 12,      /* a path count over 4,294,967,295 */
    ATZ_NO_ROOM = 13,    /* a list or the walk stack is too short */
    ATZ_REPEAT = 14,     /* reference counts: a root named twice, or lying below another root */
    ATZ_TABLE = 15,      /* a table whose length doesn't fit its layout, or a read beyond it */
    ATZ_FRAME = 16,      /* of the frame program only */
    ATZ_NOT_LOWERED = 17 /* fill: a listed node is not its column plus -1 times an expression that can be worked out yet */
};

/* Row kinds, and rows of inputs. A single-row circuit has the rows 0 and 1. */
enum { ATZ_SINGLE = 1, ATZ_DUAL = 2 };
enum { ATZ_MAIN = 0, ATZ_AUX = 1, ATZ_NEXT_MAIN = 2, ATZ_NEXT_AUX = 3 };

/* Kinds of nodes, as atz_read answers them in out[0]; what out[1], out[2], out[3] are then. Words that a kind doesn't name are 0. */
enum {
    ATZ_KIND_BASE = 0,      /* the word */
    ATZ_KIND_EXTENSION = 1, /* three words */
    ATZ_KIND_CHALLENGE = 2, /* the index */
    ATZ_KIND_ADD = 3,       /* two ids */
    ATZ_KIND_MULTIPLY = 4,  /* two ids */
    ATZ_KIND_MAIN = 5,      /* the column, of this and the next three */
    ATZ_KIND_AUX = 6,
    ATZ_KIND_NEXT_MAIN = 7,
    ATZ_KIND_NEXT_AUX = 8
};

/* THE CIRCUIT */

/* Starts a circuit with no nodes: kind ATZ_SINGLE or ATZ_DUAL. NOT_CIRCUIT. */
uint64_t atz_start(uint64_t *circuit, size_t words, uint64_t kind);

/* Whether the words are a circuit: ATZ_OK or NOT_CIRCUIT. Every other call tests this first. */
uint64_t atz_is_circuit(const uint64_t *circuit, size_t words);

/* A node, six words: kind, three words, mark, reference count. NOT_CIRCUIT, BAD_ID. */
uint64_t atz_read(const uint64_t *circuit, size_t words, uint64_t id, uint64_t *out, size_t room);

/* How many nodes there are, and how many more there is room for. NOT_CIRCUIT. */
uint64_t atz_used(const uint64_t *circuit, size_t words, uint64_t *out, size_t room);
uint64_t atz_free(const uint64_t *circuit, size_t words, uint64_t *out, size_t room);

/* Whether two nodes are equal by structure: 1 or 0. NOT_CIRCUIT, BAD_ID. */
uint64_t atz_equal(const uint64_t *circuit, size_t words, uint64_t i, uint64_t j, uint64_t *out, size_t room);

/* BUILDING. Each answers an id: of an equal node, or of a new one. A refusal makes no node. */

/* An input: row ATZ_MAIN.., column. NOT_CIRCUIT, BAD_ROW, BAD_INDEX, FULL. */
uint64_t atz_input(uint64_t *circuit, size_t words, uint64_t row, uint64_t column, uint64_t *out, size_t room);

/* A challenge. NOT_CIRCUIT, BAD_INDEX, FULL. */
uint64_t atz_challenge(uint64_t *circuit, size_t words, uint64_t index, uint64_t *out, size_t room);

/* A base constant. NOT_CIRCUIT, BAD_WORD, FULL. */
uint64_t atz_base_constant(uint64_t *circuit, size_t words, uint64_t word, uint64_t *out, size_t room);

/* The constants 0, 1 and -1. NOT_CIRCUIT, FULL. */
uint64_t atz_zero(uint64_t *circuit, size_t words, uint64_t *out, size_t room);
uint64_t atz_one(uint64_t *circuit, size_t words, uint64_t *out, size_t room);
uint64_t atz_minus_one(uint64_t *circuit, size_t words, uint64_t *out, size_t room);

/* The extension constant c0 + c1·X + c2·X²; a base constant if c1 = c2 = 0. NOT_CIRCUIT, BAD_WORD, FULL. */
uint64_t atz_extension_constant(uint64_t *circuit, size_t words, uint64_t c0, uint64_t c1, uint64_t c2, uint64_t *out, size_t room);

/* left + right, left · right, left - right, -a. NOT_CIRCUIT, BAD_ID, FULL. */
uint64_t atz_add(uint64_t *circuit, size_t words, uint64_t left, uint64_t right, uint64_t *out, size_t room);
uint64_t atz_multiply(uint64_t *circuit, size_t words, uint64_t left, uint64_t right, uint64_t *out, size_t room);
uint64_t atz_subtract(uint64_t *circuit, size_t words, uint64_t left, uint64_t right, uint64_t *out, size_t room);
uint64_t atz_negate(uint64_t *circuit, size_t words, uint64_t a, uint64_t *out, size_t room);

/* The sum of a list of ids, from the left; of one id, that id. NOT_CIRCUIT, BAD_ID, FULL, EMPTY. */
uint64_t atz_sum(uint64_t *circuit, size_t words, const uint64_t *ids, size_t count, uint64_t *out, size_t room);

/* READINGS. They write nothing but `out`. */

/* Whether a node is the constant 0, 1, -1: 1 or 0. NOT_CIRCUIT, BAD_ID. */
uint64_t atz_is_zero(const uint64_t *circuit, size_t words, uint64_t id, uint64_t *out, size_t room);
uint64_t atz_is_one(const uint64_t *circuit, size_t words, uint64_t id, uint64_t *out, size_t room);
uint64_t atz_is_minus_one(const uint64_t *circuit, size_t words, uint64_t id, uint64_t *out, size_t room);

/* The degree of a node, and the highest of a list of roots (of none, -1): read out[0] as an int64_t, -1 for the zero constant.
 * NOT_CIRCUIT, BAD_ID, DEGREE. */
uint64_t atz_degree(const uint64_t *circuit, size_t words, uint64_t id, uint64_t *out, size_t room);
uint64_t atz_highest(const uint64_t *circuit, size_t words, const uint64_t *roots, size_t count, uint64_t *out, size_t room);

/* Whether a node is made of base constants and main inputs only: 1 or 0. NOT_CIRCUIT, BAD_ID. */
uint64_t atz_base_test(const uint64_t *circuit, size_t words, uint64_t id, uint64_t *out, size_t room);

/* A node's value, three words. Tables: one word a main column, three an auxiliary column or a challenge; of a dual-row circuit two rows, the next
 * row the second half. Tests in this order: NOT_CIRCUIT, BAD_ID, TABLE, BAD_WORD (every word of the three lists). */
uint64_t atz_evaluate(const uint64_t *circuit, size_t words, uint64_t id, const uint64_t *main, size_t main_words, const uint64_t *aux,
                      size_t aux_words, const uint64_t *challenges, size_t challenge_words, uint64_t *out, size_t room);

/* How many structural classes lie below the roots, roots included. NOT_CIRCUIT, BAD_ID. */
uint64_t atz_visible(const uint64_t *circuit, size_t words, const uint64_t *roots, size_t count, uint64_t *out, size_t room);

/* WALK AND REFERENCE COUNTS */

/* The in-order walk from each root after the other, along each path: ids into the list; out[0] how many. The stack needs as many words as there are
 * used nodes, and ends zero up to there. NOT_CIRCUIT, BAD_ID, NO_ROOM. */
uint64_t atz_walk(const uint64_t *circuit, size_t words, const uint64_t *roots, size_t count, uint64_t *list, size_t list_words,
                  uint64_t *stack, size_t stack_words, uint64_t *out, size_t room);

/* Writes to each node below the roots the number of paths from the roots to it. Tests in this order: NOT_CIRCUIT, BAD_ID, REPEAT, PATHS. */
uint64_t atz_count_references(uint64_t *circuit, size_t words, const uint64_t *roots, size_t count);

/* The sorted distinct reference counts below an id, into the list; out[0] how many. NOT_CIRCUIT, BAD_ID, NO_ROOM. */
uint64_t atz_distinct_counts(const uint64_t *circuit, size_t words, uint64_t id, uint64_t *list, size_t list_words, uint64_t *out, size_t room);

/* LOWERING */

/* Lowers the degree of the roots to the target. Each substitution adds a current-row column, main ones from main_count on, auxiliary ones from
 * aux_count on, with a constraint whose id goes to the main or the auxiliary list: constraint k of a list belongs to the column count + k. out[0] and
 * out[1]: how many of each. Roots that were substituted name their new input afterwards.
 * M is the number of distinct ids of degree above 1 below the roots; ATZ_MOST_NODES places in each list are always enough.
 * Tests in this order: NOT_CIRCUIT, TARGET, BAD_ID, DEGREE; then no roots, or all within the target, is accepted with two empty lists; then LOOSE,
 * COLUMNS, PATHS, FULL, NO_ROOM. */
uint64_t atz_lower(uint64_t *circuit, size_t words, uint64_t *roots, size_t count, uint64_t target, uint64_t main_count, uint64_t aux_count,
                   uint64_t *main_list, size_t main_room, uint64_t *aux_list, size_t aux_room, uint64_t *out, size_t room);

/* FILLING THE NEW COLUMNS */

/* Computes the new columns of one row, from a lowering's two lists in their order and its column counts: each new main value into main from main_count
 * on, then each new auxiliary value into aux from 3·aux_count on; all other words are only read. A dual-row circuit is given both rows, and the current
 * one is filled. The cells to be filled may hold anything. With the lists of the circuit's latest accepted lowering the result is the one choice that
 * makes every listed constraint zero; nodes may have been built since. Main columns can be filled before there are challenges: with an empty auxiliary
 * list, aux_count 0, no auxiliary words and no challenges; the auxiliary ones later, with the filled main columns counted as old.
 * Tests in this order: NOT_CIRCUIT, BAD_ID, TABLE (also a row with fewer columns than its count and its list), BAD_WORD (every word but the cells to be
 * filled), NOT_LOWERED. */
uint64_t atz_fill(const uint64_t *circuit, size_t words, const uint64_t *main_list, size_t main_new, const uint64_t *aux_list, size_t aux_new,
                  uint64_t main_count, uint64_t aux_count, uint64_t *main, size_t main_words, uint64_t *aux, size_t aux_words,
                  const uint64_t *challenges, size_t challenge_words);

/* The same for rows that stand one after the other: `rows` rows of equal width. A dual-row circuit reads the row after as the next row and fills all
 * but the last, from the last to the first. The circuit and the lists are checked once. TABLE also for fewer rows than the circuit reads. */
uint64_t atz_fill_rows(const uint64_t *circuit, size_t words, const uint64_t *main_list, size_t main_new, const uint64_t *aux_list, size_t aux_new,
                       uint64_t main_count, uint64_t aux_count, uint64_t rows, uint64_t *main, size_t main_words, uint64_t *aux, size_t aux_words,
                       const uint64_t *challenges, size_t challenge_words);

#ifdef __cplusplus
}
#endif

#endif
