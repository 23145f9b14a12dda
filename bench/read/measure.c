// Builds a circuit of a given kind and size in memory, calls one of the readings on its last node, and prints the refusal's number, or 0.
//   measure KIND NODES CALL            CALL: check, zero, degree, highest, base, evaluate, visible
//   measure KIND NODES CALL stack      how many bytes of stack the call takes
//   measure KIND NODES CALL time       microseconds a call
// KIND: squarings, doublings, comb, chain; mixed: 8 main inputs, 4 auxiliary ones and 4 challenges, then sums and products of the node before and a
// random one.
#include "measure.h"

typedef const uint64_t *words_of;
uint64_t bench_check(words_of m, uint64_t len);
uint64_t bench_zero(words_of m, uint64_t len, uint64_t i);
uint64_t bench_degree(words_of m, uint64_t len, uint64_t i);
uint64_t bench_highest(words_of m, uint64_t len, words_of roots, uint64_t count);
uint64_t bench_base(words_of m, uint64_t len, uint64_t i);
uint64_t bench_evaluate(words_of m, uint64_t len, uint64_t i, words_of main, uint64_t mains, words_of aux, uint64_t auxs, words_of challenges, uint64_t count);
uint64_t bench_visible(words_of m, uint64_t len, words_of roots, uint64_t count);

static uint64_t cells[24], root;
static const char *call;

static uint64_t run(void) {
    if (!strcmp(call, "check")) return bench_check(words, len);
    if (!strcmp(call, "zero")) return bench_zero(words, len, root);
    if (!strcmp(call, "degree")) return bench_degree(words, len, root);
    if (!strcmp(call, "highest")) return bench_highest(words, len, &root, 1);
    if (!strcmp(call, "base")) return bench_base(words, len, root);
    if (!strcmp(call, "visible")) return bench_visible(words, len, &root, 1);
    return bench_evaluate(words, len, root, cells, 8, cells, 12, cells, 12);
}

static uint64_t random_below(uint64_t n) {
    static uint64_t state = 88172645463325252u;
    state ^= state << 13, state ^= state >> 7, state ^= state << 17;
    return state % n;
}

static void mixed(uint64_t n) {
    for (uint64_t i = 0; i < n; i++) {
        if (i < 8) put(i, MAIN, i, 0);
        else if (i < 12) put(i, AUX, i - 8, 0);
        else if (i < 16) put(i, CHALLENGE, i - 12, 0);
        else put(i, random_below(2) ? ADD : MULTIPLY, i - 1, random_below(i));
    }
}

int main(int argc, char **argv) {
    if (argc < 4) return 2;
    uint64_t n = strtoull(argv[2], 0, 10);
    int descending = !strcmp(argv[1], "chain");
    call = argv[3];
    words[0] = 1, words[1] = n;
    for (uint64_t k = 0; k < 24; k++) cells[k] = 0xfedcba9876543210u >> k;
    if (descending) chain(n);
    else if (!strcmp(argv[1], "mixed")) mixed(n);
    else ladder(argv[1], n);
    root = descending ? 0 : n - 1;
    return tell(argv[4]);
}
