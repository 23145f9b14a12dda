// Builds a circuit of a given kind and size in memory, asks one question of it, and prints the answer.
//   measure KIND NODES CALL          KIND: grown, chain, towers, grid    CALL: check, equal, classes
//   measure KIND NODES CALL stack    how many bytes of stack the call takes
//   measure KIND NODES CALL time     microseconds a call
#include "measure.h"

uint64_t bench_check(const uint64_t *m, uint64_t len);
uint64_t bench_equal(const uint64_t *m, uint64_t len, uint64_t i, uint64_t j);
uint64_t bench_classes(const uint64_t *m, uint64_t len, uint64_t i);

static const char *call;

static uint64_t run(void) {
    uint64_t n = words[1];
    if (!strcmp(call, "check")) return bench_check(words, len);
    if (!strcmp(call, "equal")) return bench_equal(words, len, n / 2 - 1, n - 1);
    return bench_classes(words, len, n - 1);
}

// Each node is over the one after it and the last.
static void fan(uint64_t n) {
    for (uint64_t i = 0; i + 1 < n; i++) put(i, MULTIPLY, i + 1, n - 1);
    put(n - 1, MAIN, 0, 0);
}

// Two equal towers of squarings, the second loose.
static void towers(uint64_t n) {
    uint64_t half = n / 2;
    for (uint64_t i = 0; i < n; i++) {
        if (i % half) put(i, MULTIPLY, i - 1, i - 1);
        else put(i, MAIN, 0, 0);
        words[2 + 6 * i + 4] = i < half;
    }
}

// Every product of two of the first inputs: as many keys that differ little as can be.
static void grid(uint64_t n) {
    uint64_t side = 1;
    while ((side + 1) * (side + 1) + side + 1 <= n) side++;
    for (uint64_t i = 0; i < n; i++) {
        if (i < side) put(i, MAIN, i, 0);
        else put(i, MULTIPLY, (i - side) / side % side, (i - side) % side);
    }
}

int main(int argc, char **argv) {
    if (argc < 4) return 2;
    uint64_t n = strtoull(argv[2], 0, 10);
    call = argv[3];
    words[0] = 1, words[1] = n;
    if (!strcmp(argv[1], "grown")) grown(n);
    if (!strcmp(argv[1], "chain")) fan(n);
    if (!strcmp(argv[1], "towers")) towers(n);
    if (!strcmp(argv[1], "grid")) grid(n);
    return tell(argv[4]);
}
