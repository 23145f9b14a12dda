// Builds a circuit of a given kind and size in memory, has it checked, and prints the answer: 1 for a circuit.
//   measure KIND NODES check          KIND: grown, chain (descending), cycle (a chain whose last squares the first)
//   measure KIND NODES check stack    how many bytes of stack the call takes
//   measure KIND NODES check time     microseconds a call
#include "measure.h"

uint64_t bench_check(const uint64_t *m, uint64_t len);

static uint64_t run(void) { return bench_check(words, len); }

int main(int argc, char **argv) {
    if (argc < 4) return 2;
    uint64_t n = strtoull(argv[2], 0, 10);
    words[0] = 1, words[1] = n;
    if (!strcmp(argv[1], "grown")) grown(n);
    else chain(n);
    if (!strcmp(argv[1], "cycle") && n) put(n - 1, MULTIPLY, 0, 0);
    return tell(argv[4]);
}
