// Builds a circuit of a given kind and size in memory, calls one of the calls on its last node, and prints the refusal's number, or 0.
//   measure KIND NODES CALL            CALL: check, walk, count, distinct
//   measure KIND NODES CALL stack      how many bytes of stack the call takes
//   measure KIND NODES CALL time       microseconds a call
// KIND: squarings, doublings, comb, chain; distinct: a comb whose reference counts all differ, the greatest first.
#include "measure.h"

uint64_t bench_check(const uint64_t *m, uint64_t len);
uint64_t bench_walk(const uint64_t *m, uint64_t len, const uint64_t *roots, uint64_t count, uint64_t *list, uint64_t room, uint64_t *stack, uint64_t depth);
uint64_t bench_count(uint64_t *m, uint64_t len, const uint64_t *roots, uint64_t count);
uint64_t bench_distinct(const uint64_t *m, uint64_t len, uint64_t i, uint64_t *list, uint64_t room);

static uint64_t list[1 << 16], stack[PLACES], root;
static const char *call;

static uint64_t run(void) {
    if (!strcmp(call, "check")) return bench_check(words, len);
    if (!strcmp(call, "walk")) return bench_walk(words, len, &root, 1, list, 1 << 16, stack, PLACES);
    if (!strcmp(call, "count")) return bench_count(words, len, &root, 1);
    return bench_distinct(words, len, root, list, 1 << 16);
}

int main(int argc, char **argv) {
    if (argc < 4) return 2;
    uint64_t n = strtoull(argv[2], 0, 10);
    int descending = !strcmp(argv[1], "chain");
    call = argv[3];
    words[0] = 1, words[1] = n;
    if (descending) chain(n);
    else ladder(argv[1], n);
    for (uint64_t i = 0; i < n && !strcmp(argv[1], "distinct"); i++) words[2 + 6 * i + 5] = n - i;
    root = descending ? 0 : n - 1;
    return tell(argv[4]);
}
