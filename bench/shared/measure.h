// What the measuring programs share: a circuit's words and some circuits, and what is told of one call.
#include <pthread.h>
#include <stdint.h>
#include <stdio.h>
#include <stdlib.h>
#include <string.h>
#include <time.h>

enum { CHALLENGE = 2, ADD = 3, MULTIPLY = 4, MAIN = 5, AUX = 6, PLACES = 4096 };
static uint64_t words[2 + 6 * PLACES];
static const uint64_t len = 2 + 6 * PLACES;

static void put(uint64_t i, uint64_t kind, uint64_t a, uint64_t b) {
    uint64_t *at = words + 2 + 6 * i;
    at[0] = kind, at[1] = a, at[2] = b, at[3] = 0, at[4] = 1, at[5] = 0;
}

// Sixteen inputs, then sums and products of nodes before them, as calls make them.
__attribute__((unused)) static void grown(uint64_t n) {
    uint64_t seed = 1;
    for (uint64_t i = 0; i < n; i++) {
        if (i < 16) {
            put(i, MAIN, i, 0);
            continue;
        }
        seed = seed * 6364136223846793005u + 1442695040888963407u;
        uint64_t a = (seed >> 33) % i;
        seed = seed * 6364136223846793005u + 1442695040888963407u;
        uint64_t b = (seed >> 33) % i;
        put(i, (seed >> 20) & 1 ? ADD : MULTIPLY, a, b);
    }
}

// Each node squares the one after it, the last is an input: the deepest that a walk can go.
__attribute__((unused)) static void chain(uint64_t n) {
    for (uint64_t i = 0; i + 1 < n; i++) put(i, MULTIPLY, i + 1, i + 1);
    if (n) put(n - 1, MAIN, 0, 0);
}

// An input, and each node squares or doubles the one before; or, a comb, adds the input to it.
__attribute__((unused)) static void ladder(const char *kind, uint64_t n) {
    for (uint64_t i = 0; i < n; i++) {
        if (!i) put(i, MAIN, 0, 0);
        else if (!strcmp(kind, "squarings")) put(i, MULTIPLY, i - 1, i - 1);
        else if (!strcmp(kind, "doublings")) put(i, ADD, i - 1, i - 1);
        else put(i, ADD, i - 1, 0);
    }
}

// The call that is measured: each program has its own.
static uint64_t run(void);

static void *once(void *unused) {
    (void)unused;
    run();
    return 0;
}

// Microseconds of processor time.
static double now(void) {
    struct timespec t;
    clock_gettime(CLOCK_PROCESS_CPUTIME_ID, &t);
    return t.tv_sec * 1e6 + t.tv_nsec / 1e3;
}

// The stack is filled with a pattern first: what the call did not reach still has it.
static size_t stack_used(void) {
    size_t size = 4 << 20, untouched = 0;
    unsigned char *stack = aligned_alloc(4096, size);
    memset(stack, 0xa5, size);
    pthread_attr_t attr;
    pthread_attr_init(&attr);
    pthread_attr_setstack(&attr, stack, size);
    pthread_t t;
    pthread_create(&t, &attr, once, 0);
    pthread_join(t, 0);
    while (untouched < size && stack[untouched] == 0xa5) untouched++;
    return size - untouched;
}

// The call's answer; or how many bytes of stack it takes; or microseconds a call.
static int tell(const char *what) {
    enum { TURNS = 1000 };
    if (!what) {
        printf("%llu\n", (unsigned long long)run());
    } else if (!strcmp(what, "stack")) {
        printf("%zu\n", stack_used());
    } else {
        double start = now();
        for (int k = 0; k < TURNS; k++) run();
        printf("%.1f\n", (now() - start) / TURNS);
    }
    return 0;
}
