// root COUNT CALLS: CALLS calls of COUNT roots each, of positive finite numbers; prints a sum over the results' bits and the nanoseconds of the best call.
// Built and run by `run --root`.
#include <inttypes.h>
#include <stdio.h>
#include <stdlib.h>
#include <time.h>

#include "../bits.h"

extern double root(double);

// Patterns from all over those of positive finite numbers.
static double number(uint64_t i) {
    return of_bits(1 + i * 0x9e3779b97f4a7c15 % 0x7fefffffffffffff);
}

static int64_t now(void) {
    struct timespec t;
    clock_gettime(CLOCK_MONOTONIC, &t);
    return t.tv_sec * INT64_C(1000000000) + t.tv_nsec;
}

int main(int argc, char **argv) {
    long count = argc == 3 ? atol(argv[1]) : 0, calls = argc == 3 ? atol(argv[2]) : 0;
    double *given = count > 0 ? malloc(count * sizeof *given) : NULL;
    if (!given || calls <= 0) {
        fprintf(stderr, "usage: root COUNT CALLS\n");
        return 2;
    }
    for (long i = 0; i < count; i++) given[i] = number(i);
    uint64_t sum = 0;
    int64_t best = INT64_MAX;
    for (long call = 0; call < calls; call++) {
        int64_t begun = now();
        sum = 0;
        for (long i = 0; i < count; i++) sum = sum * 31 + bits_of(root(given[i]));
        int64_t took = now() - begun;
        if (took < best) best = took;
    }
    printf("%016" PRIx64 " %" PRId64 "\n", sum, best);
    return 0;
}
