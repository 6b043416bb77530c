// driver COUNT WHOLE: standard input has, each 8 bytes, COUNT arguments of a root, COUNT arguments of a logarithm and the COUNT answers of the latter, the
// COUNT left and the COUNT right arguments of a maximum and a minimum, then WHOLE arguments of a root and the WHOLE answers. Our root is held to the platform's
// sqrt and to those answers, our logarithm to its answers, our maximum and minimum to 01's rule in C's comparisons, bit for bit, with every NaN as one; a NaN of
// ours must be 7ff8000000000000.
#include <inttypes.h>
#include <math.h>
#include <stdio.h>
#include <stdlib.h>

#include "../bits.h"

extern double root(double);
extern double ln(double);
extern double maximum(double, double);
extern double minimum(double, double);

static long nans, other;

static uint64_t *words(long count) {
    uint64_t *all = malloc(count * sizeof *all);
    if (!all || fread(all, sizeof *all, count, stdin) != (size_t)count) {
        fprintf(stderr, "driver: too few words\n");
        exit(2);
    }
    return all;
}

// 1 if the values at x, or at x and y, differ; the first ten of each kind are shown
static long differ(const char *name, long so_far, const uint64_t *x, const uint64_t *y, double ours, double theirs) {
    uint64_t a = bits_of(ours), b = bits_of(theirs);
    if (isnan(ours)) {
        nans++;
        if (a != 0x7ff8000000000000) other++;
    }
    if (a == b || (isnan(ours) && isnan(theirs))) return 0;
    if (so_far < 10) {
        fprintf(stderr, "%s of %016" PRIx64, name, *x);
        if (y) fprintf(stderr, " and %016" PRIx64, *y);
        fprintf(stderr, ": %016" PRIx64 ", not %016" PRIx64 "\n", a, b);
    }
    return 1;
}

// A NaN is skipped if the other value is none; of +0 and -0 the maximum is +0 and the minimum is -0.
static double larger(double x, double y) {
    if (isnan(x) || isnan(y)) return isnan(y) ? x : y;
    if (x == 0 && y == 0) return signbit(x) && signbit(y) ? -0.0 : 0.0;
    return isgreater(x, y) ? x : y;
}

static double smaller(double x, double y) {
    if (isnan(x) || isnan(y)) return isnan(y) ? x : y;
    if (x == 0 && y == 0) return signbit(x) || signbit(y) ? -0.0 : 0.0;
    return isless(x, y) ? x : y;
}

int main(int argc, char **argv) {
    long count = argc == 3 ? atol(argv[1]) : 0, whole = argc == 3 ? atol(argv[2]) : 0;
    if (count <= 0 || whole <= 0) {
        fprintf(stderr, "usage: driver COUNT WHOLE\n");
        return 2;
    }
    uint64_t *roots = words(count), *logarithms = words(count), *answers = words(count), *left = words(count), *right = words(count);
    uint64_t *whole_roots = words(whole), *whole_answers = words(whole);
    long roots_differ = 0, whole_differ = 0, logarithms_differ = 0, maxima_differ = 0, minima_differ = 0;
    for (long i = 0; i < count; i++) {
        double x = of_bits(roots[i]);
        roots_differ += differ("root", roots_differ, roots + i, NULL, root(x), sqrt(x));
    }
    for (long i = 0; i < whole; i++) {
        whole_differ += differ("root by whole numbers", whole_differ, whole_roots + i, NULL, root(of_bits(whole_roots[i])), of_bits(whole_answers[i]));
    }
    for (long i = 0; i < count; i++) {
        logarithms_differ += differ("ln", logarithms_differ, logarithms + i, NULL, ln(of_bits(logarithms[i])), of_bits(answers[i]));
    }
    for (long i = 0; i < count; i++) {
        double x = of_bits(left[i]), y = of_bits(right[i]);
        maxima_differ += differ("maximum", maxima_differ, left + i, right + i, maximum(x, y), larger(x, y));
        minima_differ += differ("minimum", minima_differ, left + i, right + i, minimum(x, y), smaller(x, y));
    }
    printf("%ld roots: %ld differ; %ld roots by whole numbers: %ld differ; ", count, roots_differ, whole, whole_differ);
    printf("%ld logarithms: %ld differ; ", count, logarithms_differ);
    printf("%ld maxima: %ld differ; %ld minima: %ld differ; NaN patterns: %ld other of %ld\n", count, maxima_differ, count, minima_differ, other, nans);
    return roots_differ || whole_differ || logarithms_differ || maxima_differ || minima_differ || other;
}
