// floor: the loops that a fit at 4,096 by 64 spends its time in, written by hand with the instructions of every x86-64 (SSE2: two numbers in a register). Of each the
// best shape that was tried; every sum has the order that the Rust fixes. It prints the microseconds of the best of many calls: what our compiled loops can be held to
// on this machine. The numbers are of no fit, so nothing is compared here. Built and run by `run --floor`.
#include <emmintrin.h>
#include <stdio.h>
#include <stdlib.h>
#include <string.h>
#include <time.h>

enum { COLS = 64, ROWS = 4096, STORED = ROWS + COLS, EIGHTH = 512, STORED_EIGHTH = 520 };
typedef __m128d two;

static double *design, *scaled, centre[COLS], by[COLS], v[STORED], w[STORED], out[STORED], other[COLS], gram[COLS * COLS];

static two at(const double *p) { return _mm_loadu_pd(p); }
static void put(double *p, two x) { _mm_storeu_pd(p, x); }
static two all(double x) { return _mm_set1_pd(x); }
static two times(two x, two y) { return _mm_mul_pd(x, y); }
static two plus(two x, two y) { return _mm_add_pd(x, y); }
static two normal(two x, size_t j) { return times(_mm_sub_pd(x, at(centre + j)), at(by + j)); }

// One row from each eighth, two columns at a time.
static inline __attribute__((always_inline)) void rows_of(size_t eighth, int lazy) {
    for (size_t i = 0; i < eighth; i++) {
        two sum[4] = {all(0), all(0), all(0), all(0)};
        for (size_t j = 0; j < COLS; j += 2)
            for (size_t k = 0; k < 4; k++) {
                const double *row = design + (2 * k * eighth + i) * COLS + j;
                two a = at(row), b = at(row + eighth * COLS);
                if (lazy) a = normal(a, j), b = normal(b, j);
                sum[k] = plus(sum[k], times(_mm_unpacklo_pd(a, b), all(v[j])));
                sum[k] = plus(sum[k], times(_mm_unpackhi_pd(a, b), all(v[j + 1])));
            }
        for (size_t k = 0; k < 4; k++) _mm_storel_pd(out + 2 * k * eighth + i, sum[k]), _mm_storeh_pd(out + (2 * k + 1) * eighth + i, sum[k]);
    }
}

static void rows(void) { rows_of(STORED_EIGHTH, 0); }
static void lazy_rows(void) { rows_of(EIGHTH, 1); }

// Both transposed products: eight columns' sums of each stay in registers over all rows.
static inline __attribute__((always_inline)) void columns_of(size_t n) {
    for (size_t j = 0; j < COLS; j += 8) {
        two p[4] = {all(0), all(0), all(0), all(0)}, q[4] = {all(0), all(0), all(0), all(0)};
        for (size_t i = 0; i < n; i++)
            for (size_t k = 0; k < 4; k++) {
                two a = at(design + i * COLS + j + 2 * k);
                p[k] = plus(p[k], times(all(v[i]), a)), q[k] = plus(q[k], times(all(w[i]), a));
            }
        for (size_t k = 0; k < 4; k++) put(out + j + 2 * k, p[k]), put(other + j + 2 * k, q[k]);
    }
}

static void columns_both(void) { columns_of(STORED); }

// Over 32 rows, which the first cache holds, as often as makes as many.
static void columns_again(void) {
    for (size_t i = 0; i < STORED; i += 32) columns_of(32);
}

// The same of a design that is not stored, four rows to each sum.
static void lazy_columns_both(void) {
    memset(out, 0, sizeof other), memset(other, 0, sizeof other);
    for (size_t i = 0; i < ROWS; i += 4)
        for (size_t j = 0; j < COLS; j += 2) {
            two p = at(out + j), q = at(other + j);
            for (size_t k = 0; k < 4; k++) {
                two a = normal(at(design + (i + k) * COLS + j), j);
                p = plus(p, times(all(v[i + k]), a)), q = plus(q, times(all(w[i + k]), a));
            }
            put(out + j, p), put(other + j, q);
        }
}

// The lower half of the Gram: four rows to each sum, two rows of entries at a time.
static void gram_sums(void) {
    memset(gram, 0, sizeof gram);
    for (size_t i = 0; i < STORED; i += 4)
        for (size_t r = 0; r < COLS; r += 2) {
            const double *a = design + i * COLS;
            double *g = gram + r * COLS;
            two x[4], z[4];
            for (size_t k = 0; k < 4; k++) x[k] = all(a[k * COLS + r]), z[k] = all(a[k * COLS + r + 1]);
            for (size_t j = 0; j < r + 2; j += 2) {
                two p = at(g + j), q = at(g + COLS + j);
                for (size_t k = 0; k < 4; k++) {
                    two y = at(a + k * COLS + j);
                    p = plus(p, times(x[k], y)), q = plus(q, times(z[k], y));
                }
                put(g + j, p), put(g + COLS + j, q);
            }
        }
}

static void statistics(void) {
    memset(out, 0, sizeof other), memset(other, 0, sizeof other);
    for (size_t i = 0; i < ROWS; i += 4)
        for (size_t j = 0; j < COLS; j += 2) {
            two p = at(out + j), q = at(other + j);
            for (size_t k = 0; k < 4; k++) {
                two a = at(design + (i + k) * COLS + j);
                p = plus(p, a), q = plus(q, times(a, a));
            }
            put(out + j, p), put(other + j, q);
        }
}

static void scale(void) {
    for (size_t i = 0; i < ROWS; i++)
        for (size_t j = 0; j < COLS; j += 2) put(scaled + i * COLS + j, times(all(0.7), _mm_div_pd(_mm_sub_pd(at(design + i * COLS + j), at(centre + j)), at(by + j))));
}

static double now(void) {
    struct timespec t;
    clock_gettime(CLOCK_MONOTONIC, &t);
    return t.tv_sec * 1e6 + t.tv_nsec * 1e-3;
}

static void timed(const char *name, void (*loop)(void)) {
    double best = 1e9;
    for (int call = 0; call < 300; call++) {
        double begun = now();
        loop();
        double taken = now() - begun;
        if (taken < best) best = taken;
    }
    printf("| %s | %.1f |\n", name, best);
}

int main(void) {
    design = aligned_alloc(64, STORED * COLS * sizeof *design), scaled = aligned_alloc(64, STORED * COLS * sizeof *scaled);
    if (!design || !scaled) return 2;
    for (size_t i = 0; i < STORED * COLS; i++) design[i] = (double)(i * 7919 % 1000) / 1000 - 0.5;
    for (size_t i = 0; i < STORED; i++) v[i] = (double)(i % 7) - 3, w[i] = (double)(i % 5) - 2;
    for (size_t j = 0; j < COLS; j++) centre[j] = 0.01 * (double)j, by[j] = 1 + 0.02 * (double)j;
    printf("| loop, by hand | µs |\n|---|--:|\n");
    timed("eager design times vector", rows);
    timed("both eager transposed products", columns_both);
    timed("the same over 32 rows, 130 times", columns_again);
    timed("half of the eager Gram", gram_sums);
    timed("scaling", scale);
    timed("a walk of the statistics", statistics);
    timed("lazy design times vector", lazy_rows);
    timed("both lazy transposed products", lazy_columns_both);
}
