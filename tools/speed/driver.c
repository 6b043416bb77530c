// driver PIECE N P COUNT CALLS [result]: our side of a comparison. The numbers, the sum and the line that it prints are those of the oracle's `measure` (oracle/rust/measure.rs).
// It makes CALLS calls of COUNT repetitions each, clears the scratch before each call, and prints a sum over the last result's bits and the nanoseconds of the best call;
// of a fit also rounds, solver rounds and trials. fit-eager:M and fit-lazy:M are fits of M rounds. With the word `result` the last result follows, a number a line: of a
// fit the weights, then the intercept.
#include <float.h>
#include <inttypes.h>
#include <stdint.h>
#include <stdio.h>
#include <stdlib.h>
#include <string.h>
#include <time.h>

#include "../../examples/c/xangoravit.h"
#include "../bits.h"

// Slices pass as pointer and length. An answer is the result's place in the scratch; 0 says that a size or a setting was wrong.
extern size_t measure_round(const double *gram, size_t gram_len, const double *given, size_t given_len, size_t p, double tol, size_t count, double *s, size_t s_len);
extern size_t measure_piece(size_t what, const double *m, size_t m_len, const double *given, size_t given_len, size_t n, size_t p,
                            const uint64_t *settings, size_t settings_len, size_t count, double *s, size_t s_len);

static const double ALPHA = 0.1, L1_RATIO = 0.5, TOL = DBL_MIN;
static const size_t PANEL_ROWS = 256, PANEL_COLS = 32; // the Rust's panels
static const size_t LENT = 289536, WORDS = 289536 + 4417;                  // the most that a fit needs; with the longest result, a trial's, behind it

static void fail(const char *why) {
    fprintf(stderr, "driver: %s\n", why);
    exit(2);
}

static double *room(size_t count) {
    double *all = calloc(count, sizeof *all);
    if (!all) fail("no memory");
    return all;
}

// Numbers of (-1, 1) by SplitMix64.
static uint64_t state;

static double next(void) {
    uint64_t w = state += 0x9e3779b97f4a7c15;
    w = (w ^ (w >> 30)) * 0xbf58476d1ce4e5b9;
    w = (w ^ (w >> 27)) * 0x94d049bb133111eb;
    w ^= w >> 31;
    return ((double)(w >> 12) + 0.5) * 0x1p-51 - 1.0;
}

static double *numbers(size_t count) {
    double *all = room(count);
    for (size_t i = 0; i < count; i++) all[i] = next();
    return all;
}

struct problem {
    size_t n, p;
    double *x;       // n by p
    double *y;       // n: of a whole fit
    double *vectors; // p, then n + p
    double *gram;    // p by p
    double *given;   // d1, d2, prb, prs, dxu, grad
};

// The Gram of x as it is; d1, d2, prb and prs of weights within bounds of 1 at t = 1; a start of +0; the right side.
static void newton(struct problem *q, const double *grad) {
    size_t n = q->n, p = q->p;
    q->gram = room(p * p);
    q->given = room(8 * p);
    for (size_t r = 0; r < p; r++)
        for (size_t c = 0; c < p; c++) {
            double sum = 0.0;
            for (size_t i = 0; i < n; i++) sum += q->x[i * p + r] * q->x[i * p + c];
            q->gram[r * p + c] = sum;
        }
    for (size_t i = 0; i < p; i++) {
        double q1 = 1.0 / (1.0 + q->vectors[i]), q2 = 1.0 / (1.0 - q->vectors[i]);
        double a = q1 * q1 + q2 * q2, b = q1 * q1 - q2 * q2;
        q->given[i] = a;
        q->given[p + i] = b;
        q->given[2 * p + i] = 2.0 + a;
        q->given[3 * p + i] = (2.0 + a) * a - b * b;
    }
    memcpy(q->given + 6 * p, grad, 2 * p * sizeof *grad);
}

static struct problem problem(size_t n, size_t p) {
    struct problem q = {.n = n, .p = p};
    state = n * 1000 + p;
    q.x = numbers(n * p);
    q.y = numbers(n);
    q.vectors = numbers(n + 2 * p);
    for (size_t i = 0; i < n; i++) {
        double sum = 0.0;
        for (size_t j = 0; j < p; j++) sum += q.x[i * p + j] * q.vectors[j];
        q.y[i] = sum + 0.1 * q.y[i];
    }
    double *grad = numbers(2 * p);
    newton(&q, grad);
    free(grad);
    return q;
}

enum side { ROUND, LAZY, EAGER, FIT, TRIAL, STEP, PREDICT };

static const struct piece {
    const char *name;
    enum side side;
    size_t what;
} pieces[] = {
    {"round", ROUND, 1}, {"lazy-gram", LAZY, 3}, {"lazy-rows", LAZY, 4}, {"lazy-columns", LAZY, 5}, {"statistics", EAGER, 1},
    {"scale", EAGER, 2}, {"ab", EAGER, 3}, {"eager-rows", EAGER, 4}, {"eager-columns", EAGER, 5},
    {"fit-eager", FIT, 0}, {"fit-lazy", FIT, 1}, {"trial-eager", TRIAL, 0}, {"trial-lazy", TRIAL, 1}, {"step-eager", STEP, 0}, {"step-lazy", STEP, 1},
    {"predict", PREDICT, 0},
};

static uint64_t settings[XANGORAVIT_SETTINGS], record[XANGORAVIT_RECORD], answer[XANGORAVIT_ANSWER];

// Of a fit that normalises, of `limit` rounds with a tolerance that none reaches; without a limit, of as many as 1e-4 takes.
static void set(int lazy, const char *limit) {
    const uint64_t all[] = {bits_of(ALPHA), bits_of(L1_RATIO), bits_of(limit ? 0.0 : 1e-4), limit ? strtoul(limit, NULL, 10) : 1000, PANEL_ROWS, PANEL_COLS, 1, lazy};
    memcpy(settings, all, sizeof all);
}

static int start(const struct problem *q, double *s) {
    size_t n = q->n, p = q->p;
    return !xangoravit_start(n, p, q->x, n * p, q->y, n, settings, XANGORAVIT_SETTINGS, s, LENT, record, XANGORAVIT_RECORD, answer, XANGORAVIT_ANSWER);
}

static int resume(const struct problem *q, double *s, uint64_t budget) {
    size_t n = q->n, p = q->p;
    return !xangoravit_resume(n, p, q->x, n * p, q->y, n, settings, XANGORAVIT_SETTINGS, record, XANGORAVIT_RECORD, s, LENT, s + LENT, p, budget, answer, XANGORAVIT_ANSWER);
}

// Whole fits, each started anew and resumed once. Weights and intercept go behind the scratch that a fit may need.
static size_t fit(const struct problem *q, size_t count, double *s) {
    for (size_t i = 0; i < count; i++)
        if (!start(q, s) || !resume(q, s, UINT64_MAX)) return 0;
    if (answer[XANGORAVIT_KIND] != (settings[XANGORAVIT_TOL] ? XANGORAVIT_CONVERGED : XANGORAVIT_LIMIT)) return 0;
    memcpy(s + LENT + q->p, answer + XANGORAVIT_LAST, sizeof *s);
    return LENT;
}

// A fit in its first round, before a trial, at the places of crate layout: half of the first vector as the weights, a tenth of the right side as the direction, bounds
// and t of 1. phi and gdx are 0, so that no trial is accepted.
static int before_trial(const struct problem *q, double *s) {
    size_t p = q->p;
    const uint64_t one = bits_of(1.0), before[XANGORAVIT_RECORD] = {2, 0, 0, 1, 1, 0, one, one};
    if (!start(q, s)) return 0;
    for (size_t i = 0; i < p; i++) s[i] = 0.5 * q->vectors[i];
    for (size_t i = 0; i < 2 * p; i++) s[14 * p + i] = 0.1 * q->given[6 * p + i];
    memcpy(record, before, sizeof before);
    return 1;
}

// Trials in one call, or in a call each.
static size_t trials(const struct problem *q, size_t count, size_t calls, double *s) {
    for (size_t i = 0; i < calls; i++)
        if (!resume(q, s, count / calls)) return 0;
    return record[0] == 2 && record[1] == count ? LENT : 0;
}

// What trials leave: neww, newu, newf, newz and the halved step.
static void gather(const struct problem *q, double *s) {
    size_t n = q->n, p = q->p;
    double *to = s + LENT;
    memcpy(to, s + 2 * p, 2 * p * sizeof *s);
    memcpy(to + 2 * p, s + 6 * p, 2 * p * sizeof *s);
    size_t behind = xangoravit_scratch_words(n, p, settings, XANGORAVIT_SETTINGS) - (settings[XANGORAVIT_LAZY] ? 1 : 1 + p) * (n + p);
    memcpy(to + 4 * p, s + behind, (n + p) * sizeof *s);
    to[5 * p + n] = of_bits(record[7]);
}

static size_t predict(const struct problem *q, size_t count, double *s) {
    size_t n = q->n, p = q->p;
    for (size_t i = 0; i < count; i++)
        if (xangoravit_predict(n, p, q->x, n * p, q->vectors, p, q->vectors[p], s + LENT, n, answer, XANGORAVIT_ANSWER)) return 0;
    return LENT;
}

static size_t call(enum side side, size_t what, const struct problem *q, size_t count, double *s, size_t words) {
    size_t n = q->n, p = q->p, vectors = n + 2 * p;
    switch (side) {
    case ROUND: return measure_round(q->gram, p * p, q->given, 8 * p, p, TOL, count, s, words);
    case FIT: return fit(q, count, s);
    case TRIAL: return trials(q, count, 1, s);
    case STEP: return trials(q, count, count, s);
    case PREDICT: return predict(q, count, s);
    default: return measure_piece(what, q->x, n * p, q->vectors, vectors, n, p, settings, XANGORAVIT_SETTINGS, count, s, words);
    }
}

// What a piece finds in the scratch: nothing; a paused fit; statistics and vectors; these and the stored design.
static int ready(const struct piece *of, const struct problem *q, double *s, size_t words) {
    if (of->side == ROUND || of->side == FIT || of->side == PREDICT) return 1;
    if (of->side == TRIAL || of->side == STEP) return before_trial(q, s);
    if (!call(of->side, 0, q, 1, s, words)) return 0;
    return of->side == LAZY || of->what <= 2 || call(EAGER, 2, q, 1, s, words);
}

static size_t length(const struct piece *of, size_t n, size_t p) {
    size_t lengths[] = {0, 2 * p, (n + p) * p, p * p, n + p, p};
    switch (of->side) {
    case ROUND: return 2 * p;
    case FIT: return p + 1;
    case TRIAL:
    case STEP: return n + 5 * p + 1;
    case PREDICT: return n;
    default: return lengths[of->what];
    }
}

static uint64_t now(void) {
    struct timespec t;
    clock_gettime(CLOCK_MONOTONIC, &t);
    return (uint64_t)t.tv_sec * 1000000000 + t.tv_nsec;
}

static uint64_t sum_of(const double *values, size_t count) {
    uint64_t sum = 0;
    for (size_t i = 0; i < count; i++) sum = ((sum << 5 | sum >> 59) ^ bits_of(values[i])) * 0x9e3779b97f4a7c15;
    return sum;
}

int main(int argc, char **argv) {
    int showing = argc == 7 && !strcmp(argv[6], "result");
    if (argc != 6 + showing) fail("usage: driver PIECE N P COUNT CALLS [result]");
    const struct piece *of = NULL;
    const char *name = strtok(argv[1], ":"), *limit = strtok(NULL, ":");
    for (size_t i = 0; i < sizeof pieces / sizeof *pieces; i++)
        if (name && !strcmp(name, pieces[i].name)) of = pieces + i;
    size_t n = strtoul(argv[2], NULL, 10), p = strtoul(argv[3], NULL, 10), count = strtoul(argv[4], NULL, 10), calls = strtoul(argv[5], NULL, 10);
    if (!of || n < 2 || n > 4096 || p < 1 || p > 64 || count < 1 || calls < 1) fail("no such piece, or a size is wrong");
    struct problem q = problem(n, p);
    set(of->side == LAZY || (of->side > EAGER && of->what), limit); // of a fit, a trial or a step `what` says whether it is lazy
    double *s = room(WORDS);
    uint64_t best = UINT64_MAX;
    size_t at = 0;
    for (size_t i = 0; i < calls; i++) {
        memset(s, 0, WORDS * sizeof *s);
        if (!ready(of, &q, s, WORDS)) fail("refused");
        uint64_t start = now();
        at = call(of->side, of->what, &q, count, s, WORDS);
        uint64_t taken = now() - start;
        if (!at) fail("refused");
        if (taken < best) best = taken;
    }
    if (of->side == TRIAL || of->side == STEP) gather(&q, s);
    printf("%s %zu %zu %zu %016" PRIx64 " %" PRIu64, of->name, n, p, count, sum_of(s + at, length(of, n, p)), best);
    for (size_t i = XANGORAVIT_COUNT_ROUNDS; of->side == FIT && i < XANGORAVIT_LAST; i++) printf(" %" PRIu64, answer[i]);
    printf("\n");
    for (size_t i = 0; showing && i < length(of, n, p); i++) printf("%.17g\n", s[at + i]);
    return 0;
}
