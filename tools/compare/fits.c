// Fits, lone solver calls and predictions against a file that the oracle answered.
#include <fcntl.h>
#include <stdio.h>
#include <stdlib.h>
#include <string.h>
#include <sys/stat.h>
#include <unistd.h>

#include "calls.h"
#include "kinds.h"

// ---- fits

struct fit {
    u64 flags;
    const u64 *problem, *told; // the words behind the kind; the oracle's answer
};

static u64 whole_fits, pauses, calls, steps, by_mode[4], by_end[12]; // an end is 1, 2 or the refusal

// Truth is any word but 0; panels are looked at where the fit is lazy only.
static void settle(struct call *c, const struct fit *q) {
    static const u64 most_rows[] = {2, 16, 64, 256}, most_columns[] = {2, 8, 32};
    c->settings[0] = q->problem[4], c->settings[1] = q->problem[5], c->settings[2] = q->problem[6], c->settings[3] = q->problem[3];
    c->settings[6] = q->flags & 1 ? between(1, 3) : 0;
    c->settings[7] = q->flags & 2 ? between(1, 3) : 0;
    c->settings[4] = q->flags & 2 ? between(1, most_rows[below(4)]) : word() >> below(64);
    c->settings[5] = q->flags & 2 ? between(1, most_columns[below(3)]) : word() >> below(64);
}

// Scratch, weights, record and answer hold anything before a start.
static int begun(struct call *c, const struct fit *q) {
    size_t n = c->n = q->problem[0], p = c->p = q->problem[1];
    *c = (struct call){n, p, n * p, n, SETTINGS, RECORD, 0, p, ANSWER, 0, NULL, NULL, NULL, NULL, NULL, NULL, NULL};
    lay(c);
    memcpy(c->x, q->problem + 7, n * p * 8);
    memcpy(c->y, q->problem + 7 + n * p, n * 8);
    settle(c, q);
    c->need = need_of(n, p, c->settings);
    c->s_len = c->need + below(24);
    lay(c);
    seal();
    mark(c->s, c->s_len), mark(c->w, p), mark(c->rec, RECORD), mark(c->answer, ANSWER);
    take(&first, c);
    u64 number = start(c), refused = q->told[0] == 0 && q->told[1] == 6;
    u64 due[ANSWER] = {0};
    if (refused) due[0] = 3, memcpy(due + 1, q->told + 1, sizeof due - sizeof *due);
    same("answer of a start", c->answer, due, ANSWER);
    same("number of a start", &number, due + 1, 1);
    if (refused) {
        unwritten(&first, c);
        return 0;
    }
    all_zero("fresh record", c->rec, 6);
    still_pending(c, &first, 1);
    one_nan("scratch of a start", c->s, NULL, c->need);
    return 1;
}

static void ended(const struct call *c, const struct fit *q, u64 number) {
    u64 due[ANSWER];
    memcpy(due, q->told, sizeof due);
    if (due[0] == 0) due[0] = 3;
    same("answer", c->answer, due, ANSWER);
    same("number", &number, due + 1, 1);
    same("weights", c->w, q->told + ANSWER, c->p);
    nothing_left(c, &first);
}

// An ended record is refused, and nothing is written.
static void over(struct call *c) {
    take(&second, c);
    u64 number = resume(c, word() >> below(64)), due[ANSWER] = {3, 9, 0, c->rec[3], c->rec[4], c->rec[5], 0};
    same("answer to an ended record", c->answer, due, ANSWER);
    same("number for an ended record", &number, due + 1, 1);
    unwritten(&second, c);
}

// Budgets up to a bound drawn for each fit, raised where the calls would be too many.
static void paused(struct call *c, const struct fit *q) {
    static const u64 bounds[] = {1, 4, 20, 100, 400};
    u64 all = steps_in(q->told + 3), bound = bounds[below(5)], number = 0;
    if (bound < all / 2000) bound = all / 2000;
    pauses++;
    do {
        u64 budget = below(4) ? between(0, bound) : 0, before = steps_in(c->rec + 3);
        take(&first, c);
        number = resume(c, budget);
        calls++;
        if (number || c->answer[0]) break;
        still_pending(c, &first, budget != 0);
        u64 taken = steps_in(c->rec + 3) - before;
        same("steps of a pending call", &taken, &budget, 1);
    } while (steps_in(c->rec + 3) <= all);
    ended(c, q, number);
    over(c);
}

// In one call, of a budget that is just enough or of any larger one; one of eight, by chance, also in pauses.
static void fit(const u64 *words, size_t count, u64 seed) {
    struct fit q = {words[3], words + 1, words + 8 + words[1] * words[2] + words[1]};
    struct call c;
    if (count != 8 + words[1] * words[2] + words[1] + ANSWER + words[2]) fail("a fit without its answer");
    seeded(seed, at);
    whole_fits++;
    by_mode[q.flags]++;
    by_end[q.told[0] ? q.told[0] : q.told[1]]++;
    if (!begun(&c, &q)) return;
    u64 all = steps_in(q.told + 3);
    steps += all;
    ended(&c, &q, resume(&c, below(2) ? all : all + (word() >> below(64)) % (UINT64_MAX - all)));
    if (below(8) == 0 && begun(&c, &q)) paused(&c, &q);
}

// ---- the solver alone, and predictions

static u64 solves, predictions;

static void solver(const u64 *words, size_t count, u64 seed) {
    size_t n = words[1];
    const u64 *a = words + 4, *told = a + n * n + 2 * n;
    if (count != 4 + n * n + 2 * n + 2 + n) fail("a solver problem without its answer");
    seeded(seed, at);
    struct call c = {n, n, n * n, n, 0, 0, 8 * n + below(24), n, ANSWER, 8 * n, NULL, NULL, NULL, NULL, NULL, NULL, NULL};
    lay(&c);
    memcpy(c.x, a, n * n * 8);
    memcpy(c.y, a + n * n, n * 8);
    memcpy(c.w, a + n * n + n, n * 8);
    seal();
    mark(c.s, c.s_len), mark(c.answer, ANSWER);
    take(&first, &c);
    alarm(LASTING);
    u64 number = xangoravit_solve(n, c.x, n * n, c.y, n, c.w, n, of_bits(words[3]), words[2], c.s, c.s_len, c.answer, ANSWER);
    u64 due[ANSWER] = {told[0] ? 3 : 1, told[0], 0, 0, 0, 0, told[1]};
    same("answer", c.answer, due, ANSWER);
    same("number", &number, told, 1);
    same("solution", c.w, told + 2, n);
    same("scratch behind the need", c.s + 8 * n, first.s + 8 * n, c.s_len - 8 * n);
    if (told[0]) unwritten(&first, &c);
    else all_zero("scratch after a solve", c.s, 8 * n);
    solves++;
}

static void predict(const u64 *words, size_t count, u64 seed) {
    size_t n = words[1], p = words[2];
    const u64 *x = words + 3, *w = x + n * p, *told = w + p + 1;
    if (count != 3 + n * p + p + 1 + n) fail("a prediction without its answer");
    seeded(seed, at);
    struct call c = {n, p, n * p, p, 0, 0, 0, n, ANSWER, 0, NULL, NULL, NULL, NULL, NULL, NULL, NULL};
    lay(&c);
    memcpy(c.x, x, n * p * 8);
    memcpy(c.y, w, p * 8);
    seal();
    mark(c.w, n), mark(c.answer, ANSWER);
    alarm(LASTING);
    u64 number = xangoravit_predict(n, p, c.x, n * p, c.y, p, of_bits(w[p]), c.w, n, c.answer, ANSWER), due[ANSWER] = {1};
    same("answer", c.answer, due, ANSWER);
    same("number", &number, due + 1, 1);
    same("predictions", c.w, told, n);
    predictions++;
}

// ---- files of words

static u64 hex(const char *text) {
    u64 value = 0;
    for (int i = 0; i < 16; i++) value = value << 4 | (u64)(text[i] <= '9' ? text[i] - '0' : text[i] - 'a' + 10);
    return value;
}

static void each_record(const char *path, void (*check)(const u64 *, size_t, u64), u64 seed) {
    struct stat of;
    int file = open(path, O_RDONLY);
    if (file < 0 || fstat(file, &of)) fail("no such file");
    const char *text = mmap(NULL, of.st_size, PROT_READ, MAP_PRIVATE, file, 0);
    u64 *words = malloc((MOST + 1) * 8);
    if (text == MAP_FAILED || !words) fail("no memory");
    u64 records = hex(text);
    for (text += 17; at < records; at++) {
        size_t count = hex(text);
        if (count > MOST) fail("a record is too long");
        text += 17;
        for (size_t i = 0; i < count; i++, text += 17) words[i] = hex(text);
        check(words, count, seed);
    }
    free(words);
}

static void tell_fits(void) {
    printf("fits %" PRIu64 " steps %" PRIu64 " in-pauses %" PRIu64 " calls-in-pauses %" PRIu64, whole_fits, steps, pauses, calls);
    for (int i = 0; i < 4; i++) printf(" mode-%d %" PRIu64, i, by_mode[i]);
    printf(" converged %" PRIu64 " limit %" PRIu64, by_end[1], by_end[2]);
    for (int i = 6; i < 9; i++) printf(" refused-%d %" PRIu64, i, by_end[i]);
}

void answered(const char *path, u64 seed) {
    each_record(path, !strcmp(what, "fits") ? fit : !strcmp(what, "solver") ? solver : predict, seed);
    if (whole_fits) tell_fits();
    if (solves) printf("solver %" PRIu64, solves);
    if (predictions) printf("predict %" PRIu64, predictions);
}
