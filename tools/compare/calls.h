// The calls of crate c_api, each slice in memory of its own, and what they must leave.
#ifndef CALLS_H
#define CALLS_H

#include "common.h"

// Slices pass as pointer and length.
extern u64 xangoravit_start(size_t n, size_t p, const u64 *x, size_t x_len, const u64 *y, size_t y_len, const u64 *settings, size_t settings_len, u64 *s, size_t s_len,
                            u64 *rec, size_t rec_len, u64 *answer, size_t answer_len);
extern u64 xangoravit_resume(size_t n, size_t p, const u64 *x, size_t x_len, const u64 *y, size_t y_len, const u64 *settings, size_t settings_len, u64 *rec, size_t rec_len,
                             u64 *s, size_t s_len, u64 *w, size_t w_len, u64 budget, u64 *answer, size_t answer_len);
extern u64 xangoravit_predict(size_t n, size_t p, const u64 *x, size_t x_len, const u64 *w, size_t w_len, double b, u64 *out, size_t out_len, u64 *answer, size_t answer_len);
extern u64 xangoravit_solve(size_t n, const u64 *a, size_t a_len, const u64 *b, size_t b_len, u64 *x, size_t x_len, double tol, size_t limit, u64 *s, size_t s_len,
                            u64 *answer, size_t answer_len);
extern size_t xangoravit_scratch_words(size_t n, size_t p, const u64 *settings, size_t settings_len);

enum { SETTINGS = 8, RECORD = 16, ANSWER = 7, MOST = 270000, SCRATCH = 290000 };

// One call's slices with their lengths: inputs, then what is lent.
struct call {
    size_t n, p, x_len, y_len, settings_len, rec_len, s_len, w_len, answer_len, need;
    u64 *x, *y, *settings, *rec, *s, *w, *answer;
};

// What the calls write, as it was at some time.
struct copy {
    u64 rec[RECORD + 1], answer[ANSWER + 1], w[5000], s[SCRATCH];
};

extern struct copy first, second;

void rooms(void);
void lay(struct call *c);
void seal(void);
u64 start(const struct call *c);
u64 resume(const struct call *c, u64 budget);
void take(struct copy *to, const struct call *c);
void give(const struct copy *from, const struct call *c);
int in_size(size_t n, size_t p);
int settled(const u64 *settings);
size_t need_of(size_t n, size_t p, const u64 *settings);
void unwritten(const struct copy *before, const struct call *c);
void nothing_left(const struct call *c, const struct copy *before);
void still_pending(const struct call *c, const struct copy *before, int stepped);

static inline u64 steps_in(const u64 *counts) { return counts[0] + counts[1] + counts[2]; }

#endif
