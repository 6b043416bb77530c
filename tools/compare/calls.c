// One call's slices, and what a call leaves, however it came about.
#include <string.h>
#include <unistd.h>

#include "calls.h"

static struct arena x_room, y_room, settings_room, rec_room, s_room, w_room, answer_room;

struct copy first, second;

void rooms(void) {
    x_room = arena(MOST), y_room = arena(5000), settings_room = arena(SETTINGS + 1), rec_room = arena(RECORD + 1);
    s_room = arena(SCRATCH), w_room = arena(5000), answer_room = arena(ANSWER + 1);
}

void lay(struct call *c) {
    allow(x_room, PROT_READ | PROT_WRITE);
    allow(y_room, PROT_READ | PROT_WRITE);
    allow(settings_room, PROT_READ | PROT_WRITE);
    c->x = slice(x_room, c->x_len);
    c->y = slice(y_room, c->y_len);
    c->settings = slice(settings_room, c->settings_len);
    c->rec = slice(rec_room, c->rec_len);
    c->s = slice(s_room, c->s_len);
    c->w = slice(w_room, c->w_len);
    c->answer = slice(answer_room, c->answer_len);
}

void seal(void) {
    allow(x_room, PROT_READ);
    allow(y_room, PROT_READ);
    allow(settings_room, PROT_READ);
}

u64 start(const struct call *c) {
    alarm(LASTING);
    return xangoravit_start(c->n, c->p, c->x, c->x_len, c->y, c->y_len, c->settings, c->settings_len, c->s, c->s_len, c->rec, c->rec_len, c->answer, c->answer_len);
}

u64 resume(const struct call *c, u64 budget) {
    alarm(LASTING);
    return xangoravit_resume(c->n, c->p, c->x, c->x_len, c->y, c->y_len, c->settings, c->settings_len, c->rec, c->rec_len, c->s, c->s_len, c->w, c->w_len, budget, c->answer,
                             c->answer_len);
}

void take(struct copy *to, const struct call *c) {
    memcpy(to->rec, c->rec, c->rec_len * 8);
    memcpy(to->answer, c->answer, c->answer_len * 8);
    memcpy(to->w, c->w, c->w_len * 8);
    memcpy(to->s, c->s, c->s_len * 8);
}

void give(const struct copy *from, const struct call *c) {
    memcpy(c->rec, from->rec, c->rec_len * 8);
    memcpy(c->answer, from->answer, c->answer_len * 8);
    memcpy(c->w, from->w, c->w_len * 8);
    memcpy(c->s, from->s, c->s_len * 8);
}

// ---- 01's ranges and its need, written down a second time

int in_size(size_t n, size_t p) { return n >= 1 && n <= 4096 && p >= 1 && p <= 64; }

static int in_range(u64 bits, double most) { return of_bits(bits) >= 0.0 && of_bits(bits) <= most; }

// Panels are looked at where the fit is lazy only.
int settled(const u64 *set) {
    if (!in_range(set[0], 1e6) || !in_range(set[1], 1.0) || !in_range(set[2], 0x1.fffffffffffffp1023) || set[3] > 1000) return 0;
    return !set[7] || (set[4] >= 1 && set[4] <= 256 && set[5] >= 1 && set[5] <= 32);
}

// p² + 40p + 4(n+p), plus (n+p)p eager, plus 2RC + C² lazy
size_t need_of(size_t n, size_t p, const u64 *settings) {
    size_t rows = settings[4], columns = settings[5], both = p * p + 40 * p + 4 * (n + p);
    return settings[7] ? both + 2 * rows * columns + columns * columns : both + (n + p) * p;
}

// ---- what a call leaves

// By a call that is refused, or pending without a step; whatever patterns the words have.
void unwritten(const struct copy *before, const struct call *c) {
    same("record that stays", c->rec, before->rec, c->rec_len);
    same("weights that stay", c->w, before->w, c->w_len);
    same("scratch that stays", c->s, before->s, c->s_len);
}

void nothing_left(const struct call *c, const struct copy *before) {
    u64 due[RECORD] = {3, 0, 0, c->answer[3], c->answer[4], c->answer[5]};
    same("record of an ended fit", c->rec, due, RECORD);
    all_zero("scratch after an end", c->s, c->need);
    same("scratch behind the need", c->s + c->need, before->s + c->need, c->s_len - c->need);
    if (c->answer[0] == 3) all_zero("weights of a refused fit", c->w, c->p);
    one_nan("weights", c->w, NULL, c->p);
    one_nan("intercept", c->answer + 6, NULL, 1);
}

void still_pending(const struct call *c, const struct copy *before, int stepped) {
    u64 due[ANSWER] = {0, 0, 0, c->rec[3], c->rec[4], c->rec[5], 0};
    same("answer of a pending fit", c->answer, due, ANSWER);
    if (!stepped) {
        unwritten(before, c);
        return;
    }
    same("weights of a pending fit", c->w, before->w, c->w_len);
    same("scratch behind the need", c->s + c->need, before->s + c->need, c->s_len - c->need);
    one_nan("record", c->rec + 6, NULL, 9);
    one_nan("scratch", c->s, before->s, c->need);
}
