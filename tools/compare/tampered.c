// Resumes of records and memory that no fit left, as many starts, and predictions and solves of wrong sizes, against 01's refusals 1 to 5 and 9 written down here
// a second time.
#include <stdio.h>
#include <string.h>
#include <unistd.h>

#include "calls.h"
#include "kinds.h"

// ---- 01's refusals

static int misplaced(u64 limit, const u64 *rec) {
    u64 stage = rec[0], index = rec[1], round = rec[2];
    if (stage > 2) return 1;
    if (round >= limit && !(stage == 0 && round == 0 && limit == 0)) return 1;
    if (stage == 1 && (index < 1 || index > 4999)) return 1;
    if (stage == 2 && index > 99) return 1;
    return rec[3] != round + (stage != 0);
}

static int overcounted(const u64 *rec) { return rec[4] > 4999 * rec[3] || rec[5] > 100 * rec[3]; }

// Words are slices too: 2 is theirs as well, and the settings are looked at only then.
static u64 limits(const struct call *c) {
    if (!in_size(c->n, c->p)) return 1;
    if (c->x_len != c->n * c->p || c->y_len != c->n || c->w_len != c->p) return 2;
    if (c->settings_len != SETTINGS || c->rec_len != RECORD || c->answer_len != ANSWER) return 2;
    if (!settled(c->settings)) return 3;
    return c->s_len < need_of(c->n, c->p, c->settings) ? 4 : 0;
}

// A record that may be gone on with more often than not.
static void tampered_record(u64 limit, u64 *rec) {
    rec[0] = rarely() ? word() >> below(64) : below(10) ? below(3) : below(6);
    rec[1] = below(4) == 0 ? beside(rec[0] == 2 ? 99 : 4999) : rec[0] == 2 ? below(100) : between(1, 4999);
    rec[2] = rarely() ? beside(limit) : limit ? below(limit) : 0;
    u64 opened = rec[2] + (rec[0] == 1 || rec[0] == 2);
    rec[3] = rarely() ? beside(opened) : opened;
    rec[4] = rarely() ? beside(4999 * opened) : below(4999 * opened + 1);
    rec[5] = rarely() ? beside(100 * opened) : below(100 * opened + 1);
    for (size_t i = 6; i < 15; i++)
        if (below(2)) rec[i] = any_float();
    rec[15] = below(2) ? below(2) : word();
}

static void ordinary_settings(u64 *set) {
    static const u64 limits[] = {0, 1, 2, 3, 20, 999, 1000};
    set[0] = bits_of(below(4) ? unit() : 1e6 * unit());
    set[1] = bits_of(below(4) ? unit() : (double)below(2));
    set[2] = bits_of(below(2) ? 1e-4 : unit());
    set[3] = limits[below(7)];
    set[6] = below(2), set[7] = below(2);
    set[4] = set[7] ? between(1, 8) : word(), set[5] = set[7] ? between(1, 8) : word();
}

static void wrong_setting(u64 *set) {
    static const double floats[] = {-1.0, -0.0, 0.0, 1.0, 0x1.0000000000001p0, 1e6, 0x1.e848000000001p19, 0x1.fffffffffffffp1023, -5e-324};
    u64 which = below(6);
    if (which < 3) set[which] = below(2) ? bits_of(floats[below(9)]) : any_float();
    else set[which] = beside(which == 3 ? 1000 : which == 4 ? 256 : 32);
}

static u64 odd_size(void) {
    static const u64 odd[] = {0, 4096, 4097, 65, 64, (u64)1 << 32, (u64)1 << 63, UINT64_MAX};
    return odd[below(8)];
}

static size_t odd_length(size_t length) { return length && below(2) ? length - 1 : length + 1; }

static size_t odd_words(size_t due) { return below(2) ? due + 1 : below(due); }

// Sizes and lengths that are not due, one or several at once; a slice of another length is a slice all the same.
static void wrong_sizes(struct call *c) {
    do switch (below(9)) {
    case 0: c->n = odd_size(); break;
    case 1: c->p = odd_size(); break;
    case 2: c->x_len = odd_length(c->x_len); break;
    case 3: c->y_len = odd_length(c->y_len); break;
    case 4: c->w_len = odd_length(c->w_len); break;
    case 5: c->s_len = below(2) ? c->need - 1 : below(c->need); break;
    case 6: c->settings_len = odd_words(SETTINGS); break;
    case 7: c->rec_len = odd_words(RECORD); break;
    default: c->answer_len = odd_words(ANSWER);
    } while (below(3));
}

static u64 resumes, let_through, by_number[10], still, stepless, ends, starts, starts_by_number[10], others_by_number[3];

static void random_words(u64 *words, size_t count) {
    u64 kind = below(4);
    for (size_t i = 0; i < count; i++) words[i] = kind == 0 ? word() : kind == 1 ? any_float() : bits_of(kind == 2 ? unit() : 4.0 * unit() - 2.0);
}

// Data and settings that a start may take; half of the calls find the memory of a fit some steps on, with some words changed.
static void tampered_memory(struct call *c) {
    size_t n = between(1, 12), p = below(20) ? between(1, 5) : between(1, 16);
    *c = (struct call){n, p, n * p, n, SETTINGS, RECORD, 0, p, ANSWER, 0, NULL, NULL, NULL, NULL, NULL, NULL, NULL};
    lay(c);
    for (size_t i = 0; i < n * p; i++) c->x[i] = bits_of(4.0 * unit() - 2.0);
    for (size_t i = 0; i < n; i++) c->y[i] = bits_of(9.0 * unit());
    ordinary_settings(c->settings);
    c->need = need_of(n, p, c->settings);
    c->s_len = c->need + below(9);
    lay(c);
    random_words(c->s, c->s_len);
    random_words(c->w, p);
    for (size_t i = 0; i < RECORD; i++) c->rec[i] = any_float();
    mark(c->answer, ANSWER);
    if (below(2) && start(c) == 0 && resume(c, below(300)) == 0) {
        if (below(4)) c->s[below(c->need)] = any_float();
        if (below(2)) tampered_record(c->settings[3], c->rec);
        else if (below(2)) c->rec[below(RECORD)] = any_float();
    } else tampered_record(c->settings[3], c->rec);
    if (rarely()) c->x[below(n * p)] = any_float();
    if (rarely()) c->y[below(n)] = any_float();
}

// Where 9 lets it through: the call keeps to its budget, and what it leaves is of the right form.
static void allowed(const struct call *c, u64 number, u64 budget) {
    u64 taken = steps_in(c->answer + 3) - steps_in(first.rec + 3), kind = c->answer[0];
    let_through++;
    if (taken > budget) differs("%" PRIu64 " steps in a call of budget %" PRIu64, taken, budget);
    for (size_t i = 3; i < 6; i++)
        if (c->answer[i] < first.rec[i]) differs("count %zu fell", i);
    if (kind == 0) {
        still++;
        stepless += !budget;
        still_pending(c, &first, budget != 0);
        same("steps of a pending call", &taken, &budget, 1);
        // Counts at their bounds that no fit has may pass them: the next call is refused then.
        if (number || misplaced(c->settings[3], c->rec)) differs("a pending call leaves a record of 9, or a number");
        return;
    }
    ends++;
    nothing_left(c, &first);
    if (kind > 3 || (kind == 3) != (number != 0) || number != c->answer[1] || c->answer[2]) differs("answer of another form");
    if (number && number != 7 && number != 8) differs("refusal %" PRIu64 " of a record that may be gone on with", number);
}

// The same call again gives the same bits; so do two calls that share its budget, where the first leaves the fit pending.
static void repeated(const struct call *c, u64 number, u64 budget) {
    take(&second, c);
    for (int halves = 0; halves < 2; halves++) {
        give(&first, c);
        u64 part = halves ? below(budget + 1) : 0, again = 0;
        if (halves) again = resume(c, part);
        if (halves && c->answer[0] == 0 && overcounted(c->rec)) continue;
        if (!halves || c->answer[0] == 0) again = resume(c, budget - part);
        same("number again", &again, &number, 1);
        same("record again", c->rec, second.rec, RECORD);
        same("answer again", c->answer, second.answer, ANSWER);
        same("weights again", c->w, second.w, c->w_len);
        same("scratch again", c->s, second.s, c->s_len);
    }
}

// A call with its memory, sometimes with a setting or lengths that are not due.
static void drawn(struct call *c, u64 stream, u64 seed) {
    seeded(seed, stream + at);
    tampered_memory(c);
    if (rarely()) wrong_setting(c->settings);
    if (below(12) == 0) wrong_sizes(c);
    // Slices of other lengths keep their ends, so they are laid anew.
    lay(c);
    seal();
    take(&first, c);
    if (c->settings_len == SETTINGS) c->need = need_of(c->n, c->p, c->settings); // other panels have another
}

// An answer of 7 words is written with every refusal.
static void refused(const struct call *c, u64 number, const u64 *told) {
    same("number of a refused call", &number, told + 1, 1);
    same("answer of a refused call", c->answer, c->answer_len == ANSWER ? told : first.answer, c->answer_len);
    unwritten(&first, c);
}

static void one_resume(u64 seed) {
    struct call c;
    drawn(&c, 7000000, seed);
    u64 expected = limits(&c) ? limits(&c) : misplaced(c.settings[3], c.rec) || overcounted(c.rec) ? 9 : 0;
    u64 budget = below(4) ? below(8) ? below(below(2) ? 8 : 400) : between(0, 6000) : 0, number = resume(&c, budget);
    u64 told[ANSWER] = {3, expected};
    if (c.rec_len == RECORD) memcpy(told + 3, first.rec + 3, 3 * sizeof *told);
    resumes++;
    by_number[expected]++;
    if (expected) {
        refused(&c, number, told);
        return;
    }
    allowed(&c, number, budget);
    repeated(&c, number, budget);
}

static size_t leading_finite(const u64 *words, size_t count) {
    size_t i = 0;
    while (i < count && (words[i] & NO_SIGN) < INFINITY_BITS) i++;
    return i;
}

// 1 to 5; that 6 is given where the Rust gives it is seen in the fits.
static void one_start(u64 seed) {
    struct call c;
    drawn(&c, 9000000, seed);
    size_t w_len = c.w_len;
    c.w_len = c.p; // a start has no weights
    u64 expected = limits(&c), place = 0;
    c.w_len = w_len;
    if (expected == 0) {
        place = leading_finite(c.x, c.x_len);
        if (place == c.x_len) place += leading_finite(c.y, c.y_len);
        if (place < c.x_len + c.y_len) expected = 5;
    }
    u64 number = start(&c), told[ANSWER] = {3, expected, place};
    starts++;
    starts_by_number[expected]++;
    if (expected) {
        refused(&c, number, told);
    } else if (number == 6 && c.settings[6]) {
        unwritten(&first, &c);
    } else {
        all_zero("answer of a start", c.answer, ANSWER);
        all_zero("fresh record", c.rec, 6);
        still_pending(&c, &first, 1);
        one_nan("scratch of a start", c.s, NULL, c.need);
    }
}

// A prediction or a solve with sizes and lengths that are not due: 1, then 2. Its other refusals are seen in the crates and in what the Rust answered.
static void one_other(u64 seed) {
    seeded(seed, 13000000 + at);
    size_t n = between(1, 5), solve = below(2), p = solve ? n : between(1, 5);
    struct call c = {n, p, n * p, p, 0, 0, solve ? 8 * n : 0, n, ANSWER, 0, NULL, NULL, NULL, NULL, NULL, NULL, NULL};
    do switch (below(6)) {
    case 0: c.n = odd_size(); break;
    case 1: c.p = odd_size(); break;
    case 2: c.x_len = odd_length(c.x_len); break;
    case 3: c.y_len = odd_length(c.y_len); break;
    case 4: c.w_len = odd_length(c.w_len); break;
    default: c.answer_len = odd_words(ANSWER);
    } while (below(2));
    if (solve) c.p = c.n;
    lay(&c);
    mark(c.x, c.x_len), mark(c.y, c.y_len), mark(c.w, c.w_len), mark(c.s, c.s_len), mark(c.answer, c.answer_len);
    seal();
    take(&first, &c);
    u64 expected = !in_size(c.n, c.p) ? 1 : c.x_len != c.n * c.p || c.y_len != c.p || c.w_len != c.n || c.answer_len != ANSWER ? 2 : 0;
    if (!expected) return;
    alarm(LASTING);
    u64 number = solve ? xangoravit_solve(c.n, c.x, c.x_len, c.y, c.y_len, c.w, c.w_len, 0.5, 9, c.s, c.s_len, c.answer, c.answer_len)
                       : xangoravit_predict(c.n, c.p, c.x, c.x_len, c.y, c.y_len, 0.5, c.w, c.w_len, c.answer, c.answer_len);
    u64 told[ANSWER] = {3, expected};
    others_by_number[expected]++;
    refused(&c, number, told);
}

static void tell(void) {
    printf("tampered %" PRIu64 " through %" PRIu64 " pending %" PRIu64 " without-a-step %" PRIu64 " ended %" PRIu64, resumes, let_through, still, stepless, ends);
    for (int i = 1; i < 10; i++)
        if (by_number[i]) printf(" tampered-%d %" PRIu64, i, by_number[i]);
    printf(" starts %" PRIu64, starts);
    for (int i = 1; i < 10; i++)
        if (starts_by_number[i]) printf(" starts-%d %" PRIu64, i, starts_by_number[i]);
    printf(" others-1 %" PRIu64 " others-2 %" PRIu64, others_by_number[1], others_by_number[2]);
}

void tampered(u64 seed, u64 count) {
    for (; at < count; at++) one_resume(seed), one_start(seed), one_other(seed);
    tell();
}
