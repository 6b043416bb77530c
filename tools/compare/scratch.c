// The words of scratch for sizes and settings by chance, in and out of their ranges, against 01's ranges and formula in calls.c.
#include <stdio.h>
#include <unistd.h>

#include "calls.h"
#include "kinds.h"

static u64 asked, needed;

// In its range more often than not, one of four at the least; else at its upper bound, beside it or far from it.
static u64 some(u64 least, u64 most) { return below(12) ? between(least, below(4) ? most : least) : beside(most); }

static u64 some_float(double most) {
    switch (below(24)) {
    case 0: return any_float();
    case 1: return bits_of(most) + 1;
    case 2: return bits_of(most);
    case 3: return bits_of(-0.0);
    default: return bits_of(most * unit());
    }
}

// Truth is any word but 0; an eager fit's panels may be anything.
static void some_settings(u64 *set) {
    set[0] = some_float(1e6), set[1] = some_float(1.0), set[2] = some_float(0x1.fffffffffffffp1023), set[3] = some(0, 1000);
    set[6] = below(2) ? between(1, 3) : 0, set[7] = below(2) ? between(1, 3) : 0;
    set[4] = set[7] ? some(1, 256) : word() >> below(64), set[5] = set[7] ? some(1, 32) : word() >> below(64);
}

static void one(u64 seed) {
    seeded(seed, 17000000 + at);
    struct call c = {0};
    u64 set[SETTINGS + 1] = {0};
    c.n = some(1, 4096), c.p = some(1, 64), c.settings_len = below(12) ? SETTINGS : below(SETTINGS + 2);
    some_settings(set);
    lay(&c);
    for (size_t i = 0; i < c.settings_len; i++) c.settings[i] = set[i];
    seal();
    alarm(LASTING);
    u64 ours = xangoravit_scratch_words(c.n, c.p, c.settings, c.settings_len);
    u64 due = c.settings_len == SETTINGS && in_size(c.n, c.p) && settled(set) ? need_of(c.n, c.p, set) : 0;
    same("words of scratch", &ours, &due, 1);
    asked++;
    needed += due != 0;
}

void scratch(u64 seed, u64 count) {
    for (; at < count; at++) one(seed);
    printf("scratch-words %" PRIu64 " not-0 %" PRIu64, asked, needed);
}
