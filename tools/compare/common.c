// Telling, chance and memory.
#include <signal.h>
#include <stdarg.h>
#include <stdio.h>
#include <stdlib.h>
#include <unistd.h>

#include "common.h"

// ---- telling

const char *what;
size_t at, differences;

void fail(const char *why) {
    fprintf(stderr, "driver: %s\n", why);
    exit(2);
}

void differs(const char *form, ...) {
    va_list words;
    va_start(words, form);
    printf("%s %zu: ", what, at);
    vprintf(form, words);
    puts("");
    va_end(words);
    if (++differences == 20) {
        puts("driver: stopped after 20 differences");
        exit(1);
    }
}

// A fault, or a call that does not come back.
static void stopped(int signal) {
    char line[120];
    int length = snprintf(line, sizeof line, "%s %zu: stopped by signal %d\n", what, at, signal);
    fflush(stdout);
    if (write(1, line, length) < 0) _exit(2);
    _exit(1);
}

void watch(void) { signal(SIGSEGV, stopped), signal(SIGBUS, stopped), signal(SIGILL, stopped), signal(SIGFPE, stopped), signal(SIGALRM, stopped); }

void same(const char *name, const u64 *ours, const u64 *theirs, size_t count) {
    for (size_t i = 0; i < count; i++)
        if (ours[i] != theirs[i]) {
            differs("%s, word %zu: ours %016" PRIx64 ", due %016" PRIx64, name, i, ours[i], theirs[i]);
            return;
        }
}

void all_zero(const char *name, const u64 *words, size_t count) {
    for (size_t i = 0; i < count; i++)
        if (words[i]) {
            differs("%s, word %zu is %016" PRIx64 ", not +0", name, i, words[i]);
            return;
        }
}

// Each word that a call has written holds the one NaN or none. `before` may be NULL: all were written.
void one_nan(const char *name, const u64 *words, const u64 *before, size_t count) {
    for (size_t i = 0; i < count; i++)
        if ((words[i] & NO_SIGN) > INFINITY_BITS && words[i] != NAN_BITS && (!before || words[i] != before[i])) {
            differs("%s, word %zu is the NaN %016" PRIx64, name, i, words[i]);
            return;
        }
}

// ---- chance

static u64 state;

u64 word(void) {
    u64 w = state += 0x9e3779b97f4a7c15;
    w = (w ^ (w >> 30)) * 0xbf58476d1ce4e5b9;
    w = (w ^ (w >> 27)) * 0x94d049bb133111eb;
    return w ^ (w >> 31);
}

void seeded(u64 seed, u64 stream) {
    state = seed;
    state = word() ^ stream * 0xd1342543de82ef95;
}

double unit(void) { return (double)(word() >> 11) * 0x1p-53; }

// Of three kinds: near 1, of any size, or one of the values that are apart.
u64 any_float(void) {
    static const u64 apart[] = {0, 0x8000000000000000, 0x7ff0000000000000, 0xfff0000000000000, 0x7ff8000000000000, 0xfff8000000000000, 0x7ff0000000000001,
                                0xffffffffffffffff, 0x3ff0000000000000, 0xbff0000000000000, 1, 0x7fefffffffffffff, 0x0010000000000000, 0x3f50624dd2f1a9fc};
    switch (below(4)) {
    case 0: return word();
    case 1: return apart[below(sizeof apart / sizeof *apart)];
    default: return bits_of(4.0 * unit() - 2.0);
    }
}

void mark(u64 *words, size_t count) {
    for (size_t i = 0; i < count; i++) words[i] = word();
}

// At a bound, next to it, or far from it.
u64 beside(u64 bound) {
    switch (below(6)) {
    case 0: return 0;
    case 1: return bound ? bound - 1 : 0;
    case 2: return bound + 1;
    case 3: return below(bound + 2);
    case 4: return rarely() ? word() >> below(64) : bound;
    default: return bound;
    }
}

// ---- memory: a slice ends where a page begins that no one may touch

struct arena arena(size_t words) {
    size_t page = sysconf(_SC_PAGESIZE), bytes = (words * 8 + page - 1) / page * page;
    char *base = mmap(NULL, bytes + page, PROT_READ | PROT_WRITE, MAP_PRIVATE | MAP_ANONYMOUS, -1, 0);
    if (base == MAP_FAILED || mprotect(base + bytes, page, PROT_NONE)) fail("no memory");
    return (struct arena){(u64 *)(base + bytes), bytes};
}

void allow(struct arena a, int what_for) {
    if (mprotect((char *)a.end - a.bytes, a.bytes, what_for)) fail("no protection");
}
