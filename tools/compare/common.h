// What the driver's files share: telling differences, chance from a seed, and memory whose slices end at a page that faults.
#ifndef COMMON_H
#define COMMON_H

#include <inttypes.h>
#include <stddef.h>
#include <stdint.h>
#include <sys/mman.h>

#include "../bits.h"

typedef uint64_t u64;

static const u64 NAN_BITS = 0x7ff8000000000000, INFINITY_BITS = 0x7ff0000000000000, NO_SIGN = 0x7fffffffffffffff;
enum { LASTING = 120 }; // seconds that a call may take

// ---- telling

extern const char *what;        // the kind of problem
extern size_t at, differences;  // its number in the file, and lines told so far

void fail(const char *why);
void differs(const char *form, ...) __attribute__((format(printf, 1, 2)));
void watch(void);
void same(const char *name, const u64 *ours, const u64 *theirs, size_t count);
void all_zero(const char *name, const u64 *words, size_t count);
void one_nan(const char *name, const u64 *words, const u64 *before, size_t count);

// ---- chance

u64 word(void);
void seeded(u64 seed, u64 stream);
double unit(void);
u64 any_float(void);
void mark(u64 *words, size_t count);

static inline u64 below(u64 n) { return word() % n; }
static inline u64 between(u64 low, u64 high) { return low + below(high - low + 1); }
static inline int rarely(void) { return below(24) == 0; }
u64 beside(u64 bound);

// ---- memory

struct arena {
    u64 *end;
    size_t bytes;
};

struct arena arena(size_t words);
void allow(struct arena a, int what_for);

static inline u64 *slice(struct arena a, size_t words) { return a.end - words; }

#endif
