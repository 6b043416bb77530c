// The kinds of comparison. Each counts in `at`, tells its differences and ends with its counts, name and number in turn.
#ifndef KINDS_H
#define KINDS_H

#include "common.h"

void answered(const char *path, u64 seed); // fits, solver or predict, as `what` says
void tampered(u64 seed, u64 count);
void sheets(u64 seed, u64 count);
void scratch(u64 seed, u64 count);

// Parts of `sheets`: the calls that write one. Each part is opened once, tries each sheet that is drawn, and tells its counts.
struct paper;
void open_moves(void);
void try_moves(const uint8_t *bytes, size_t length);
void tell_moves(void);
void open_writings(void);
void try_writing(const struct paper *a);
void tell_writings(void);

#endif
