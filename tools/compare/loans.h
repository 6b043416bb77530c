// What a call of crate sheet_api is lent and given, what it must leave, and how often it answered what.
#ifndef LOANS_H
#define LOANS_H

#include "common.h"

enum { MOST_X = 270000, MOST_Y = 70000 }; // elements of a matrix and of targets

// ---- slices

// A slice that is lent, and what it must hold after the call. Some words in front of it are watched too.
struct loan {
    const char *name;
    size_t size; // bytes of an element, 1 or 8
    struct arena room;
    size_t count, watched; // elements lent; words from the first that is watched to the end of the slice
    void *lent, *due;
    u64 *held; // what is watched, as it must be
};

extern struct loan out, place; // bytes of a sheet, and the place's word

void open_loans(void);
void open_loan(struct loan *l, size_t most);
void lend(struct loan *l, size_t count);
void as_due(const struct loan *l);
void lend_place(void);
void lend_out(size_t due);

const void *sealed(struct arena room, const void *from, size_t bytes);

// ---- tallies

// What was due of a call: how often no refusal, and how often which; those with a wrong number of words apart, and those with an output that is too short.
// The numbers that are told end in a 0.
struct tally {
    const char *name, *done_name;
    const int *numbers, *words_numbers;
    u64 done, too_short, by_number[16], words_by_number[16];
};

void tally(struct tally *t, u64 due, int words_as_due);
void tell(const struct tally *t);

#endif
