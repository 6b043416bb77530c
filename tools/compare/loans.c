// Slices that end where a page begins that no one may touch, whatever the size of their elements.
#include <stdio.h>
#include <stdlib.h>
#include <string.h>

#include "loans.h"
#include "paper.h"

enum { BORDER = 8, LONGER = 40 }; // words that are watched in front of a slice; bytes of an output beyond its due ones

struct loan out = {.name = "output", .size = 1}, place = {.name = "place", .size = 8};

// ---- slices

void open_loan(struct loan *l, size_t most) {
    size_t words = BORDER + (most * l->size + 7) / 8;
    l->room = arena(words);
    l->held = malloc(words * 8);
    if (!l->held) fail("no memory");
}

void open_loans(void) {
    open_loan(&out, BYTES_ROOM + 4 + LONGER);
    open_loan(&place, 4);
}

void lend(struct loan *l, size_t count) {
    size_t bytes = count * l->size;
    l->count = count;
    l->watched = BORDER + (bytes + 7) / 8;
    u64 *first = slice(l->room, l->watched);
    mark(first, l->watched);
    memcpy(l->held, first, l->watched * 8);
    l->lent = (uint8_t *)l->room.end - bytes;
    l->due = (uint8_t *)(l->held + l->watched) - bytes;
}

static u64 element(const struct loan *l, const void *of, size_t i) { return l->size == 1 ? ((const uint8_t *)of)[i] : ((const u64 *)of)[i]; }

// Tells the first element that is not as it must be; where there is none, what was written stands in front.
void as_due(const struct loan *l) {
    if (!memcmp(slice(l->room, l->watched), l->held, l->watched * 8)) return;
    size_t i = 0;
    while (i < l->count && element(l, l->lent, i) == element(l, l->due, i)) i++;
    if (i == l->count) differs("%s: something in front of it was written", l->name);
    else differs("%s, element %zu of %zu: ours %" PRIx64 ", due %" PRIx64, l->name, i, l->count, element(l, l->lent, i), element(l, l->due, i));
}

void lend_place(void) { lend(&place, below(8) ? 1 : below(4)); }

// The due length more often than not; else one short or shorter, or longer. What is due is at most a sheet of the largest that are drawn.
void lend_out(size_t due) {
    size_t count = due;
    switch (below(16)) {
    case 0: count = due ? due - 1 : 0; break;
    case 1: count = below(due + 1); break;
    case 2: count = below(3) ? due - (due < 4 ? due : 4) : below(60); break;
    case 3:
    case 4: count = due + between(1, LONGER); break;
    case 5: count = due + 4; break;
    }
    lend(&out, count);
}

// Inputs are read-only while calls run.
const void *sealed(struct arena room, const void *from, size_t bytes) {
    uint8_t *to = (uint8_t *)room.end - bytes;
    allow(room, PROT_READ | PROT_WRITE);
    memcpy(to, from, bytes);
    allow(room, PROT_READ);
    return to;
}

// ---- tallies

void tally(struct tally *t, u64 due, int words_as_due) {
    if (due) (words_as_due ? t->by_number : t->words_by_number)[due]++;
    else t->done++;
}

void tell(const struct tally *t) {
    printf(" %s-%s %" PRIu64, t->name, t->done_name, t->done);
    if (t->too_short) printf(" %s-short %" PRIu64, t->name, t->too_short);
    for (const int *i = t->numbers; *i; i++) printf(" %s-%d %" PRIu64, t->name, *i, t->by_number[*i]);
    for (const int *i = t->words_numbers; *i; i++) printf(" %s-words-%d %" PRIu64, t->name, *i, t->words_by_number[*i]);
}
