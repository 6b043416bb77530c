// Training sheets of both versions made by chance, whole or damaged.
#ifndef PAPER_H
#define PAPER_H

#include "common.h"

// The largest sheet that is written whole, 4,096 rows of 64 features and 999 cancelled ones, with room to grow.
enum { MOST_BYTES = 2700000, BYTES_ROOM = MOST_BYTES + 256 };

struct paper {
    uint8_t bytes[BYTES_ROOM];
    size_t length, head; // the rows begin at 38, or behind a family at 42
    u64 n, p, cancelled; // of the rows that were written, whatever the bytes say now
};

void draw(struct paper *a);
uint32_t some_family(void);

#endif
