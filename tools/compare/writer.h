// A second writer of training sheets, and a second mover from one version to the other: what crate sheet_api's are held to.
#ifndef WRITER_H
#define WRITER_H

#include "common.h"

enum { MOVED = 2 }; // bytes of the moved sheet, family

// What a writer is given.
struct rows {
    size_t n, p, settings_length, sources_length, targets_length, x_length, y_length;
    const u64 *settings, *x, *y;
    const uint16_t *sources, *targets;
};

// What is lent for a sheet that is written; `moved` is for a move alone.
struct outputs {
    uint8_t *out;
    u64 *moved, *place;
    size_t out_length, moved_length, place_length;
};

size_t head_of(int version); // bytes in front of the rows
int has_room(size_t room, int version, size_t n, size_t p);
u64 second_writing(int version, uint32_t family, const struct rows *r, struct outputs to);
u64 second_up(const uint8_t *bytes, size_t length, uint32_t family, struct outputs to);
u64 second_down(const uint8_t *bytes, size_t length, struct outputs to);

#endif
