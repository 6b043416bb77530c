// Written from the documents alone, 01's "Training sheet" and 02's T-04, and docs/RULES.md for the words: the refusals in their order, then the bytes in theirs.
// Writes nothing but the place where it refuses.
#include <string.h>

#include "calls.h"
#include "reader.h"
#include "writer.h"

// Gives the byte behind the number.
static uint8_t *put(uint8_t *to, u64 value, int count) {
    for (int i = 0; i < count; i++) to[i] = (uint8_t)(value >> 8 * (count - 1 - i));
    return to + count;
}

// A NaN that we write is the one.
static uint8_t *put_real(uint8_t *to, u64 bits) { return put(to, of_bits(bits) == of_bits(bits) ? bits : NAN_BITS, 8); }

static void told(struct outputs to, u64 row) {
    if (to.place_length == 1) *to.place = row;
}

// ---- the writer

size_t head_of(int version) { return version == 1 ? 38 : 42; }

// Whether 38 or 42 and n(12 + 8p) bytes fit, over whole numbers: no product is taken, so none is too large.
int has_room(size_t room, int version, size_t n, size_t p) {
    if (room < head_of(version)) return 0;
    if (n == 0) return 1;
    size_t each = (room - head_of(version)) / n;
    return each >= 12 && (each - 12) / 8 >= p;
}

// All rows are looked at, cancelled or not.
static u64 claims(const struct rows *r, u64 *row) {
    for (size_t i = 0; i < r->n; i++) {
        int source = r->sources[i], target = r->targets[i];
        *row = i;
        if (source < 1 || source > 999 || target > 999) return 14;
        if (target == 0 && r->y[i] != 0) return 14;
        if (i && source == r->sources[i - 1] && target <= r->targets[i - 1]) return 15;
        if (i && source < r->sources[i - 1]) return 15;
    }
    *row = 0;
    return 0;
}

static u64 unwritable(int version, const struct rows *r, const struct outputs *to, u64 *row) {
    if (!has_room(to->out_length, version, r->n, r->p)) return 2;
    if (!in_size(r->n, r->p)) return 1;
    if (r->settings_length != SETTINGS || to->place_length != 1) return 2;
    if (r->sources_length != r->n || r->targets_length != r->n || r->y_length != r->n || r->x_length != r->n * r->p) return 2;
    if (!settled(r->settings)) return 3;
    return claims(r, row);
}

u64 second_writing(int version, uint32_t family, const struct rows *r, struct outputs to) {
    u64 row = 0, number = unwritable(version, r, &to, &row);
    told(to, row);
    if (number) return number;
    uint8_t *next = put(to.out, (u64)version, 1);
    next = put(next, head_of(version) - 5 + r->n * (12 + 8 * r->p), 4);
    if (version == 2) next = put(next, family, 4);
    next = put(put(next, r->n, 2), r->p, 2);
    for (int i = 0; i < 3; i++) next = put_real(next, r->settings[i]);
    next = put(next, r->settings[3], 4);
    next = put(next, (r->settings[6] ? 1 : 0) + (r->settings[7] ? 2 : 0), 1);
    for (size_t i = 0; i < r->n; i++) {
        next = put(put(next, r->sources[i], 2), r->targets[i], 2);
        for (size_t j = 0; j < r->p; j++) next = put_real(next, r->x[i * r->p + j]);
        next = put_real(next, r->y[i]);
    }
    return 0;
}

// ---- the moves

// What comes behind the 2 of the output: the reader's refusals, of the version that the move starts from; 1 by the rows that remain; the words.
static u64 unmovable(const uint8_t *bytes, size_t length, int version, const struct outputs *to, u64 *row) {
    u64 read[HEADER] = {0};
    if (length >= 5 && bytes[0] != version) return 11;
    u64 number = second_count(bytes, length, 0, 0, (struct lengths){.header = HEADER, .place = 1}, read, row);
    if (number) return number;
    if (!in_size(read[0], read[1])) return 1;
    return to->moved_length != MOVED || to->place_length != 1 ? 2 : 0;
}

u64 second_up(const uint8_t *bytes, size_t length, uint32_t family, struct outputs to) {
    u64 row = 0, number = to.out_length < length + 4 ? 2 : unmovable(bytes, length, 1, &to, &row);
    told(to, row);
    if (number) return number;
    put(put(put(to.out, 2, 1), length - 5 + 4, 4), family, 4);
    memcpy(to.out + 9, bytes + 5, length - 5);
    to.moved[0] = length + 4, to.moved[1] = family;
    return 0;
}

u64 second_down(const uint8_t *bytes, size_t length, struct outputs to) {
    u64 row = 0, number = to.out_length + 4 < length ? 2 : unmovable(bytes, length, 2, &to, &row);
    told(to, row);
    if (number) return number;
    put(put(to.out, 1, 1), length - 5 - 4, 4);
    memcpy(to.out + 5, bytes + 9, length - 9);
    to.moved[0] = length - 4, to.moved[1] = big_endian(bytes + 5, 4);
    return 0;
}
