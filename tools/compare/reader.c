// Written from the documents alone, 01's "Training sheet" and 02's T-03 and T-04, and docs/RULES.md for the count: the bytes in their order, the refusals in
// theirs; a wrong number of words is a 2 as with other slices. Writes nothing but the place where it refuses.
#include "reader.h"

// The body is the same in both versions: it begins behind the length, or in version 2 behind the family.
enum { VERSION, LENGTH, FAMILY = 5 };
enum { ROWS, COLUMNS = 2, ALPHA = 4, L1_RATIO = 12, TOL = 20, LIMIT = 28, FLAGS = 32, PAIRS = 33 };

static size_t body_at(const uint8_t *bytes) { return bytes[VERSION] == 2 ? FAMILY + 4 : FAMILY; }

u64 big_endian(const uint8_t *from, int count) {
    u64 value = 0;
    for (int i = 0; i < count; i++) value = 256 * value + from[i];
    return value;
}

// A NaN that we write is the one.
static u64 real(const uint8_t *from) {
    u64 bits = big_endian(from, 8);
    return of_bits(bits) == of_bits(bits) ? bits : NAN_BITS;
}

u64 second_header(const uint8_t *bytes, size_t length, u64 rows, u64 columns, u64 *header, size_t header_length) {
    if (length < 5) return 12;
    if (bytes[VERSION] != 1 && bytes[VERSION] != 2) return 11;
    // The bytes that a sheet without rows has are wanted before they are looked at; fewer are another length than due.
    if (length < body_at(bytes) + PAIRS) return 12;
    const uint8_t *body = bytes + body_at(bytes);
    u64 rest = big_endian(bytes + LENGTH, 4), n = big_endian(body + ROWS, 2), p = big_endian(body + COLUMNS, 2);
    if (rest != length - 5 || rest != (bytes[VERSION] == 1 ? 33 : 37) + n * (12 + 8 * p)) return 12;
    if (body[FLAGS] > 3) return 13;
    if (header_length != HEADER) return 2;
    header[0] = n, header[1] = p;
    header[2] = real(body + ALPHA), header[3] = real(body + L1_RATIO), header[4] = real(body + TOL);
    header[5] = big_endian(body + LIMIT, 4);
    header[6] = rows, header[7] = columns;
    header[8] = body[FLAGS] % 2, header[9] = body[FLAGS] / 2;
    return 0;
}

static int no_claim(u64 number) { return number < 1 || number > 999; }

// A cancelled claim has target 0.
static int cancelled(const uint8_t *row) { return big_endian(row + 2, 2) == 0; }

// All rows are looked at, cancelled or not, and have a place; `remain` counts those that are not.
static u64 pairs(const uint8_t *bytes, u64 n, u64 p, u64 *place, u64 *remain) {
    u64 source_before = 0, target_before = 0;
    for (u64 i = 0; i < n; i++) {
        const uint8_t *row = bytes + body_at(bytes) + PAIRS + i * (12 + 8 * p);
        u64 source = big_endian(row, 2), target = big_endian(row + 2, 2), score = big_endian(row + 4 + 8 * p, 8);
        *place = i;
        if (no_claim(source) || (cancelled(row) ? score != 0 : no_claim(target))) return 14;
        if (source < source_before || (source == source_before && target <= target_before)) return 15;
        source_before = source, target_before = target;
        *remain += !cancelled(row);
    }
    *place = 0;
    return 0;
}

u64 second_count(const uint8_t *bytes, size_t length, u64 rows, u64 columns, struct lengths lent, u64 *header, u64 *place) {
    u64 read[HEADER] = {0}, row = 0, remain = 0, number = second_header(bytes, length, rows, columns, read, HEADER);
    if (!number) number = pairs(bytes, read[0], read[1], &row, &remain);
    if (!number && (lent.header != HEADER || lent.place != 1)) number = 2;
    if (lent.place == 1) *place = row;
    if (number) return number;
    read[0] = remain;
    for (int i = 0; i < HEADER; i++) header[i] = read[i];
    return 0;
}

// What remains is counted first: it is the n of 1, of 2 and of the header.
u64 second_sheet(const uint8_t *bytes, size_t length, u64 rows, u64 columns, struct lengths lent, u64 *x, u64 *y, u64 *header, u64 *place) {
    u64 read[HEADER] = {0}, row, number = second_count(bytes, length, rows, columns, (struct lengths){.header = HEADER, .place = 1}, read, &row), n = read[0], p = read[1];
    if (!number && (n < 1 || n > 4096 || p < 1 || p > 64)) number = 1;
    if (!number && (lent.x != n * p || lent.y != n || lent.header != HEADER || lent.place != 1)) number = 2;
    if (lent.place == 1) *place = row;
    if (number) return number;
    for (const uint8_t *from = bytes + body_at(bytes) + PAIRS; from < bytes + length; from += 12 + 8 * p) {
        if (cancelled(from)) continue;
        for (u64 j = 0; j < p; j++) *x++ = real(from + 4 + 8 * j);
        *y++ = real(from + 4 + 8 * p);
    }
    for (int i = 0; i < HEADER; i++) header[i] = read[i];
    return 0;
}
