// A second reader of training sheets, of either version: what crate sheet_api's is held to.
#ifndef READER_H
#define READER_H

#include "common.h"

enum { HEADER = 10 }; // n, p, alpha, l1_ratio, tol, M, R, C, normalise, lazy

// The lengths that are lent for matrix, targets, header and place.
struct lengths {
    size_t x, y, header, place;
};

u64 big_endian(const uint8_t *from, int count);
u64 second_header(const uint8_t *bytes, size_t length, u64 rows, u64 columns, u64 *header, size_t header_length);
u64 second_count(const uint8_t *bytes, size_t length, u64 rows, u64 columns, struct lengths lent, u64 *header, u64 *place); // no matrix and targets are lent
u64 second_sheet(const uint8_t *bytes, size_t length, u64 rows, u64 columns, struct lengths lent, u64 *x, u64 *y, u64 *header, u64 *place);

#endif
