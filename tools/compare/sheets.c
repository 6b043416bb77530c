// Sheets by chance, of both versions, through crate sheet_api's calls and the second reader: number, place, and each word of what is lent. Each is then moved
// (moves.c), and its rows are written (writings.c).
#include <stdio.h>
#include <unistd.h>

#include "kinds.h"
#include "loans.h"
#include "paper.h"
#include "reader.h"

extern u64 xangoravit_read_header(const uint8_t *bytes, size_t bytes_len, size_t rows, size_t cols, u64 *header, size_t header_len);
extern u64 xangoravit_count_rows(const uint8_t *bytes, size_t bytes_len, size_t rows, size_t cols, u64 *header, size_t header_len, u64 *place, size_t place_len);
extern u64 xangoravit_read_sheet(const uint8_t *bytes, size_t bytes_len, size_t rows, size_t cols, u64 *x, size_t x_len, u64 *y, size_t y_len, u64 *header, size_t header_len,
                                 u64 *place, size_t place_len);

static struct loan x = {.name = "matrix", .size = 8}, y = {.name = "targets", .size = 8}, header = {.name = "header", .size = 8};
static struct arena bytes_room;
static struct paper paper;

static const int of_header[] = {11, 12, 13, 0}, of_header_words[] = {2, 11, 12, 13, 0};
static const int of_count[] = {11, 12, 13, 14, 15, 0}, of_count_words[] = {2, 11, 12, 13, 14, 15, 0}, of_sheet[] = {1, 2, 11, 12, 13, 14, 15, 0};
static struct tally headers = {.name = "headers", .done_name = "read", .numbers = of_header, .words_numbers = of_header_words};
static struct tally counts = {.name = "counts", .done_name = "read", .numbers = of_count, .words_numbers = of_count_words};
static struct tally whole_sheets = {.name = "sheets", .done_name = "read", .numbers = of_sheet, .words_numbers = of_sheet};
static u64 read_version_2;                                 // among those read
static u64 drawn_cancelled, read_cancelled, all_cancelled; // sheets with cancelled rows: when drawn, among those read, and without a fault but with no others

// The due length more often than not.
static size_t some_length(size_t due, size_t most) {
    if (below(16) == 0) due = below(4) ? due + (below(2) ? 1 : -1) : below(2) ? below(300) : due + below(300);
    return due <= most ? due : below(300);
}

static size_t field(size_t from) { return paper.bytes[from] * 256 + paper.bytes[from + 1]; }

// By the version byte, whatever it was when the sheet was drawn.
static size_t body(void) { return paper.bytes[0] == 2 ? 9 : 5; }

// n without the cancelled rows that stand in the bytes, however they were damaged.
static size_t remaining(size_t n, size_t p) {
    size_t left = n;
    for (size_t row = body() + 33; n && row + 4 <= paper.length; n--, row += 12 + 8 * p) left -= field(row + 2) == 0;
    return left;
}

static void lend_words(void) {
    lend(&header, below(8) ? HEADER : below(HEADER + 3));
    lend_place();
}

// What is lent is for the n and p that stand in the bytes, mostly without the cancelled rows.
static void lend_all(void) {
    size_t n = 1, p = 1;
    if (paper.length >= body() + 4) n = field(body()), p = field(body() + 2);
    if (below(8)) n = remaining(n, p);
    lend(&x, some_length(n * p, MOST_X));
    lend(&y, some_length(n, MOST_Y));
    lend_words();
}

// The header's n, where it is due.
static u64 read_n(void) { return *(u64 *)header.due; }

static void one_header(const uint8_t *bytes, size_t rows, size_t columns) {
    lend_words();
    u64 due = second_header(bytes, paper.length, rows, columns, header.due, header.count), number;
    tally(&headers, due, header.count == HEADER);
    alarm(LASTING);
    number = xangoravit_read_header(bytes, paper.length, rows, columns, header.lent, header.count);
    same("number of a header", &number, &due, 1);
    as_due(&header);
}

static void one_count(const uint8_t *bytes, size_t rows, size_t columns) {
    lend_words();
    u64 due = second_count(bytes, paper.length, rows, columns, (struct lengths){.header = header.count, .place = place.count}, header.due, place.due), number;
    tally(&counts, due, header.count == HEADER && place.count == 1);
    all_cancelled += due == 0 && read_n() == 0 && field(body()) > 0;
    alarm(LASTING);
    number = xangoravit_count_rows(bytes, paper.length, rows, columns, header.lent, header.count, place.lent, place.count);
    same("number of a count", &number, &due, 1);
    as_due(&place), as_due(&header);
}

static void one_reading(const uint8_t *bytes, size_t rows, size_t columns) {
    lend_all();
    u64 due = second_sheet(bytes, paper.length, rows, columns, (struct lengths){x.count, y.count, header.count, place.count}, x.due, y.due, header.due, place.due), number;
    tally(&whole_sheets, due, header.count == HEADER && place.count == 1);
    read_cancelled += due == 0 && read_n() < field(body());
    read_version_2 += due == 0 && paper.bytes[0] == 2;
    alarm(LASTING);
    number = xangoravit_read_sheet(bytes, paper.length, rows, columns, x.lent, x.count, y.lent, y.count, header.lent, header.count, place.lent, place.count);
    same("number", &number, &due, 1);
    as_due(&place), as_due(&header), as_due(&x), as_due(&y);
}

static void one_sheet(u64 seed) {
    seeded(seed, 11000000 + at);
    draw(&paper);
    drawn_cancelled += paper.cancelled > 0;
    const uint8_t *bytes = sealed(bytes_room, paper.bytes, paper.length);
    size_t rows = word() >> below(64), columns = word() >> below(64);
    one_header(bytes, rows, columns);
    one_count(bytes, rows, columns);
    one_reading(bytes, rows, columns);
    try_moves(bytes, paper.length);
    try_writing(&paper);
}

void sheets(u64 seed, u64 count) {
    bytes_room = arena(BYTES_ROOM / 8);
    open_loan(&x, MOST_X), open_loan(&y, MOST_Y), open_loan(&header, HEADER + 3);
    open_loans();
    open_moves();
    open_writings();
    for (; at < count; at++) one_sheet(seed);
    printf("sheets %" PRIu64, count);
    tell(&whole_sheets), tell(&headers), tell(&counts);
    printf(" sheets-version-2-read %" PRIu64, read_version_2);
    printf(" sheets-cancelled %" PRIu64 " sheets-cancelled-read %" PRIu64 " sheets-cancelled-all %" PRIu64, drawn_cancelled, read_cancelled, all_cancelled);
    tell_moves();
    tell_writings();
}
