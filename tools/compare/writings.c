// The rows of a sheet, given as slices, through crate sheet_api's writer and the second one: number, place, and each byte of the output.
#include <stdio.h>
#include <string.h>
#include <unistd.h>

#include "calls.h"
#include "kinds.h"
#include "loans.h"
#include "paper.h"
#include "reader.h"
#include "writer.h"

extern u64 xangoravit_write_sheet_1(size_t n, size_t p, const u64 *settings, size_t settings_len, const uint16_t *sources, size_t sources_len, const uint16_t *targets,
                                    size_t targets_len, const u64 *x, size_t x_len, const u64 *y, size_t y_len, uint8_t *out, size_t out_len, u64 *place, size_t place_len);
extern u64 xangoravit_write_sheet_2(uint32_t family, size_t n, size_t p, const u64 *settings, size_t settings_len, const uint16_t *sources, size_t sources_len,
                                    const uint16_t *targets, size_t targets_len, const u64 *x, size_t x_len, const u64 *y, size_t y_len, uint8_t *out, size_t out_len,
                                    u64 *place, size_t place_len);

enum { LONGER = 300 }; // elements that a slice may have beyond its due ones

static const int numbers[] = {1, 2, 3, 14, 15, 0}, words_numbers[] = {1, 2, 0};
static struct tally versions[] = {{.name = "writer-1", .done_name = "written", .numbers = numbers, .words_numbers = words_numbers},
                                  {.name = "writer-2", .done_name = "written", .numbers = numbers, .words_numbers = words_numbers}};
static u64 written_cancelled, past_64_bits; // with cancelled rows, among those written; too short, where a product in 64 bits finds room

static u64 settings[SETTINGS + 1], x[MOST_X + LONGER], y[MOST_Y + LONGER];
static uint16_t sources[MOST_Y + LONGER], targets[MOST_Y + LONGER];
static struct arena settings_room, sources_room, targets_room, x_room, y_room;

void open_writings(void) {
    settings_room = arena(SETTINGS + 1), x_room = arena(MOST_X + LONGER), y_room = arena(MOST_Y + LONGER);
    sources_room = arena((MOST_Y + LONGER) / 4), targets_room = arena((MOST_Y + LONGER) / 4);
}

// ---- what is given

// As the bytes have them, damaged or not; behind them 0, for slices that are too long. A matrix that would be too large is not taken whole.
static void take_rows(const struct paper *a) {
    size_t features = 0, n = a->n, p = a->p;
    for (size_t i = 0; i < n; i++) {
        const uint8_t *row = a->bytes + a->head + i * (12 + 8 * p);
        sources[i] = (uint16_t)big_endian(row, 2), targets[i] = (uint16_t)big_endian(row + 2, 2), y[i] = big_endian(row + 4 + 8 * p, 8);
        for (size_t j = 0; j < p && features < MOST_X; j++) x[features++] = big_endian(row + 4 + 8 * j, 8);
    }
    memset(sources + n, 0, LONGER * 2), memset(targets + n, 0, LONGER * 2), memset(y + n, 0, LONGER * 8), memset(x + features, 0, LONGER * 8);
}

static u64 some_real(double most) { return below(8) ? bits_of(most * unit()) : bits_of(below(2) ? most : below(2) ? 0.0 : -0.0); }

// Truth is any word but 0; where the fit is not lazy its panels may be anything.
static void take_settings(void) {
    settings[0] = some_real(1e6), settings[1] = some_real(1.0), settings[2] = some_real(below(2) ? 1.0 : 0x1.fffffffffffffp1023);
    settings[3] = below(4) ? below(1001) : 1000;
    settings[6] = below(2) ? (u64)1 << below(64) : 0, settings[7] = below(2) ? (u64)1 << below(64) : 0, settings[8] = word();
    settings[4] = settings[7] ? between(1, 256) : word() >> below(64), settings[5] = settings[7] ? between(1, 32) : word() >> below(64);
}

// At a bound or beyond, a NaN of some pattern, or a number whose low half alone is in range.
static void other_setting(void) {
    static const double bounds[] = {1e6, 1.0, 0x1.fffffffffffffp1023};
    static const u64 most[] = {1000, 256, 32};
    u64 which = below(6);
    if (which < 3) settings[which] = below(2) ? bits_of(bounds[which]) + 1 : below(3) ? any_float() : 0xfff0000000000000 | word();
    else settings[which] = below(4) ? beside(most[which - 3]) : 1 | (u64)1 << between(32, 63);
}

// ---- sizes and lengths

// n(12+8p) = 4n(3+2p) is a little above a multiple of 2^64: who counts in 64 bits finds room. Gives by how much.
static u64 wrapped(struct rows *r) {
    u64 quarter = below(60), odd, inverse = 1;
    r->p = below(2) ? between(1, 64) : word() >> below(64);
    odd = 3 + 2 * r->p;
    for (int i = 0; i < 6; i++) inverse *= 2 - odd * inverse;
    r->n = ((quarter * inverse) & (UINT64_MAX >> 2)) | below(4) << 62;
    return 4 * quarter;
}

// Sizes far too large; the bytes that are given as due are those of who loses their high bits.
static size_t huge_sizes(struct rows *r) {
    size_t before = r->n * (12 + 8 * r->p);
    u64 high = (u64)1 << between(16, 63);
    switch (below(3)) {
    case 0: r->n |= high; return before;
    case 1: r->p |= high; return before;
    default: return wrapped(r);
    }
}

static size_t other_length(size_t due, size_t most) { return below(3) ? due + (due && below(2) ? -1 : 1) : below(most); }

static void other_size(struct rows *r) {
    static const size_t odd[] = {0, 1, 64, 65, 4096, 4097, 65535, 65536};
    size_t *size = below(2) ? &r->n : &r->p;
    *size = below(2) ? odd[below(8)] : below(2) ? *size + 1 : *size - (*size > 0);
}

static void wrong_sizes(struct rows *r) {
    do switch (below(6)) {
    case 0: other_size(r); break;
    case 1: r->settings_length = below(2) ? SETTINGS + 1 : below(SETTINGS); break;
    case 2: r->sources_length = other_length(r->sources_length, LONGER); break;
    case 3: r->targets_length = other_length(r->targets_length, LONGER); break;
    case 4: r->x_length = other_length(r->x_length, LONGER); break;
    default: r->y_length = other_length(r->y_length, LONGER);
    } while (below(3) == 0);
}

// The bytes of the sheet, or some others where there cannot be so many.
static size_t bytes_due(const struct rows *r, int version) {
    if (has_room(MOST_BYTES, version, r->n, r->p)) return head_of(version) + r->n * (12 + 8 * r->p);
    return below(2) ? MOST_BYTES : head_of(version) + below(300);
}

// ---- a call

static void seal_rows(struct rows *r) {
    r->settings = sealed(settings_room, settings, r->settings_length * 8);
    r->sources = sealed(sources_room, sources, r->sources_length * 2);
    r->targets = sealed(targets_room, targets, r->targets_length * 2);
    r->x = sealed(x_room, x, r->x_length * 8);
    r->y = sealed(y_room, y, r->y_length * 8);
}

// A matrix that was not taken whole has any length.
static void draw_call(struct rows *r, const struct paper *a, int version) {
    size_t n = a->n, p = a->p;
    *r = (struct rows){n, p, SETTINGS, n, n, n * p <= MOST_X ? n * p : below(LONGER), n, NULL, NULL, NULL, NULL, NULL};
    take_rows(a);
    take_settings();
    if (below(12) == 0) other_setting();
    if (below(6) == 0) wrong_sizes(r);
    if (below(16) == 0) lend_out(head_of(version) + huge_sizes(r) % MOST_BYTES);
    else lend_out(bytes_due(r, version));
    lend_place();
    seal_rows(r);
}

static u64 written(int version, uint32_t family, const struct rows *r) {
    alarm(LASTING);
    if (version == 1)
        return xangoravit_write_sheet_1(r->n, r->p, r->settings, r->settings_length, r->sources, r->sources_length, r->targets, r->targets_length, r->x, r->x_length, r->y,
                                        r->y_length, out.lent, out.count, place.lent, place.count);
    return xangoravit_write_sheet_2(family, r->n, r->p, r->settings, r->settings_length, r->sources, r->sources_length, r->targets, r->targets_length, r->x, r->x_length, r->y,
                                    r->y_length, out.lent, out.count, place.lent, place.count);
}

static void tallied(int version, const struct rows *r, u64 due) {
    struct tally *t = &versions[version - 1];
    if (has_room(out.count, version, r->n, r->p)) {
        tally(t, due, r->settings_length == SETTINGS && place.count == 1);
        return;
    }
    t->too_short++;
    past_64_bits += out.count >= head_of(version) + r->n * (12 + 8 * r->p);
}

void try_writing(const struct paper *a) {
    struct rows r;
    int version = (int)between(1, 2);
    uint32_t family = some_family();
    draw_call(&r, a, version);
    u64 due = second_writing(version, family, &r, (struct outputs){.out = out.due, .place = place.due, .out_length = out.count, .place_length = place.count});
    tallied(version, &r, due);
    written_cancelled += due == 0 && a->cancelled;
    u64 number = written(version, family, &r);
    same(version == 1 ? "number of a writing, version 1" : "number of a writing, version 2", &number, &due, 1);
    as_due(&place), as_due(&out);
}

void tell_writings(void) {
    tell(&versions[0]), tell(&versions[1]);
    printf(" written-cancelled %" PRIu64 " writer-past-64-bits %" PRIu64, written_cancelled, past_64_bits);
}
