// A sheet is written whole, then none, one or several things are done to it.
#include <string.h>

#include "paper.h"

enum { CLAIMS = 999, ALL_PAIRS = CLAIMS * CLAIMS, FLAGS = 32, BODY = 33 }; // flags are the last byte of the body's 33 in front of its rows

static void put(uint8_t *to, u64 value, int count) {
    while (count--) to[count] = (uint8_t)value, value >>= 8;
}

static u64 size_of(const struct paper *a, u64 n, u64 p) { return a->head + n * (12 + 8 * p); }

static uint8_t *body_of(struct paper *a) { return a->bytes + a->head - BODY; }

static uint8_t *row_of(struct paper *a, u64 i) { return a->bytes + size_of(a, i, a->p); }

static void put_length(struct paper *a) { put(a->bytes + 1, a->length - 5, 4); }

// What is added is random: a sheet depends on its seed and number alone.
static void resize(struct paper *a, size_t to) {
    for (size_t i = a->length; i < to; i++) a->bytes[i] = (uint8_t)word();
    a->length = to;
}

static void put_sizes(struct paper *a, u64 n, u64 p) { put(body_of(a), n, 2), put(body_of(a) + 2, p, 2); }

// ---- whole sheets

uint32_t some_family(void) {
    static const uint32_t apart[] = {0, 1, 256, UINT32_MAX};
    return below(4) ? (uint32_t)word() : apart[below(4)];
}

static void of_version(struct paper *a, int version) {
    a->head = version == 2 ? 42 : 38;
    a->bytes[0] = (uint8_t)version;
    if (version == 2) put(a->bytes + 5, some_family(), 4);
}

static void put_pair(uint8_t *row, u64 pair) { put(row, 1 + pair / CLAIMS, 2), put(row + 2, 1 + pair % CLAIMS, 2); }

// Pairs rise by steps that leave room for all; with small steps many share their source, with middling ones some.
static void write_rows(struct paper *a) {
    u64 most = ALL_PAIRS / (a->n ? a->n : 1), pair = 0, odd = below(2), less = below(2) ? 3 : 2 * CLAIMS;
    if (most > less && below(2)) most = less;
    for (u64 i = 0; i < a->n; i++) {
        uint8_t *row = row_of(a, i);
        pair += (i > 0) + (i ? below(most) : below(2) * below(most));
        put_pair(row, pair);
        for (u64 j = 0; j <= a->p; j++) put(row + 4 + 8 * j, odd ? any_float() : bits_of(4.0 * unit() - 2.0), 8);
    }
    if (a->n && rarely()) put_pair(row_of(a, a->n - 1), ALL_PAIRS - 1);
}

static void write_sheet(struct paper *a, u64 n, u64 p) {
    of_version(a, (int)between(1, 2));
    a->n = n, a->p = p, a->length = size_of(a, n, p);
    put_length(a);
    put_sizes(a, n, p);
    uint8_t *body = body_of(a);
    for (int i = 0; i < 3; i++) put(body + 4 + 8 * i, any_float(), 8);
    put(body + 28, beside(1000), 4);
    body[FLAGS] = (uint8_t)below(4);
    write_rows(a);
}

// ---- cancelled rows

// Other pairs, over as many sources as there can be: each row has one of its own, or each source has a row.
static void spread(struct paper *a) {
    u64 shift = below(CLAIMS), pair = 0;
    for (u64 i = 0; i < a->n; i++) {
        u64 first = (i * CLAIMS + shift) / a->n * CLAIMS;
        pair = i && first <= pair ? pair + 1 : first;
        put_pair(row_of(a, i), pair);
    }
}

static int first_of_source(struct paper *a, u64 i) { return i == 0 || memcmp(row_of(a, i), row_of(a, i - 1), 2); }

// So many rows at random, or as many as can be: those that are the first of their source, so that pairs still rise.
static void cancel(struct paper *a, u64 count) {
    u64 can_be = 0;
    for (u64 i = 0; i < a->n; i++) can_be += first_of_source(a, i);
    if (count > can_be) count = can_be;
    a->cancelled = count;
    for (u64 i = 0; count; i++) {
        if (!first_of_source(a, i) || below(can_be--) >= count) continue;
        uint8_t *row = row_of(a, i);
        put(row + 2, 0, 2);
        for (u64 j = 0; j < a->p; j++) put(row + 4 + 8 * j, any_float(), 8);
        put(row + 4 + 8 * a->p, 0, 8);
        count--;
    }
}

// ---- sizes

// Rows, columns and cancelled rows, which are at most one a source. Of more than 4,096 rows at most 4,096 are left, or one too many, or far more.
static void at_bounds(struct paper *a) {
    static const u64 bounds[][3] = {{4096, 64}, {4096, 1}, {1, 64}, {4097, 1}, {1, 65}, {4096, 65}, {4097, 64}, {0, 0}, {0, 1}, {0, 65535}, {1, 0}, {65535, 0}, {1, 65535},
                                    {5095, 64, 999}, {5095, 1, 999}, {4097, 64, 1}, {4097, 2, 1}, {5096, 1, 999}, {4098, 5, 1}, {4999, 3, 999}, {5095, 1, 998}, {4096, 7, 500},
                                    {1000, 1, 999}, {999, 1, 999}, {1, 64, 1}, {1, 65, 1}, {2, 65, 1}, {2, 0, 1}, {1, 65535, 1}, {65535, 1, 999}, {65535, 0, 999}};
    const u64 *sizes = bounds[below(sizeof bounds / sizeof *bounds)];
    write_sheet(a, sizes[0], sizes[1]);
    if (!sizes[2]) return;
    spread(a);
    cancel(a, sizes[2]);
}

// About a quarter of all sheets have cancelled rows, and some of them no others.
static void whole(struct paper *a) {
    if (below(40) == 0) {
        at_bounds(a);
        return;
    }
    write_sheet(a, below(20) ? between(1, 12) : below(300), below(20) ? between(1, 5) : below(70));
    if (!a->n || below(11) >= 3) return;
    if (below(4) == 0) spread(a);
    cancel(a, below(8) ? between(1, a->n) : CLAIMS);
}

// ---- damage

// Cut or longer; sometimes the length field agrees, so that only n and p tell.
static void other_length(struct paper *a) {
    static const size_t near[] = {0, 1, 4, 5, 6, 9, 37, 38, 39, 41, 42, 43};
    size_t to = near[below(12)];
    if (below(2)) to = below(a->length + 1);
    if (below(3) == 0) to = a->length + between(1, 40);
    if (below(4) == 0) to = below(2) ? a->length + 8 : a->length - (a->length ? 1 : 0);
    resize(a, to);
    if (to >= 5 && below(2)) put_length(a);
}

static void other_length_field(struct paper *a) {
    u64 rest = a->length - 5;
    switch (below(8)) {
    case 0: rest = 0; break;
    case 1: rest = below(2) ? 33 : 37; break;
    case 2: rest = UINT32_MAX; break;
    case 3: rest ^= (u64)1 << below(32); break;
    case 4: rest = __builtin_bswap32((uint32_t)rest); break;
    case 5: rest = word(); break;
    default: rest += (below(2) ? 1 : -1) * (below(2) ? 1 : 4);
    }
    put(a->bytes + 1, rest, 4);
}

// The family's four bytes are put in or left out; the rows move with them, also such as were cut off.
static void other_family(struct paper *a) {
    u64 whole = size_of(a, a->n, a->p), end = whole > a->length ? whole : a->length;
    if (a->length < 9) return;
    if (a->head == 42) {
        memmove(a->bytes + 5, a->bytes + 9, end - 9);
        a->head -= 4, a->length -= 4;
    } else {
        memmove(a->bytes + 9, a->bytes + 5, end - 5);
        put(a->bytes + 5, some_family(), 4);
        a->head += 4, a->length += 4;
    }
}

// Another version byte, or a family's bytes or the byte or both as of the other version; the length field follows or does not.
static void other_version(struct paper *a) {
    if (below(2)) {
        a->bytes[0] = (uint8_t)(below(2) ? below(4) : word());
        return;
    }
    if (below(3)) a->bytes[0] = 3 - a->bytes[0];
    if (below(3)) other_family(a);
    if (a->length >= 5 && below(2)) put_length(a);
}

// Another n or p; sometimes the length field or the length itself follows.
static void other_size(struct paper *a) {
    static const u64 odd[] = {0, 1, 64, 65, 255, 256, 4096, 4097, 32768, 65535};
    u64 sizes[] = {a->n, a->p}, which = below(2);
    sizes[which] = below(2) ? odd[below(10)] : below(2) ? sizes[which] + 1 : sizes[which] - 1;
    put(body_of(a) + 2 * which, sizes[which], 2);
    u64 due = size_of(a, sizes[0] & 65535, sizes[1] & 65535);
    if (below(2)) put(a->bytes + 1, due - 5, 4);
    if (below(2) && due <= MOST_BYTES) resize(a, due);
}

// A claim number that is none, or a pair that does not rise.
static void other_claim(struct paper *a) {
    static const u64 odd[] = {0, 1, 999, 1000, 1001, 32768, 65535, 256};
    if (!a->n) return;
    u64 i = below(a->n), j = below(a->n);
    uint8_t *row = row_of(a, i), *before = row_of(a, i ? i - 1 : 0), *other = row_of(a, j), kept[4];
    switch (below(6)) {
    case 0: put(row + 2 * below(2), odd[below(8)], 2); break;
    case 1: put(row + 2 * below(2), word(), 2); break;
    case 2: memmove(row, before, 4); break;
    case 3: memmove(row, before, 4), row[3] += below(2) ? 1 : -1; break;
    case 4: memmove(row + 2 * below(2), before + 2 * below(2), 2); break;
    default: memcpy(kept, row, 4), memmove(row, other, 4), memcpy(other, kept, 4);
    }
}

// Where no row is cancelled, one is, whatever its pair becomes.
static u64 some_cancelled(struct paper *a) {
    u64 i = below(a->n);
    for (u64 left = a->n; left; left--, i = (i + 1) % a->n)
        if (!row_of(a, i)[2] && !row_of(a, i)[3]) return i;
    put(row_of(a, i) + 2, 0, 2), put(row_of(a, i) + 4 + 8 * a->p, 0, 8);
    return i;
}

static void swap(uint8_t *a, uint8_t *b, u64 count) {
    for (; count; count--, a++, b++) {
        uint8_t kept = *a;
        *a = *b, *b = kept;
    }
}

// A cancelled row with a score, without a source, twice or at another place.
static void other_cancelled(struct paper *a) {
    if (!a->n) return;
    uint8_t *other = row_of(a, below(a->n));
    if (below(6) == 0) {
        put(other + 2, 0, 2); // its score stays
        return;
    }
    u64 i = some_cancelled(a), size = 12 + 8 * a->p;
    uint8_t *row = row_of(a, i), *next = row_of(a, i + 1 < a->n ? i + 1 : i ? i - 1 : 0), *score = row + size - 8;
    switch (below(7)) {
    case 0: score[below(8)] ^= 1 << below(8); break;
    case 1: put(score, NO_SIGN + 1, 8); break;
    case 2: put(score, below(2) ? NAN_BITS : any_float(), 8); break;
    case 3: put(row, below(2) ? 0 : between(999, 1001), 2); break;
    case 4: memmove(next, row, size); break;
    case 5: swap(row, next, size); break;
    default: swap(row, other, size);
    }
}

// No refusal of the reader's: any number is carried over.
static void other_number(struct paper *a) {
    static const u64 odd[] = {0x7ff0000000000000, 0xfff0000000000000, 0x7ff8000000000000, 0xfff8000000000000, 0x7ff0000000000001, 0xffffffffffffffff, 0xfff4000000000000};
    u64 value = below(2) ? odd[below(7)] : any_float();
    if (a->n && below(3)) put(row_of(a, below(a->n)) + 4 + 8 * below(a->p + 1), value, 8);
    else put(body_of(a) + 4 + 8 * below(3), value, 8);
}

static void damage(struct paper *a) {
    switch (below(13)) {
    case 0: other_length(a); break;
    case 1: other_length_field(a); break;
    case 2: other_size(a); break;
    case 3: other_version(a); break;
    case 4: body_of(a)[FLAGS] = (uint8_t)(below(2) ? beside(3) : word()); break;
    case 5: other_number(a); break;
    case 6: a->bytes[below(a->head)] ^= 1 << below(8); break;
    case 7:
        if (a->length) a->bytes[below(a->length)] ^= 1 << below(8);
        break;
    case 8:
    case 9: other_cancelled(a); break;
    default: other_claim(a);
    }
}

// ---- other bytes

static void random_bytes(struct paper *a) {
    a->n = below(4), a->p = below(4), a->length = 0;
    resize(a, 4000);
    uint8_t first = a->bytes[0];
    of_version(a, (int)between(1, 2));
    a->length = below(2) ? size_of(a, a->n, a->p) : below(8) ? below(200) : below(4000);
    if (below(4) == 0) a->bytes[0] = first;
    if (below(4) && a->length >= 5) put_length(a);
    if (below(4)) put_sizes(a, a->n, a->p);
    if (below(2)) body_of(a)[FLAGS] &= 3;
}

// n(12+8p) = 4n(3+2p) a little above a multiple of 2^32, and bytes as many as its low 32 bits say: who counts in these finds the length right.
static void wrapped(struct paper *a) {
    u64 low = below(1000), product = (between(1, 7) << 30) + low, n = product / 131073 + 1;
    while (n < 65536 && (product % n || product / n % 2 == 0)) n++;
    if (n == 65536) {
        wrapped(a);
        return;
    }
    write_sheet(a, between(1, 40), between(1, 9));
    resize(a, a->head + 4 * low);
    put_length(a);
    put_sizes(a, n, (product / n - 3) / 2);
}

void draw(struct paper *a) {
    static const int faults[] = {0, 0, 1, 1, 1, 2, 3};
    a->cancelled = 0;
    switch (below(32)) {
    case 0:
    case 1: random_bytes(a); break;
    case 2: wrapped(a); break;
    default:
        whole(a);
        for (int left = faults[below(7)]; left; left--) damage(a);
    }
}
