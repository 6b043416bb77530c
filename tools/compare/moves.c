// A sheet through both moves of crate sheet_api and the second mover: number, place, the words of what was moved, and each byte of the output. Where a move is
// made, the way back must give the old bytes and the family.
#include <stdio.h>
#include <string.h>
#include <unistd.h>

#include "kinds.h"
#include "loans.h"
#include "paper.h"
#include "writer.h"

extern u64 xangoravit_move_up(const uint8_t *bytes, size_t bytes_len, uint32_t family, uint8_t *out, size_t out_len, u64 *moved, size_t moved_len, u64 *place,
                              size_t place_len);
extern u64 xangoravit_move_down(const uint8_t *bytes, size_t bytes_len, uint8_t *out, size_t out_len, u64 *moved, size_t moved_len, u64 *place, size_t place_len);

static const int due_numbers[] = {1, 11, 12, 13, 14, 15, 0}, words_numbers[] = {1, 2, 11, 12, 13, 14, 15, 0};
static struct tally ups = {.name = "up", .done_name = "moved", .numbers = due_numbers, .words_numbers = words_numbers};
static struct tally downs = {.name = "down", .done_name = "moved", .numbers = due_numbers, .words_numbers = words_numbers};
static u64 returns; // ways back that were tried

static struct loan moved = {.name = "words of a move", .size = 8};
static struct arena moved_room; // a sheet that was moved, for the way back

void open_moves(void) {
    moved_room = arena((BYTES_ROOM + 4 + 7) / 8);
    open_loan(&moved, MOVED + 3);
}

static struct outputs lent_now(void) { return (struct outputs){out.due, moved.due, place.due, out.count, moved.count, place.count}; }

static void lend_all(size_t due) {
    lend_out(due);
    lend(&moved, below(8) ? MOVED : below(MOVED + 3));
    lend_place();
}

static void compared(struct tally *t, const char *what_number, size_t room_due, u64 number, u64 due) {
    if (out.count < room_due) t->too_short++;
    else tally(t, due, moved.count == MOVED && place.count == 1);
    same(what_number, &number, &due, 1);
    as_due(&place), as_due(&moved), as_due(&out);
}

// What the way back must leave, in slices of the due lengths.
static void lend_back(const uint8_t *bytes, size_t length, u64 family) {
    u64 words[MOVED] = {length, family};
    lend(&out, length), lend(&moved, MOVED), lend(&place, 1);
    memcpy(out.due, bytes, length), memcpy(moved.due, words, sizeof words), memset(place.due, 0, 8);
    returns++;
    alarm(LASTING);
}

static void came_back(const char *what_number, u64 number) {
    u64 due = 0;
    same(what_number, &number, &due, 1);
    as_due(&place), as_due(&moved), as_due(&out);
}

static void move_up(const uint8_t *bytes, size_t length) {
    uint32_t family = some_family();
    lend_all(length + 4);
    u64 due = second_up(bytes, length, family, lent_now());
    alarm(LASTING);
    u64 number = xangoravit_move_up(bytes, length, family, out.lent, out.count, moved.lent, moved.count, place.lent, place.count);
    compared(&ups, "number of a move up", length + 4, number, due);
    if (number || due) return;
    const uint8_t *above = sealed(moved_room, out.lent, length + 4);
    lend_back(bytes, length, family);
    came_back("number of a move back down", xangoravit_move_down(above, length + 4, out.lent, length, moved.lent, MOVED, place.lent, 1));
}

static void move_down(const uint8_t *bytes, size_t length) {
    size_t room_due = length < 4 ? 0 : length - 4;
    lend_all(room_due);
    u64 due = second_down(bytes, length, lent_now());
    alarm(LASTING);
    u64 number = xangoravit_move_down(bytes, length, out.lent, out.count, moved.lent, moved.count, place.lent, place.count);
    compared(&downs, "number of a move down", room_due, number, due);
    if (number || due) return;
    const uint8_t *beneath = sealed(moved_room, out.lent, room_due);
    u64 family = ((u64 *)moved.lent)[1];
    lend_back(bytes, length, family);
    came_back("number of a move back up", xangoravit_move_up(beneath, room_due, (uint32_t)family, out.lent, length, moved.lent, MOVED, place.lent, 1));
}

void try_moves(const uint8_t *bytes, size_t length) {
    move_up(bytes, length);
    move_down(bytes, length);
}

void tell_moves(void) {
    tell(&ups), tell(&downs);
    printf(" moved-back %" PRIu64, returns);
}
