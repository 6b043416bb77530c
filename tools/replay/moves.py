"""Sheets moved to the other version, and sheets written, with the answers and the bytes that are due. The bytes are packed here from the rows, never cut out of
what is given. Refusals are worked out by 02's order, and the number of each fault stands beside it as well."""
import itertools
from collections import namedtuple

from generate import Random
from refusals import ALL_ONES, INF, LARGEST, MINUS_INF, MINUS_ZERO, NAN, setting_bad
from sheets import (BODY, FIELD, LAZY, NORMALISE, NOT_FINITE, ROWS, THREE, front_refusal, gaps_for, gone, grown, mixed, row, row_refusal, rows_in, sheet, sizes,
                    some_family, zeros)
from words import bits

UP, DOWN = 1, 2
SEED, SHEETS = 5, 200  # of each version
LARGER = {40: (30, 8), 60: (1, 64), 61: (1, 64), 81: (30, 3), 120: (50, 1), 160: (3, 16)}  # rows and features of some of them
FAMILY = 0x0A0B0C0D

# An answer is a number, 0 where nothing is refused, a place and the bytes of the sheet; a move's also has the family.
Move = namedtuple("Move", "direction family room answer data moved")
Writing = namedtuple("Writing", "call answer written")


# ---- the sheets of both

def value(r, odd):
    """The bits of a number. One in three of an odd sheet is infinite, or a NaN of some pattern."""
    if odd and r.below(3) == 0:
        return r.pick([*NOT_FINITE, INF + 1 + r.below(1 << 51), MINUS_INF + 1 + r.below(1 << 51)])
    return bits(r.wild())


def some_rows(r, k):
    """Every second sheet is odd: it has cancelled rows, and numbers that are none, a NaN of another pattern than ours among them."""
    odd = k % 2 == 1
    n, p = LARGER.get(k) or (1 + r.below(r.pick([1, 3, 6] if odd else [2, 4, 12])), 1 + r.below(r.pick([1, 3, 5])))
    rows = [(0, 0, [value(r, odd) for _ in range(p)], value(r, odd)) for _ in range(n)]
    if odd:
        rows = row(rows, r.below(n), x=(r.below(p), r.pick([INF, MINUS_INF]) + 1 + r.below(1 << 51)))
    return mixed(r, rows, gaps_for(r, rows, False) if odd else [0] * (n + 1))


def some_settings(r):
    """Each is allowed."""
    lazy = r.below(2)
    return {
        "alpha": r.pick([0, MINUS_ZERO, bits(1e6), bits(r.between(0.0, 2.0))]),
        "l1_ratio": r.pick([0, MINUS_ZERO, bits(1.0), bits(r.unit())]),
        "tol": r.pick([0, MINUS_ZERO, LARGEST, bits(r.unit())]),
        "M": r.pick([0, 1000, r.whole(1, 999)]),
        "R": r.pick([1, 256, r.whole(2, 255)]) if lazy else r.pick([0, ALL_ONES, 257]),
        "C": r.pick([1, 32, r.whole(2, 31)]) if lazy else r.pick([0, ALL_ONES, 33]),
        "normalise": r.below(2),
        "lazy": lazy,
    }


def drawn():
    """Version, family, rows and settings of each sheet."""
    r = Random(SEED)
    return [(version, some_family(r), some_rows(r, k), some_settings(r)) for version in (1, 2) for k in range(SHEETS)]


def bytes_of(version, family, rows, c):
    flags = NORMALISE * c["normalise"] + LAZY * c["lazy"]
    return sheet(rows, p=len(rows[0][2]), version=version, family=None if version == 1 else family, alpha=c["alpha"], ratio=c["l1_ratio"], tol=c["tol"],
                 rounds=c["M"], flags=flags)


def longer(k, due):
    """Two outputs of four are longer than is due."""
    return due + (k // 4 % 9 + 1 if k // 2 % 2 else 0)


# ---- moves

def need(direction, data):
    return len(data) + 4 if direction == UP else max(len(data) - 4, 0)


def move_refusal(direction, room, data):
    """By 02's order: 2, then 11 to 15, then 1 by the rows that remain."""
    if room < need(direction, data):
        return 2, 0
    refusal = front_refusal(data, (direction,)) or row_refusal(rows_in(data))
    if refusal:
        return refusal
    left, p = sum(x[1] != 0 for x in rows_in(data)), sizes(data)[1]
    return None if 1 <= left <= 4096 and 1 <= p <= 64 else (1, 0)


def refused_move(direction, family, room, data, number, place=0):
    assert move_refusal(direction, room, data) == (number, place), (direction, room, data.hex(), number, place)
    return Move(direction, family, room, (number, place, 0, 0), data, b"")


def odd_settings(k, c):
    """Of some sheets they are out of range, for a move does not test them."""
    return {**c, "alpha": INF + 1 + k, "tol": MINUS_INF, "M": FIELD - 1} if k % 8 in (1, 3) else c


def moved(k, version, family, rows, c):
    """The sheet moved, and back; and, of some, into an output that is a byte short."""
    c = odd_settings(k, c)
    sheets = {v: bytes_of(v, family, rows, c) for v in (1, 2)}
    for direction in (version, 3 - version):
        data, due, given = sheets[direction], sheets[3 - direction], family if direction == UP else 0
        room = longer(k, len(due))
        assert move_refusal(direction, room, data) is None
        yield Move(direction, given, room, (0, 0, len(due), family), data, due)
        if k % 5 == 0 and direction == version:
            yield refused_move(direction, given, len(due) - 1, data, 2)


def whole(version, rows, family=FAMILY, **head):
    """A sheet of this version, but for what the rest says."""
    given = {"p": len(rows[0][2]) if rows else 1, **head}
    return sheet(rows, version=version, family=None if version == 1 else family, **given)


def front_faults(version):
    """11, 12 and 13, also two at once: number, place, bytes."""
    other, family = 3 - version, None if version == 1 else FAMILY
    yield from ((11, 0, sheet(ROWS, version=wrong, family=family)) for wrong in (0, other, 3, 255))
    yield from ((11, 0, whole(other, ROWS, **fault)) for fault in ({}, {"off": 1}, {"more": -1}, {"flags": 4}, {"p": 0}))
    yield 11, 0, whole(other, row(ROWS, 0, source=0))
    yield 11, 0, whole(other, [])
    yield from ((11, 0, bytes([other]) + bytes(k)) for k in (4, 8))
    yield from ((12, 0, bytes([first]) + bytes(k)) for first in (version, other) for k in range(4))
    yield from ((12, 0, zeros(version, size)) for size in (5, 6, 8, 9, 10, 37, 38, 41) if size < BODY[version] + 33)
    yield 12, 0, b""
    yield from ((12, 0, whole(version, ROWS, off=off)) for off in (-4, -1, 1, 4))
    yield from ((12, 0, whole(version, ROWS, length=length)) for length in (0, FIELD - 1))
    yield from ((12, 0, whole(version, rows, more=more, off=off)) for rows in (ROWS, []) for more in (-1, 1) for off in (0, more))
    yield from ((12, 0, whole(version, ROWS, n=n)) for n in (0, 1, 3, 65535))
    yield from ((12, 0, whole(version, ROWS, p=p)) for p in (0, 2, 65535))
    yield 12, 0, whole(version, ROWS, off=1, flags=4)
    yield 12, 0, whole(version, row(ROWS, 0, source=0), n=3)
    yield from ((13, 0, whole(version, ROWS, flags=flags)) for flags in (4, 128, 255))
    yield 13, 0, whole(version, row(ROWS, 0, source=0), flags=4)
    yield 13, 0, whole(version, [ROWS[1], ROWS[0]], flags=4)
    yield 13, 0, whole(version, [], flags=4)


def row_faults():
    """14 and 15, also two at once: number, place, rows. They are the writer's too."""
    for i in (0, 1):
        yield from ((14, i, row(ROWS, i, source=claim)) for claim in (0, 1000, 65535))
        yield from ((14, i, row(ROWS, i, target=claim)) for claim in (1000, 65535))
    yield from ((14, 1, row(THREE, 1, y=score)) for score in (1, bits(1.0), MINUS_ZERO, NAN, INF, INF + 1))
    yield 14, 1, row(ROWS, 1, target=0)
    yield 15, 1, [ROWS[0], ROWS[0]]
    yield 15, 1, [ROWS[1], ROWS[0]]
    yield 15, 1, row(row(ROWS, 0, target=3), 1, source=1)
    yield 15, 1, [gone(1), gone(1)]
    yield 15, 2, [*ROWS, gone(3)]
    three = grown(3, 1)
    yield 14, 1, row(three, 1, source=0, target=3)
    yield 14, 1, row(row(three, 1, source=0), 2, target=3)
    yield 15, 1, row(row(three, 1, target=3), 2, source=0)


def size_faults(version):
    """1, and what is ahead of it."""
    yield from ((1, 0, whole(version, rows)) for rows in ([], [gone(7)], [gone(1), gone(2)], grown(1, 65), grown(1, 0), grown(3, 0), [gone(7, p=65)]))
    yield from ((1, 0, whole(version, [], p=p)) for p in (64, 65, 65535))
    yield 1, 0, zeros(version, BODY[version] + 33)
    yield 14, 1, whole(version, [gone(1), gone(2, 1.0)])
    yield 14, 0, whole(version, row(grown(2, 65), 0, source=1000))
    yield 14, 1, whole(version, row(grown(2, 0), 1, target=1000))
    yield 15, 1, whole(version, [gone(2), gone(1)])
    yield 15, 1, whole(version, [gone(2, p=65), gone(2, p=65)])
    yield 15, 1, whole(version, row(grown(2, 65), 1, target=3))
    yield 15, 1, whole(version, row(grown(2, 0), 1, target=3))


def refused_moves(direction):
    """Each fault with the room that is due, and with a byte less; some with more."""
    rows = ((number, place, whole(direction, some)) for number, place, some in row_faults())
    for k, (number, place, data) in enumerate(itertools.chain(front_faults(direction), rows, size_faults(direction))):
        given, due = FAMILY if direction == UP else 0, need(direction, data)
        yield refused_move(direction, given, due, data, number, place)
        if due:
            yield refused_move(direction, given, due - 1, data, 2)
        if k % 8 == 0:
            yield refused_move(direction, given, due + 9, data, number, place)


def moves(found):
    sheets = [one for k, drawing in enumerate(found) for one in moved(k, *drawing)]
    faults = [one for direction in (UP, DOWN) for one in refused_moves(direction)]
    told("moves", sheets + faults)
    return sheets + faults


# ---- writings

def as_written(word):
    """Every NaN has one pattern."""
    return NAN if word & ~MINUS_ZERO > INF else word


def call(version, rows, family=FAMILY, **changes):
    """The rows to the writer, and an output as long as is due, but for the changes."""
    wide = [(s, t, *map(word_of, [*x, y])) for s, t, x, y in rows]
    c = {"version": version, "family": family if version == 2 else 0, "n": len(rows), "p": len(rows[0][2]) if rows else 1,
         "alpha": bits(0.5), "l1_ratio": bits(0.5), "tol": bits(0.001), "M": 10, "R": 4, "C": 2, "normalise": 0, "lazy": 0,
         "sources": [x[0] for x in wide], "targets": [x[1] for x in wide], "x": [word for x in wide for word in x[2:-1]], "y": [x[-1] for x in wide]}
    c.update(changes)
    return {"room": bytes_due(c), **c}


def word_of(number):
    return number if isinstance(number, int) else bits(number)


def bytes_due(c):
    return BODY[c["version"]] + 33 + c["n"] * (12 + 8 * c["p"])


def writing_refusal(c):
    """By 02's order."""
    n, p = c["n"], c["p"]
    if c["room"] < bytes_due(c):
        return 2, 0
    if not (1 <= n <= 4096 and 1 <= p <= 64):
        return 1, 0
    if [len(c[name]) for name in ("sources", "targets", "x", "y")] != [n, n, n * p, n]:
        return 2, 0
    if setting_bad(c):
        return 3, 0
    return row_refusal(zip(c["sources"], c["targets"], map(as_written, c["y"])))


def writing(c, number=0, place=0):
    """The sheet of all rows; none where a number is given."""
    assert writing_refusal(c) == ((number, place) if number else None), (c, number, place)
    if number:
        return Writing(c, (number, place, 0), b"")
    p, xs, ys = c["p"], list(map(as_written, c["x"])), map(as_written, c["y"])
    rows = [(s, t, xs[i * p:i * p + p], y) for i, (s, t, y) in enumerate(zip(c["sources"], c["targets"], ys))]
    due = bytes_of(c["version"], c["family"], rows, c)
    return Writing(c, (0, 0, len(due)), due)


def written(k, version, family, rows, settings):
    """The rows written; and, of some, into an output that is a byte short."""
    c = call(version, rows, family, **settings)
    yield writing({**c, "room": longer(k, c["room"])})
    if k % 5 == 1:
        yield writing({**c, "room": c["room"] - 1}, 2)


def sizes_given(version):
    """1, and 2 by the output: number, place, call. Some products are beyond 64 bits, and by their low bits there would be room."""
    yield 1, 0, call(version, [])
    yield from ((1, 0, call(version, [], p=p)) for p in (0, 64, 65, ALL_ONES))
    yield from ((1, 0, call(version, grown(n, p))) for n, p in ((1, 0), (3, 0), (1, 65)))
    yield 1, 0, call(version, [], n=4097)
    yield 1, 0, call(version, grown(2, 65), sources=[0, 0], alpha=NAN)
    yield 1, 0, call(version, [], n=1, p=65)
    # what is in range is 2, by the slices
    yield 2, 0, call(version, [], n=4096)
    yield 2, 0, call(version, [], n=1, p=64)
    small = {"n": 2, "p": 1, "room": bytes_due(call(version, ROWS))}
    for huge in ({"n": 2 + (1 << 62)}, {"n": 1 << 62}, {"n": 1 << 63, "p": 0}, {"p": 1 + (1 << 61)}, {"n": ALL_ONES}, {"p": ALL_ONES},
                 {"n": ALL_ONES, "p": ALL_ONES}, {"n": 65535, "p": 65535}, {"n": 5000}):
        yield 2, 0, call(version, ROWS, **{**small, **huge})


def slices_given(version):
    """2 by each of the four lengths."""
    c = call(version, grown(3, 2))
    for name in ("sources", "targets", "x", "y"):
        yield from ((2, 0, {**c, name: some}) for some in (c[name][:-1], [*c[name], 999], []))
    # as many as are due, were rows and columns turned round
    yield 2, 0, {**c, "y": c["y"][:2]}
    yield 2, 0, {**c, "x": c["x"][:-1], "alpha": NAN}
    yield 2, 0, {**c, "sources": [0], "M": 1001}


BAD_SETTINGS = [
    *({"alpha": word} for word in (NAN, INF, INF + 1, MINUS_INF, MINUS_ZERO + 1, bits(1e6) + 1, bits(-1.0))),
    *({"l1_ratio": word} for word in (NAN, INF, MINUS_INF, MINUS_ZERO + 1, bits(1.0) + 1)),
    *({"tol": word} for word in (NAN, INF, MINUS_INF, MINUS_ZERO + 1)),
    *({"M": count} for count in (1001, FIELD, FIELD + 10, ALL_ONES)),
    *({"R": count, "lazy": 1} for count in (0, 257, ALL_ONES)),
    *({"C": count, "lazy": 1} for count in (0, 33, ALL_ONES)),
]


def settings_given(version):
    """3, and what is ahead of 14. R and C are tested where lazy alone."""
    yield from ((3, 0, call(version, THREE, **setting)) for setting in BAD_SETTINGS)
    yield 3, 0, call(version, row(ROWS, 0, source=0), tol=NAN)
    yield 3, 0, call(version, [ROWS[1], ROWS[0]], M=1001)
    yield from ((0, 0, call(version, THREE, **{**setting, "lazy": 0})) for setting in BAD_SETTINGS if "lazy" in setting)


def taken(version):
    """What a writer takes: cancelled rows alone, the widest rows, numbers that are none."""
    yield from ((0, 0, call(version, rows)) for rows in ([gone(7)], [gone(1), gone(2)], [gone(7, p=64)], row(row(ROWS, 0, x=(0, INF + 1)), 1, y=MINUS_INF + 1)))


def calls(version):
    """Each with its room; those that are refused also with a byte less."""
    rows = ((number, place, call(version, some)) for number, place, some in row_faults())
    for number, place, c in itertools.chain(sizes_given(version), slices_given(version), settings_given(version), taken(version), rows):
        yield writing(c, number, place)
        if number and c["room"] == bytes_due(c):
            yield writing({**c, "room": c["room"] - 1}, 2)


def writings(found):
    sheets = [one for k, drawing in enumerate(found) for one in written(k, *drawing)]
    faults = [one for version in (1, 2) for one in calls(version)]
    told("writings", sheets + faults)
    return sheets + faults


def told(name, some):
    by = {}
    for one in some:
        by[one.answer[0]] = by.get(one.answer[0], 0) + 1
    print(f"{name}: {by.pop(0)} made, refused " + ", ".join(f"{by[number]} with {number}" for number in sorted(by)))


def made():
    found = drawn()
    return moves(found), writings(found)
