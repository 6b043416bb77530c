"""Training sheets with the texts that they must give: the stored fits as sheets, with the stored answers; some of them once more with cancelled rows among
their own, with the same answers; sheets at the edge of each refusal, also with two faults at once; document 01's sheet cut at every length. The last two kinds
are answered here, by 01's order. Every sheet is made in both versions, from the same rows; of those that no version has, and of cut ones, each stands alone."""
import functools
import itertools
import math
import struct
import sys

from generate import Random
from words import number

NORMALISE, LAZY = 1, 2
LIMIT = 35882
BODY = {1: 5, 2: 9}  # where it begins
FIELD = 1 << 32  # 4 bytes hold less
NAN, INF = math.nan, math.inf
SEED, AGAIN = 3, 120  # of the cancelled rows that are mixed into stored fits; how many fits
FAMILY_SEED = 4
NOT_FINITE = (0x7ff8000000000000, 0xfff8000000000000, 0x7ff0000000000001, 0xffffffffffffffff, 0x7ff0000000000000, 0xfff0000000000000)


# ---- sheets

def packed(value):
    """A whole number is bits: as a double, a NaN might not keep its pattern."""
    return struct.pack(">Q" if isinstance(value, int) else ">d", value)


def sheet(rows, p=1, version=1, family=None, n=None, off=0, length=None, alpha=1.0, ratio=1.0, tol=0.5, rounds=0, flags=0, more=0):
    """Rows are (source, target, features, score). A header that says something else than the rows is a fault on purpose: so is a family in version 1 and none
    in version 2. The length is off by so much, or is given; more bytes stand at the end than it counts, or fewer."""
    front = b"" if family is None else struct.pack(">I", family)
    head = struct.pack(">HH", len(rows) if n is None else n, p) + packed(alpha) + packed(ratio) + packed(tol) + struct.pack(">IB", rounds, flags)
    body = b"".join(struct.pack(">HH", s, t) + b"".join(map(packed, [*x, y])) for s, t, x, y in rows)
    rest = front + head + body
    data = struct.pack(">BI", version, len(rest) + off if length is None else length) + rest
    return data[:more] if more < 0 else data + bytes(more)


def zeros(version, size):
    """The length alone is right."""
    return struct.pack(">BI", version, size - 5) + bytes(size - 5)


def some_family(r):
    return r.pick([0, FIELD - 1, *(r.below(FIELD) for _ in range(6))])


def draft(rows, **head):
    """A sheet whose version, and then its family, are still to be given."""
    return functools.partial(sheet, rows, **head)


def in_both(r, make):
    return make(version=1), make(version=2, family=some_family(r))


def grown(n, p):
    """n rows of p features that vary, with scores 1 and 3 in turn and pairs that rise."""
    return [(1 + i // 9, 3 + 4 * (i % 9), [float(i % 4 + j) for j in range(p)], float(1 + 2 * (i % 2))) for i in range(n)]


def row(rows, i, source=None, target=None, x=None, y=None):
    """The rows with another source, target, feature (its column and value) or score in row i."""
    s, t, features, score = rows[i]
    if x is not None:
        features = features[:x[0]] + [x[1]] + features[x[0] + 1:]
    new = (s if source is None else source, t if target is None else target, features, score if y is None else y)
    return rows[:i] + [new] + rows[i + 1:]


def column(rows, j, values):
    return [(s, t, x[:j] + [value] + x[j + 1:], y) for (s, t, x, y), value in zip(rows, values)]


def gone(source, score=0.0, p=1):
    """A cancelled row, its features NaN."""
    return source, 0, [NAN] * p, score


def struck(rows, i):
    """The rows with row i cancelled."""
    return rows[:i] + [gone(rows[i][0], p=len(rows[i][2]))] + rows[i + 1:]


# ---- answers by 01's order

def sizes(data):
    """n and p; 0 where a byte of them is missing."""
    at = BODY[data[0]]
    return struct.unpack_from(">HH", data.ljust(at + 4, b"\0"), at)


def front_refusal(data, versions):
    """11 to 13, where these versions are taken."""
    if len(data) < 5:
        return 12, 0
    if data[0] not in versions:
        return 11, 0
    head, (n, p) = BODY[data[0]] + 33, sizes(data)
    if len(data) < head or int.from_bytes(data[1:5], "big") != len(data) - 5 or len(data) != head + n * (12 + 8 * p):
        return 12, 0
    return (13, 0) if data[head - 1] > 3 else None


def frame_refusal(data):
    """The program's, before it reads the rows."""
    if len(data) > LIMIT:
        return 16, 0
    refusal = front_refusal(data, (1, 2))
    if refusal:
        return refusal
    n, p = sizes(data)
    return (16, 0) if n > 256 or p > 16 else None


def rows_in(data):
    """All rows of a sheet whose length is right: source, target, features, bits of the score."""
    n, p = sizes(data)
    return [struct.unpack_from(f">HH{p}dQ", data, BODY[data[0]] + 33 + i * (12 + 8 * p)) for i in range(n)]


def row_refusal(rows):
    """Of all rows, cancelled ones too."""
    before = (0, 0)
    for i, (source, target, *_, score) in enumerate(rows):
        if not (1 <= source <= 999 and 0 <= target <= 999) or (target == 0 and score != 0):
            return 14, i
        if (source, target) <= before:
            return 15, i
        before = (source, target)
    return None


def start_refusal(settings, matrix, scores):
    """1 to 6, of the rows that remain. The deviation's arithmetic is exact for the sheets below."""
    alpha, ratio, tol, rounds, flags = settings
    n, p = len(scores), len(matrix[0]) if matrix else 0
    if n == 0 or p == 0:
        return 1, 0
    if not (0 <= alpha <= 1e6 and 0 <= ratio <= 1 and 0 <= tol < INF and rounds <= 1000):
        return 3, 0
    for i, value in enumerate(itertools.chain(*matrix, scores)):
        if not math.isfinite(value):
            return 5, i
    for j in range(p if flags & NORMALISE else 0):
        xs = [x[j] for x in matrix]
        if math.sqrt(sum(x * x for x in xs) / n - (sum(xs) / n) ** 2) < 2.0 ** -52:
            return 6, j
    return None


def fit_text(how, counts, intercept, weights):
    lines = [f"ended {how}", "rounds {} solver {} trials {}".format(*counts), f"intercept {intercept:016x}"]
    return "".join(line + "\n" for line in lines + [f"w {j} {bits:016x}" for j, bits in enumerate(weights)])


def refused_text(refusal):
    return "refused {} at {}\n".format(*refusal)


def answered(data):
    """Sheets that are not refused have M = 0, whose fit takes no step: weights +0, and the scores' mean."""
    refusal = frame_refusal(data)
    if refusal:
        return refused_text(refusal)
    _, p, *settings = struct.unpack_from(">HHdddIB", data, BODY[data[0]])
    rows = rows_in(data)
    left = [x for x in rows if x[1] != 0]
    matrix, scores = [x[2:-1] for x in left], [number(x[-1]) for x in left]
    refusal = row_refusal(rows) or start_refusal(settings, matrix, scores)
    if refusal:
        return refused_text(refusal)
    assert settings[3] == 0
    mean, = struct.unpack(">Q", struct.pack(">d", sum(scores) / len(scores)))
    return fit_text("limit", (0, 0, 0), mean, [0] * p)


# ---- the sheets at the edges

ROWS = [(1, 1, [1.0], 1.0), (3, 2, [2.0], 3.0)]
P8 = draft(ROWS)
FOUR = grown(4, 3)
MOST = grown(256, 16)
# P8's sheet with a cancelled row between its two. Then four rows, with a cancelled one before the first and before the third.
THREE = [ROWS[0], gone(2), ROWS[1]]
HOLES = struck(struck([(1 + i, 5, x, y) for i, (_, _, x, y) in enumerate(grown(6, 3))], 0), 3)


def alone():
    """11, 12 and 16 of what is no sheet of either version, and of a sheet whose version byte alone is that of the other."""
    for version in (0, 3, 255):
        yield sheet(ROWS, version=version)
        yield sheet(ROWS, version=version, family=7)
    yield sheet(ROWS, version=0, length=0)
    yield sheet(ROWS, version=3, family=7, flags=4)
    for version in (0, 1, 2, 3):
        yield bytes([version]) + bytes(3)
        yield from (zeros(version, size) for size in ((5,) if version not in BODY else range(5, BODY[version] + 34)))
    for family in (None, 7):
        for fault in ({}, {"off": 4}, {"off": -4}, {"length": 0}, {"flags": 4}):
            yield sheet(ROWS, version=1 if family else 2, family=family, **fault)
    # read in the other version the length is right, with n 1 and p 4 in the family, and n 1 and p 3 in alpha
    yield sheet(ROWS, version=1, family=0x00010004)
    yield sheet(ROWS, version=2, alpha=0x0001000300000000)
    for size in (LIMIT, LIMIT + 1):
        yield from (bytes([version]) + bytes(size - 1) for version in (0, 1))
    # a sheet of the largest length, with flags and n that are refused
    yield from (sheet(grown(309, 13), p=13, flags=flags) for flags in (3, 4))


def frames():
    """11, 12, 13 and 16. With a byte more the largest sheet is 12 in version 1, and 16 in version 2."""
    for off in (-5, -4, -1, 1, 4, 5):
        yield draft(ROWS, off=off)
    for length in (0, 0x49000000, 0x4d000000, FIELD - 1):
        yield draft(ROWS, length=length)
    for more in (-1, 1):
        yield draft(ROWS, more=more)
        yield draft(ROWS, off=more, more=more)
    for n in (0, 1, 3, 65535):
        yield draft(ROWS, n=n)
    for p in (0, 2, 65535):
        yield draft(ROWS, p=p)
    yield draft(ROWS, off=1, flags=4)
    yield draft([], n=2)
    yield draft([], more=-1)
    yield draft([], off=-1, more=-1)
    for flags in (1, 2, 3, 4, 128, 255):
        yield draft(ROWS, flags=flags)
    yield draft(row(ROWS, 0, source=0), flags=4)
    yield draft([], flags=4)
    yield draft(grown(257, 1), flags=4)
    for n, p in ((257, 0), (257, 1), (0, 17), (1, 17), (0, 65535)):
        yield draft(grown(n, p), p=p)
    yield draft(row(grown(257, 1), 0, source=0))
    yield draft(row(grown(2, 17), 1, source=0), p=17, alpha=NAN)
    yield draft(MOST, p=16, more=1)
    yield draft(MOST, p=16)


def pairs():
    """14 and 15."""
    for claim in (0, 1000, 65535):
        for i in (0, 1):
            yield draft(row(ROWS, i, source=claim))
            yield draft(row(ROWS, i, target=claim))
    yield draft(row(row(ROWS, 0, source=1, target=999), 1, source=999, target=1))
    yield draft(row(ROWS, 1, source=999, target=999))
    for source, target in ((1, 1), (1, 2), (2, 1), (1, 999)):
        yield draft(row(ROWS, 1, source=source, target=target))
    three = grown(3, 1)
    yield draft(row(three, 0, source=5))
    yield draft(row(three, 2, target=three[1][1]))
    yield draft(row(three, 2, target=three[1][1] - 1))
    yield draft(row(row(three, 1, target=3), 2, source=0))
    yield draft(row(row(three, 1, source=0), 2, target=3))
    yield draft(row(three, 1, source=0, target=3))
    yield draft(row(row(three, 0, x=(0, NAN)), 2, source=1000))
    yield draft(row(three, 2, source=0), tol=NAN)
    yield draft(row(three, 2, target=3), alpha=-1.0)
    yield draft(row(MOST, 255, target=0), p=16)
    yield draft(row(MOST, 255, target=MOST[254][1]), p=16)
    yield draft(row(grown(2, 0), 1, target=1000), p=0)
    yield draft(row(grown(2, 0), 1, target=3), p=0)


def starts():
    """1, 3, 5 and 6."""
    for n, p in ((0, 0), (0, 1), (0, 16), (1, 0), (2, 0), (256, 0)):
        yield draft(grown(n, p), p=p)
    yield draft([], alpha=-1.0)
    above = math.nextafter
    for alpha in (0.0, -0.0, 1e6, above(1e6, INF), -5e-324, NAN, INF, -INF):
        yield draft(ROWS, alpha=alpha)
    for ratio in (0.0, above(1.0, INF), -5e-324, NAN):
        yield draft(ROWS, ratio=ratio)
    for tol in (0.0, sys.float_info.max, -5e-324, NAN, INF):
        yield draft(ROWS, tol=tol)
    for rounds in (1001, 0xFFFFFFFF):
        yield draft(ROWS, rounds=rounds)
    yield draft(row(ROWS, 0, x=(0, NAN)), rounds=1001)
    yield draft(column(FOUR, 0, [1.0] * 4), p=3, flags=NORMALISE, tol=-1.0)
    for value in (NAN, INF, -INF):
        for i, j in ((0, 0), (1, 2), (3, 2)):
            yield draft(row(FOUR, i, x=(j, value)), p=3)
        yield draft(row(FOUR, 0, y=value), p=3)
        yield draft(row(FOUR, 3, y=value), p=3, flags=LAZY)
    yield draft(row(row(FOUR, 0, y=NAN), 3, x=(2, INF)), p=3)
    yield draft(row(row(FOUR, 2, x=(0, NAN)), 1, x=(1, NAN)), p=3)
    yield draft(row(column(FOUR, 0, [1.0] * 4), 3, y=INF), p=3, flags=NORMALISE)
    yield draft(row(MOST, 255, y=NAN), p=16, flags=NORMALISE | LAZY)
    for flags in (0, NORMALISE, LAZY, NORMALISE | LAZY):
        for j in range(3):
            yield draft(column(FOUR, j, [2.0] * 4), p=3, flags=flags)
    yield draft(column(column(FOUR, 1, [0.0] * 4), 2, [2.0] * 4), p=3, flags=NORMALISE)
    for small in (2.0 ** -52, 2.0 ** -51):
        yield draft(column(FOUR, 2, [0.0, small] * 2), p=3, flags=NORMALISE)
    yield draft(column(MOST, 15, [0.5] * 256), p=16, flags=NORMALISE)


def cancelled():
    """A cancelled row's score, place and pair: 14, 15 and 1."""
    yield draft(THREE)
    for score in (1.0, 1, 1 << 32, 1 << 63, NAN, INF):
        yield draft(row(THREE, 1, y=score))
    yield draft([gone(1), *ROWS])
    yield draft([*ROWS, gone(999)])
    yield draft([gone(1), ROWS[0], gone(2), gone(3), ROWS[1], gone(4)])
    yield draft([gone(1), ROWS[0], gone(5)])
    yield draft([gone(7)])
    yield draft([gone(1 + i, p=16) for i in range(256)], p=16)
    for source in (0, 1000):
        yield draft([gone(source), *ROWS])
    yield draft([ROWS[0], gone(0), ROWS[1]])
    five = [gone(5), (5, 4, [1.0], 1.0), (5, 5, [2.0], 3.0)]
    yield draft(five)
    yield draft([gone(5), *five])
    yield draft([*five, gone(5)])
    yield draft([*ROWS, gone(2)])
    yield draft([ROWS[0], gone(5), ROWS[1]])
    yield draft([gone(1), gone(2), (3, 1000, [1.0], 1.0)])
    yield draft([gone(1), gone(2), ROWS[1], ROWS[1]])


def cancelled_beside():
    """Cancelled rows beside other faults, and in what counts rows: 16 by all, 1, 5 and 6 by those that remain."""
    yield draft([*ROWS, gone(2, 1.0)])
    yield draft([ROWS[1], ROWS[0], gone(4, 1.0)])
    yield draft([ROWS[1], gone(4, 1.0), ROWS[0]])
    yield draft([gone(1), gone(2, 1.0)])
    yield draft([gone(1)], alpha=-1.0)
    scored = row(THREE, 1, y=1.0)
    yield draft(scored, flags=4)
    yield draft(scored, n=2)
    yield draft(scored, alpha=NAN)
    yield draft(row(grown(257, 1), 0, target=0))
    yield draft(struck(grown(257, 1), 252))
    yield draft(struck(MOST, 99), p=16)
    yield draft([gone(1, p=0), *grown(2, 0)], p=0)
    yield draft(row(HOLES, 5, x=(2, INF)), p=3)
    yield draft(row(HOLES, 4, y=NAN), p=3)
    yield draft(column(HOLES, 1, [7.0, 2.0, 2.0, 8.0, 2.0, 2.0]), p=3, flags=NORMALISE)
    yield draft(column(HOLES, 2, [2.0, 0.5, 0.5, NAN, 0.5, 0.5]), p=3, flags=NORMALISE | LAZY)
    yield draft([ROWS[0], gone(2)], flags=NORMALISE)


def cut():
    for data in (P8(version=1), P8(version=2, family=0x01020304)):
        yield from (data[:k] for k in range(len(data) + 1))


# ---- stored fits, and all

def fit(words):
    """The rows of a stored fit, what else its sheet says, and its text. The claims rise with gaps."""
    n, p, flags, rounds = words[1:5]
    alpha, ratio, tol = map(number, words[5:8])
    values = [number(word) for word in words[8:8 + n * p + n]]
    rows = [(1 + 7 * (i // 3), 2 + 11 * (i % 3), values[i * p:i * p + p], values[n * p + i]) for i in range(n)]
    ended, refusal, place, *rest = words[8 + n * p + n:]
    head = {"p": p, "alpha": alpha, "ratio": ratio, "tol": tol, "rounds": rounds, "flags": flags}
    if ended == 0:
        return rows, head, refused_text((refusal, place))
    return rows, head, fit_text(["converged", "limit"][ended - 1], rest[:3], rest[3], rest[4:])


def gaps_for(r, rows, full):
    """How many cancelled rows stand before, between and behind these: 256 rows in all where they are to be full."""
    gaps = [r.pick([0, 0, 1, 1, 2]) for _ in range(len(rows) + 1)]
    gaps[r.below(len(gaps))] += (256 - len(rows) - sum(gaps)) if full else 1
    return gaps


def mixed(r, rows, gaps):
    """The rows with cancelled ones before, between and behind them. The pairs are drawn anew, so that all rise."""
    p, found, source, target = len(rows[0][2]), [], 0, 0
    for gap, own in itertools.zip_longest(gaps, rows):
        for _ in range(gap):
            source, target = source + r.whole(1, 3), 0
            found.append((source, 0, [r.pick([*NOT_FINITE, r.word(), r.word()]) for _ in range(p)], 0))
        if own:
            if source == 0 or r.below(2):
                source, target = source + r.whole(1, 2), 0
            target += r.whole(1, 9)
            found.append((source, target, *own[2:]))
    assert len(found) <= 256 and source <= 999 and target <= 999
    return found


def with_cancelled(fits):
    """Some of the fits once more. Cancelled rows change no answer."""
    r = Random(SEED)
    for k in range(AGAIN):
        rows, head, text = fits[k * len(fits) // AGAIN]
        yield mixed(r, rows, gaps_for(r, rows, k % 20 == 0)), head, text


def versions(r, fits):
    """The fits as sheets. The family changes no answer."""
    return [(*in_both(r, draft(rows, **head)), text) for rows, head, text in fits]


def share(one, two):
    return one[BODY[1]:] == two[BODY[2]:] and answered(one) == answered(two)


def made(fits):
    """From the words of the stored fits: the sheets whose two versions differ in their fronts alone and give the same text, and those that stand alone."""
    r = Random(FAMILY_SEED)
    whole = [fit(words) for words in fits if words[1] <= 256 and words[2] <= 16]
    stored, again = versions(r, whole), versions(r, with_cancelled(whole))
    edges = [in_both(r, make) for make in itertools.chain(frames(), pairs(), starts(), cancelled(), cancelled_beside())]
    shared = [(*pair, answered(pair[0])) for pair in edges if share(*pair)]
    single = [(data, answered(data)) for data in itertools.chain(alone(), *(pair for pair in edges if not share(*pair)))]
    shorter = [(data, answered(data)) for data in dict.fromkeys(cut())]
    refused = sum(text.startswith("refused") for *_, text in shared)
    print(f"sheets: {len(stored)} stored fits, {len(again)} of them again with cancelled rows, {len(shared)} at the edges ({refused} refused), each in both "
          f"versions; {len(single)} in one, {len(shorter)} cut")
    return stored + again + shared, single + shorter
