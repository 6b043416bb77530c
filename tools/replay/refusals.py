"""Calls of the lone solver, start, resume and predict, most of them refused, and the table of their answers. The answers are worked out here, from 01's sizes,
pausing and refusal numbers; no answer of the program is read."""
import math

from words import bits, number

START, RESUME, PREDICT, SOLVE = range(4)
OPENING, SOLVING, SEARCHING, ENDED = range(4)
WORDS = ("call n p alpha l1_ratio tol M R C normalise lazy matrix targets weights scratch value from times apart "
         "stage index round rounds solver trials t s dual pcgtol bnrm bkden error phi gdx missed budget").split()
SETTINGS, SLICES, VALUE, RECORD, SCALARS = WORDS[3:11], WORDS[11:15], WORDS[15:19], WORDS[19:25], WORDS[25:34]
# The words that a call takes and shows. A prediction's targets are the slice that it writes; the solver's targets and weights are right side and start.
TAKES = {
    START: ["n", "p"] + SETTINGS + ["matrix", "targets", "scratch"] + VALUE,
    RESUME: ["n", "p"] + SETTINGS + SLICES + VALUE + RECORD + ["budget"],
    PREDICT: ["n", "p", "matrix", "targets", "weights"] + VALUE,
    SOLVE: ["n", "tol", "M"] + SLICES + VALUE,
}
CALLED = {
    PREDICT: {"targets": "out"},
    SOLVE: {"n": "order", "targets": "right", "weights": "start", "tol": "tolerance", "M": "limit"},
}
NAMES = {START: "start", RESUME: "resume", PREDICT: "predict", SOLVE: "solve"}
HEX = {"alpha", "l1_ratio", "tol", "value"}
ALL_ONES = 2**64 - 1
NAN, INF, MINUS_INF = 0x7ff8000000000000, 0x7ff0000000000000, 0xfff0000000000000
MINUS_ZERO, LARGEST = 0x8000000000000000, 0x7fefffffffffffff
NOTHING = ", nothing written"


def need(c):
    """Scratch words, by 01's formula."""
    n, p = c["n"], c["p"]
    words = p * p + 40 * p + 4 * (n + p)
    if c["lazy"]:
        return words + 2 * c["R"] * c["C"] + c["C"] ** 2
    return words + (n + p) * p


def values(c, count):
    """The first values of a call: a mark at each place, but for the value that the record has."""
    spoilt = {c["from"] + k * c["apart"] for k in range(c["times"])} if c["apart"] else set()
    return [number(c["value"]) if i in spoilt else 2 + i / 32768 for i in range(count)]


def setting_bad(c):
    alpha, ratio, tol = number(c["alpha"]), number(c["l1_ratio"]), number(c["tol"])
    if not 0 <= alpha <= 1000000 or not 0 <= ratio <= 1:
        return True
    if not math.isfinite(tol) or tol < 0 or c["M"] > 1000:
        return True
    return bool(c["lazy"]) and not (1 <= c["R"] <= 256 and 1 <= c["C"] <= 32)


def limits(c, lengths):
    """1 to 4; None where there is none of them."""
    if not (1 <= c["n"] <= 4096 and 1 <= c["p"] <= 64):
        return 1, 0
    if any(c[name] != length for name, length in lengths.items()):
        return 2, 0
    if c["call"] == PREDICT:
        return None
    if setting_bad(c):
        return 3, 0
    return (4, 0) if c["scratch"] < need(c) else None


def not_finite(some):
    return next(((5, i) for i, x in enumerate(some) if not math.isfinite(x)), None)


def deviation(column):
    """As the Rust has it: the mean of the squares less the square of the mean, and its root; NaN where that is negative."""
    n, total, squares = len(column), 0.0, 0.0
    for x in column:
        total += x
        squares += x * x
    mean = total / n
    variance = squares / n - mean * mean
    return math.sqrt(variance) if variance >= 0 else math.nan


def constant(c, matrix):
    p = c["p"]
    return next(((6, j) for j in range(p) if abs(deviation(matrix[j::p])) < 2**-52), None)


def start(c):
    n, p = c["n"], c["p"]
    refusal = limits(c, {"matrix": n * p, "targets": n})
    if refusal:
        return refused(refusal)
    some = values(c, n * p + n)
    refusal = not_finite(some) or (constant(c, some[:n * p]) if c["normalise"] else None)
    return refused(refusal) if refusal else f"ready, written up to {need(c)}"


def impossible(c):
    """9, clause by clause."""
    stage, limit, fresh = c["stage"], c["M"], c["round"] == 0
    if stage >= ENDED:
        return True
    if stage == SOLVING and not 1 <= c["index"] <= 4999:
        return True
    if stage == SEARCHING and not 0 <= c["index"] <= 99:
        return True
    if not c["round"] < limit and not (limit == 0 and stage == OPENING and fresh):
        return True
    opened = c["round"] + (stage != OPENING)
    return c["rounds"] != opened or c["solver"] > 4999 * opened or c["trials"] > 100 * opened


def resume(c):
    refusal = limits(c, {"matrix": c["n"] * c["p"], "targets": c["n"], "weights": c["p"]})
    if not refusal and impossible(c):
        refusal = 9, 0
    if refusal:
        return refused(refusal)
    if c["stage"] == OPENING and c["M"] == 0:
        return f"ended limit, written up to {need(c)}"
    # no call of this table has a budget that is used
    assert c["budget"] == 0
    return "pending" + NOTHING


def predict(c):
    n, p = c["n"], c["p"]
    refusal = limits(c, {"matrix": n * p, "weights": p, "targets": n}) or not_finite(values(c, n * p + p + 1))
    return refused(refusal) if refusal else f"predicted, written up to {n}"


def solve(c):
    n, tol = c["n"], number(c["tol"])
    if not 1 <= n <= 64:
        return refused((1, 0))
    if c["matrix"] != n * n or c["targets"] != n or c["weights"] != n:
        return refused((2, 0))
    if c["M"] > 5000 or not math.isfinite(tol):
        return refused((3, 0))
    if c["scratch"] < 8 * n:
        return refused((4, 0))
    refusal = not_finite(values(c, n * n + 2 * n)) or ((8, 0) if tol <= 0 else (10, 0) if c["M"] == 0 else None)
    return refused(refusal) if refusal else "solved, scratch cleared"


def refused(refusal):
    return f"refused {refusal[0]} at {refusal[1]}" + NOTHING


ANSWERS = {START: start, RESUME: resume, PREDICT: predict, SOLVE: solve}


def case(call, n=2, p=1, **changes):
    """A call that is accepted, but for the changes. `short` is what the scratch has less than its need, as far as the buffers go."""
    c = dict.fromkeys(WORDS, 0)
    c.update(call=call, n=n, p=p, matrix=n * p, targets=n, weights=p, alpha=bits(0.5), l1_ratio=bits(0.5), tol=bits(0.001), M=10, R=4, C=2)
    c.update({name: bits(1.5 + k) for k, name in enumerate(SCALARS)}, missed=1)
    short = changes.pop("short", 0)
    c.update(changes)
    c["scratch"] = changes.get("scratch", min(need(c) - short, 20600))
    for name in SLICES:
        c[name] = c[name] if c[name] <= 20600 else 0
    return c


def system(n, **changes):
    """A call of the solver that is accepted, but for the changes."""
    given = {"matrix": n * n, "targets": n, "weights": n, "scratch": 8 * n, "tol": bits(1e-6), "M": 10}
    return case(SOLVE, n, 0, **{**given, **changes})


def spoilt(value, first, times=1, apart=1):
    return {"value": value, "from": first, "times": times, "apart": apart}


def sizes(call):
    for n in (0, 1, 4096, 4097, ALL_ONES):
        yield case(call, n)
    for p in (0, 1, 64, 65, ALL_ONES):
        yield case(call, 1, p)
    for p in (64, 65):
        yield case(call, 2, p)
    yield case(call, 0, 0)


def lengths(call, names):
    for n, p in ((2, 1), (3, 2)):
        for name in names:
            right = case(call, n, p)[name]
            yield case(call, n, p, **{name: right - 1})
            yield case(call, n, p, **{name: right + 1})
    # as long as it is due, were rows and columns turned round
    yield case(call, 3, 2, targets=2)
    yield case(call, 2, 1, matrix=0)


def settings(call):
    for alpha in (0, MINUS_ZERO, bits(1e6), bits(1e6) + 1, MINUS_ZERO + 1, NAN, INF, MINUS_INF):
        yield case(call, alpha=alpha)
    for ratio in (0, MINUS_ZERO, bits(1.0), bits(1.0) + 1, MINUS_ZERO + 1, NAN, INF):
        yield case(call, l1_ratio=ratio)
    for tol in (0, MINUS_ZERO, LARGEST, INF, NAN, bits(-1.0), MINUS_ZERO + 1):
        yield case(call, tol=tol)
    for limit in (0, 1000, 1001, ALL_ONES):
        yield case(call, M=limit)


def panels(call):
    for lazy in (0, 1):
        for rows in (0, 1, 256, 257, ALL_ONES):
            yield case(call, R=rows, lazy=lazy, scratch=2000)
        for cols in (0, 1, 32, 33, ALL_ONES):
            yield case(call, C=cols, lazy=lazy, scratch=2000)


def scratches(call):
    for lazy in (0, 1):
        for short in (0, 1, -1):
            yield case(call, lazy=lazy, short=short)
            yield case(call, 3, 2, lazy=lazy, short=short)
    yield case(call, lazy=1, R=256, C=32)
    yield case(call, lazy=1, R=256, C=32, short=1)
    yield case(call, scratch=0)
    yield case(call, scratch=20600)


def start_values():
    n, p = 3, 2
    last = n * p + n - 1
    for value in (NAN, INF, MINUS_INF):
        for place in (0, n * p - 1, n * p, last):
            yield case(START, n, p, **spoilt(value, place))
    yield case(START, n, p, **spoilt(LARGEST, 0))
    yield case(START, n, p, **spoilt(NAN, 2, 2, 2))
    yield case(START, n, p, **spoilt(INF, 5, 2, 3))
    yield case(START, n, p, **spoilt(NAN, 7, 2))


def constants():
    for normalise in (0, 1):
        for value, first, times, apart in ((bits(1.0), 0, 3, 2), (bits(1.0), 1, 3, 2), (bits(1.0), 0, 6, 1), (0, 0, 6, 1), (bits(1.0), 0, 2, 2)):
            yield case(START, 3, 2, normalise=normalise, **spoilt(value, first, times, apart))
        # one row: every column is constant
        yield case(START, 1, 2, normalise=normalise)
    # equal values: the computed variance is below 0, above 0, 0, and NaN
    for value in (0.1, 0.3, 1.1, 1e200):
        yield case(START, 3, 2, normalise=1, **spoilt(bits(value), 0, 3, 2))
    # the fit is refused by its values before it is by its columns
    yield case(START, 1, 2, normalise=1, **spoilt(NAN, 1))
    yield case(START, 1, 2, normalise=1, **spoilt(INF, 2))


def neighbours(call):
    """Two faults at once: the lower number is given."""
    for n, p in ((0, 1), (1, 65)):
        yield case(call, n, p, matrix=3)
    yield case(call, targets=3, alpha=NAN)
    yield case(call, M=1001, short=1)
    yield case(call, lazy=1, R=257, scratch=100)
    yield case(call, matrix=1, short=1)


def start_pairs():
    yield from neighbours(START)
    yield case(START, short=1, **spoilt(NAN, 0))
    yield case(START, tol=NAN, **spoilt(NAN, 0))
    yield case(START, 1, 1, short=1, normalise=1)


def record(stage, index, at, rounds, solver=0, trials=0, **changes):
    c = {"stage": stage, "index": index, "round": at, "rounds": rounds, "solver": solver, "trials": trials}
    c.update(changes)
    return case(RESUME, **c)


def stages():
    yield record(OPENING, 0, 0, 0)
    for index in (0, 1, 4999, 5000, ALL_ONES):
        yield record(SOLVING, index, 0, 1)
    for index in (0, 99, 100, ALL_ONES):
        yield record(SEARCHING, index, 0, 1)
    yield record(ENDED, 0, 0, 0)
    yield record(ENDED, 1, 0, 1, budget=5)
    # no stage has these words
    for stage in (ENDED + 1, ALL_ONES):
        yield record(stage, 0, 0, 0)
    # the index of an opening is not one
    yield record(OPENING, 5000, 0, 0)
    # a yes that is not 1, and a NaN of another pattern: without a step they stay
    yield record(OPENING, 0, 0, 0, missed=2, t=NAN + 1)


def limit_rounds():
    for at in (9, 10, ALL_ONES):
        yield record(OPENING, 0, at, at)
        yield record(SOLVING, 1, at, min(at + 1, ALL_ONES))
        yield record(SEARCHING, 0, at, min(at + 1, ALL_ONES))
    yield record(SOLVING, 1, 999, 1000, M=1000)
    yield record(OPENING, 0, 0, 0, M=0)
    yield record(OPENING, 0, 0, 0, M=0, lazy=1)
    yield record(OPENING, 0, 0, 0, M=0, budget=7, normalise=1)
    yield record(OPENING, 0, 0, 1, M=0)
    yield record(OPENING, 0, 0, 0, 1, M=0)
    yield record(OPENING, 0, 1, 1, M=0)
    yield record(SOLVING, 1, 0, 1, M=0)
    yield record(SEARCHING, 0, 0, 1, M=0)
    yield record(ENDED, 0, 0, 0, M=0)


def counts():
    for stage, index in ((OPENING, 0), (SOLVING, 1), (SEARCHING, 0)):
        opened = 3 + (stage != OPENING)
        for off in (-1, 1):
            yield record(stage, index, 3, opened + off)
        for more in (0, 1):
            yield record(stage, index, 3, opened, solver=4999 * opened + more)
            yield record(stage, index, 3, opened, trials=100 * opened + more)
    yield record(OPENING, 0, 0, 0, solver=1)
    yield record(OPENING, 0, 0, 0, trials=1)
    yield record(SOLVING, 1, 0, 1, solver=ALL_ONES)
    yield record(SOLVING, 1, 0, 1, trials=ALL_ONES)


def resume_rest():
    """A fault in each setting, for a resume tests them as a start does; a record that is too; values are not looked at."""
    for fault in ({"alpha": NAN}, {"alpha": bits(1e6) + 1}, {"l1_ratio": bits(1.0) + 1}, {"tol": INF}, {"M": 1001}):
        yield case(RESUME, **fault)
    for lazy in (0, 1):
        for fault in ({"R": 0}, {"R": 257}, {"C": 0}, {"C": 33}):
            yield case(RESUME, lazy=lazy, scratch=2000, **fault)
    yield from neighbours(RESUME)
    yield case(RESUME, short=1, stage=ENDED)
    yield case(RESUME, alpha=NAN, stage=ENDED)
    yield case(RESUME, weights=0, stage=ENDED)
    yield case(RESUME, 0, stage=ENDED)
    for value in (NAN, INF):
        yield case(RESUME, **spoilt(value, 0, 4))
    yield case(RESUME, normalise=1, **spoilt(0, 0, 2))


def predict_values():
    n, p = 3, 2
    for value in (NAN, INF, MINUS_INF):
        for place in (0, n * p - 1, n * p, n * p + p - 1, n * p + p):
            yield case(PREDICT, n, p, **spoilt(value, place))
    yield case(PREDICT, n, p, **spoilt(NAN, 4, 2, 3))
    yield case(PREDICT, n, p, **spoilt(NAN, 7, 2))
    yield case(PREDICT, n, p)
    yield case(PREDICT, n, p, weights=3, **spoilt(NAN, 0))
    yield case(PREDICT, 0, 1, weights=3, **spoilt(NAN, 0))


def solver_limits():
    for n in (0, 1, 64, 65):
        yield system(n)
    yield system(ALL_ONES, matrix=1, targets=1, weights=1, scratch=8)
    for n in (1, 3, 64):
        for name in SLICES:
            for off in (-1, 0, 1):
                yield system(n, **{name: system(n)[name] + off})
    for limit in (0, 1, 5000, 5001, ALL_ONES):
        yield system(3, M=limit)
    for tol in (NAN, INF, MINUS_INF, MINUS_ZERO + LARGEST, MINUS_ZERO + 1, MINUS_ZERO, 0, 1, LARGEST):
        yield system(3, tol=tol)


def solver_values():
    for place in (0, 8, 9, 11, 12, 14):
        for value in (NAN, INF, MINUS_INF, LARGEST, MINUS_ZERO + LARGEST):
            yield system(3, **spoilt(value, place))
    for first, times in ((8, 2), (11, 2), (0, 15)):
        yield system(3, **spoilt(NAN, first, times))
    yield system(1, **spoilt(NAN, 2))
    yield system(64, **spoilt(NAN, 4223))


def solver_pairs():
    """Two faults at once, of each two numbers that can meet: the lower is given, and 8 before 10."""
    nan = spoilt(NAN, 0)
    for fault in ({"matrix": 4224}, {"M": 5001}, {"tol": NAN}, {"scratch": 519}, nan, {"tol": 0}, {"M": 0}):
        yield system(65, **fault)
    yield system(3, matrix=8, M=5001)
    yield system(3, targets=2, tol=NAN)
    yield system(3, weights=4, scratch=23)
    yield system(3, matrix=10, **nan)
    yield system(3, targets=4, tol=0)
    yield system(3, weights=2, M=0)
    for limit in ({"M": 5001}, {"tol": NAN}):
        yield system(3, scratch=23, **limit)
    yield system(3, M=5001, **nan)
    yield system(3, tol=INF, **nan)
    yield system(3, M=5001, tol=0)
    yield system(3, M=0, tol=NAN)
    for fault in (nan, {"tol": 0}, {"M": 0}):
        yield system(3, scratch=23, **fault)
    yield system(3, tol=0, **spoilt(NAN, 14))
    yield system(3, M=0, **spoilt(NAN, 9))
    yield system(3, M=0, tol=0)


def cases():
    yield from sizes(START)
    yield from lengths(START, ("matrix", "targets"))
    yield from settings(START)
    yield from panels(START)
    yield from scratches(START)
    yield from start_values()
    yield from constants()
    yield from start_pairs()
    yield from sizes(RESUME)
    yield from lengths(RESUME, ("matrix", "targets", "weights"))
    yield from scratches(RESUME)
    yield from resume_rest()
    yield from stages()
    yield from limit_rounds()
    yield from counts()
    yield from sizes(PREDICT)
    yield from lengths(PREDICT, ("matrix", "targets", "weights"))
    yield from predict_values()


def row(c):
    shown = [f"{c[name]:016x}" if name in HEX else str(c[name]) for name in TAKES[c["call"]]]
    return " ".join([NAMES[c["call"]]] + shown + [ANSWERS[c["call"]](c)])


def heads():
    for call, name in NAMES.items():
        yield " ".join([name, *(CALLED.get(call, {}).get(word, word) for word in TAKES[call]), "answer"])


def made():
    """The records of the calls, and the lines of the table."""
    fits = list({tuple(c.values()): c for c in cases()}.values())
    solver = [*solver_limits(), *solver_values(), *solver_pairs()]
    print(f"refusals: {len(solver)} calls of the solver, {len(fits)} of start, resume and predict")
    return [[c[name] for name in WORDS] for c in solver + fits], [*heads(), *map(row, solver + fits)]
