#!/usr/bin/env python3
"""Problems from a seed, the same on every Python: own random numbers, and only operations that IEEE 754 fixes.

generate.py fits|tight|solver|predict|designs SEED COUNT OUT
"""
import math
import sys

from words import file_text, floats, number, record_text, write

MASK = (1 << 64) - 1


class Random:
    """splitmix64."""

    def __init__(self, seed, stream=0):
        self.state = seed & MASK
        self.state = self.word() ^ (stream * 0xD1342543DE82EF95 & MASK)

    def word(self):
        self.state = (self.state + 0x9E3779B97F4A7C15) & MASK
        z = self.state
        z = ((z ^ (z >> 30)) * 0xBF58476D1CE4E5B9) & MASK
        z = ((z ^ (z >> 27)) * 0x94D049BB133111EB) & MASK
        return z ^ (z >> 31)

    def below(self, n):
        return self.word() % n

    def whole(self, low, high):
        return low + self.below(high - low + 1)

    def pick(self, values):
        return values[self.below(len(values))]

    def unit(self):
        return (self.word() >> 11) / 9007199254740992.0

    def between(self, low, high):
        return low + (high - low) * self.unit()

    def bell(self):
        return self.unit() + self.unit() + self.unit() + self.unit() - 2.0

    def sign(self):
        return self.pick([-1.0, 1.0])

    def scaled(self, low, high):
        """A number of either sign from 10^low to 2·10^high."""
        return self.sign() * (1.0 + self.unit()) * power(self.whole(low, high))

    def wild(self, reach=300):
        kind = self.below(10)
        if kind == 0:
            return self.pick([0.0, -0.0])
        if kind == 1:
            return number(self.word() & 0x800FFFFFFFFFFFFF)
        return self.scaled(-reach, reach)


def power(k):
    """10^k to nearest; `10.0 ** k` would ask the platform."""
    return float(f"1e{k}")


def clip(x):
    """Finite, since a problem is."""
    return x if abs(x) <= sys.float_info.max else math.copysign(sys.float_info.max, x)


# Matrices as lists of rows.

def ordinary(r, n, p):
    shift = [r.pick([0.0, r.between(-5.0, 5.0), r.between(-100.0, 1000.0)]) for _ in range(p)]
    scale = [r.pick([1.0, r.between(0.1, 50.0)]) for _ in range(p)]
    return [[shift[j] + scale[j] * r.bell() for j in range(p)] for _ in range(n)]


def whole(r, n, p):
    reach = r.pick([1, 2, 3, 9])
    return [[float(r.whole(-reach, reach)) for _ in range(p)] for _ in range(n)]


def wild(r, n, p):
    reach = r.pick([3, 20, 100, 160, 300])
    return [[r.wild(reach) for _ in range(p)] for _ in range(n)]


def flat(r, n, p):
    """Some columns constant, some constant up to their last bits."""
    x = ordinary(r, n, p)
    for j in range(p):
        kind = r.below(4)
        base = r.pick([0.1, 1.0, 3.0, 1e6, r.between(-9.0, 9.0), -0.0, 0.0])
        for row in x:
            if kind == 1:
                row[j] = base
            elif kind == 2:
                row[j] = base * (1.0 + r.whole(-2, 2) * r.pick([2.0 ** -52, 2.0 ** -40, 2.0 ** -26]))
    return x


MATRICES = {"ordinary": ordinary, "whole": whole, "wild": wild, "tight": ordinary, "flat": flat, "zero": ordinary}


def targets(r, x, family):
    n, p = len(x), len(x[0])
    if family == "zero":
        zero = r.pick([[0.0], [-0.0], [0.0, -0.0]])
        return [r.pick(zero) for _ in range(n)]
    if family == "whole":
        return [float(r.whole(-5, 5)) for _ in range(n)]
    if family == "wild" and r.below(2):
        return [r.wild(r.pick([3, 100, 300])) for _ in range(n)]
    w = [r.pick([0.0, r.between(-3.0, 3.0)]) for _ in range(p)]
    noise = r.pick([0.0, 0.1, 5.0])
    shift = r.pick([0.0, r.between(-50.0, 50.0)])
    return [clip(shift + sum_of(w, row) + noise * r.bell()) for row in x]


def sum_of(w, row):
    total = 0.0
    for a, b in zip(w, row):
        total = clip(total + clip(a * b))
    return total


def near_nothing(r):
    """A tight tolerance, from 1e-16 to 1e-8."""
    return (1.0 + 9.0 * r.unit()) * power(-r.whole(9, 16))


def settings(r, family):
    """M, alpha, l1_ratio, tol."""
    alpha = r.pick([0.0, 0.001, 0.01, 0.1, 0.25, 0.5, 1.0, 1.0, 2.0, 10.0, 1e3, 1e6, -0.0, r.unit(), r.between(0.0, 20.0)])
    ratio = r.pick([0.0, 0.5, 0.5, 1.0, 1.0, r.unit(), r.unit(), -0.0])
    limit = r.pick([0, 1, 2, 3, 5, 8, 20, 100, 1000, 1000, 1000, 1000, r.whole(0, 1000)])
    tol = r.pick([1e-4, 1e-4, 1e-4, 1e-3, 1e-2, 1e-6, 0.5, 0.0, -0.0, 1e300])
    if family == "tight":
        tol = near_nothing(r)
    return limit, alpha, ratio, tol


def sizes(r):
    """Mostly small, now and then one of up to 64 by 12."""
    if r.below(40) == 0:
        return r.whole(25, 64), r.whole(7, 12)
    return r.pick([r.whole(1, 3), r.whole(2, 8), r.whole(4, 24)]), r.pick([1, 1, 2, r.whole(1, 4), r.whole(3, 6)])


def fit_lines(x, y, flags, limit, alpha, ratio, tol):
    head = [1, len(x), len(x[0]), flags, limit] + floats([alpha, ratio, tol])
    return [head] + [floats(row) for row in x] + [floats(y)]


def fit(r, family):
    n, p = sizes(r)
    if family in ("wild", "zero"):
        p = min(p, 3)
    x = MATRICES[family](r, n, p)
    limit, alpha, ratio, tol = settings(r, family)
    if family == "wild" and r.below(3) == 0:
        limit = 0  # else an overflow seldom ends in a done fit
    return fit_lines(x, targets(r, x, family), r.below(4), limit, alpha, ratio, tol)


def fits(seed, count):
    """(family, lines) of each; every fit has its own stream, so that a change in one leaves the others."""
    names = ["ordinary", "ordinary", "whole", "whole", "wild", "tight", "tight", "flat", "zero"]
    return [(name, fit(Random(seed, 1000 + i), name)) for i in range(count) for name in [names[i % len(names)]]]


def stretched(r, n, p):
    """Columns of very different sizes."""
    scale = [power(r.whole(-25, 25)) for _ in range(p)]
    return [[row[j] * scale[j] for j in range(p)] for row in ordinary(r, n, p)]


def near(r, n, p):
    """Wild, but not so far apart that everything overflows."""
    reach = r.pick([3, 8, 20, 30])
    return [[r.wild(reach) for _ in range(p)] for _ in range(n)]


def tight(seed, i):
    """A small problem with a tolerance near what binary64 can hold; small targets let the logarithms weigh most."""
    r = Random(seed, 5_000_000 + i)
    n, p = r.whole(1, 8), r.pick([1, 1, 2, 2, 3])
    make = r.pick([ordinary, ordinary, whole, whole, stretched, stretched, near, wild])
    x = make(r, n, p)
    scale = r.pick([1.0, power(r.whole(-12, 3))])
    family = r.pick(["ordinary", "whole"]) if make is not stretched else "whole"
    own = (lambda: power(r.whole(-20, 3))) if make is stretched else (lambda: scale)
    y = [clip(own() * value) for value in targets(r, x, family)]
    alpha = r.pick([0.0, r.unit(), power(r.whole(-14, 2)), settings(r, family)[1]])
    ratio = r.pick([0.0, 0.5, 1.0, 1.0, r.unit()])
    tol = near_nothing(r)
    return fit_lines(x, y, r.below(4), r.pick([20, 40, 100]), alpha, ratio, tol)


def square(r, kind, m):
    a = [[float(r.whole(-5, 5)) if kind == "whole" else r.bell() for _ in range(m)] for _ in range(m)]
    if kind == "wild":
        return wild(r, m, m)
    if kind == "singular":
        a[-1] = [2.0 * x for x in a[0]] if m > 1 else [0.0]
    if kind in ("definite", "symmetric", "whole"):
        for i in range(m):
            for j in range(i):
                a[j][i] = a[i][j]
    if kind == "definite":
        for i in range(m):
            a[i][i] = 1.0 + sum_of([1.0] * m, [abs(x) for x in a[i]])
    if kind == "diagonal":
        a = [[a[i][j] if i == j else r.pick([0.0, -0.0]) for j in range(m)] for i in range(m)]
    return a


def solver(r):
    m = r.pick([1, 2, 3, 3, 4, 5, r.whole(1, 8), r.whole(6, 12)])
    if r.below(60) == 0:
        m = r.pick([32, 64])
    kind = r.pick(["definite"] * 4 + ["symmetric", "whole", "unsymmetric", "unsymmetric", "singular", "diagonal", "wild"])
    b = r.pick([[0.0] * m, [r.bell() for _ in range(m)], [float(r.whole(-9, 9)) for _ in range(m)],
                [r.between(-50.0, 50.0) for _ in range(m)], [r.between(-1.0, 1.0) for _ in range(m)]])
    if kind == "wild":
        b = [r.wild(100) for _ in range(m)]
    x = r.pick([[0.0] * m, [0.0] * m, [-0.0] * m, [r.bell() for _ in range(m)]])
    limit = r.pick([0, 1, 2, 2, 3, 6, 10, 10, 30, 30, 100, r.pick([100, 5000])])
    tol = r.pick([1e-6, 1e-6, 1e-10, 1e-14, 1e-3, 0.1, 1.0, 5e-324, r.pick([0.0, -0.0, -1e-6, -1.0])])
    return solver_lines(square(r, kind, m), b, x, limit, tol)


def solver_lines(a, b, x, limit, tol):
    return [[2, len(a), limit] + floats([tol])] + [floats(row) for row in a] + [floats(b), floats(x)]


def predict(r):
    n, p = r.pick([1, r.whole(1, 6), r.whole(1, 24)]), r.pick([1, 2, r.whole(1, 8)])
    if r.below(50) == 0:
        n, p = r.pick([(256, 16), (7, 64), (300, 1)])
    kind = r.pick([ordinary, whole, wild])
    w = [r.wild(r.pick([3, 100, 300])) if kind is wild else r.pick([0.0, -0.0, r.bell(), 100.0 * r.bell()]) for _ in range(p)]
    intercept = r.wild(200) if kind is wild else r.pick([0.0, -0.0, 1.0, r.between(-99.0, 99.0)])
    return [[3, n, p]] + [floats(row) for row in kind(r, n, p)] + [floats(w + [intercept])]


def deviation(values):
    """As arrays.rs has it, to know the columns that normalising refuses."""
    mu, total = 0.0, 0.0
    for a in values:
        mu += a
        total += a * a
    mu /= len(values)
    variance = total / len(values) - mu * mu
    return math.sqrt(variance) if variance >= 0.0 else math.nan


def refused(x):
    return any(abs(deviation([row[j] for row in x])) < 2.0 ** -52 for j in range(len(x[0])))


# Beyond the Rust's panels of 256 rows and 32 columns, with the flags.
LARGE = [(300, 40, 3), (300, 40, 2), (257, 33, 3), (257, 33, 1), (20, 40, 0), (20, 40, 1), (20, 40, 2), (20, 40, 3),
         (300, 3, 0), (300, 3, 1), (300, 3, 2), (300, 3, 3), (256, 2, 3), (5, 32, 3), (1, 34, 2), (1, 34, 0)]


def design(r, i):
    """The first are large; then small ones in each of the modes."""
    kind = r.pick([ordinary, ordinary, whole, wild, wild, flat, flat])
    n, p, flags = LARGE[i] if i < len(LARGE) else (r.pick([1, 2, 3, r.whole(2, 12)]), r.pick([1, 1, 2, r.whole(1, 5)]), i % 4)
    x = kind(r, n, p)
    while flags & 1 and refused(x):
        n, kind = max(n, 2), r.pick([ordinary, wild, flat])
        x = kind(r, n, p)
    y = targets(r, x, r.pick(["ordinary", "whole", "wild", "zero"]))
    _, alpha, ratio, _ = settings(r, "ordinary")
    value = (lambda: r.wild(200)) if r.below(4) == 0 else (lambda: r.pick([0.0, -0.0, r.bell(), r.bell()]))
    w, v = [value() for _ in range(p)], [value() for _ in range(n + p)]
    head = [4, n, p, flags] + floats([alpha, ratio])
    return [head] + [floats(row) for row in x] + [floats(y), floats(w), floats(v)]


def problems(kind, seed, count):
    """The lines of each problem of a kind."""
    if kind == "fits":
        return [lines for _, lines in fits(seed, count)]
    if kind == "tight":
        return [tight(seed, i) for i in range(count)]
    make = {"solver": lambda r, _: solver(r), "predict": lambda r, _: predict(r), "designs": design}[kind]
    stream = {"solver": 1_000_000, "predict": 2_000_000, "designs": 3_000_000}[kind]
    return [make(Random(seed, stream + i), i) for i in range(count)]


def main():
    if len(sys.argv) != 5 or sys.argv[1] not in ("fits", "tight", "solver", "predict", "designs"):
        sys.exit(__doc__)
    kind, seed, count, out = sys.argv[1], int(sys.argv[2]), int(sys.argv[3]), sys.argv[4]
    write(out, file_text([record_text(lines) for lines in problems(kind, seed, count)]))


if __name__ == "__main__":
    main()
