"""e_log.c of fdlibm 5.3 over bit patterns, step for step, which also says what way it took.

Copyright (C) 1993 by Sun Microsystems, Inc. All rights reserved.

Developed at SunSoft, a Sun Microsystems, Inc. business.
Permission to use, copy, modify, and distribute this
software is freely granted, provided that this notice
is preserved.
"""
import struct

ln2_hi = 6.93147180369123816490e-01
ln2_lo = 1.90821492927058770002e-10
two54 = 1.80143985094819840000e+16
Lg1 = 6.666666666666735130e-01
Lg2 = 3.999999999940941908e-01
Lg3 = 2.857142874366239149e-01
Lg4 = 2.222219843214978396e-01
Lg5 = 1.818357216161805012e-01
Lg6 = 1.531383769920937332e-01
Lg7 = 1.479819860511658591e-01

# the file's numbers by which it takes one way or another; its conditions are
halve = 0x95F64  # (hx + halve) & 0x100000
near = 2, 3  # (0x000fffff & (2 + hx)) < 3
least = 0x6147A  # i = hx - least
most = 0x6B851  # j = most - hx

LEAVES = ["f = 0, k = 0", "f = 0, k /= 0", "|f| < 2^-20, k = 0", "|f| < 2^-20, k /= 0", "i > 0, k = 0", "i > 0, k /= 0", "i <= 0, k = 0", "i <= 0, k /= 0"]

# Every way through the file. k = 0 needs no scaling by 2^54, and f = 0 no halving.
WAYS = ["zero", "below zero", "infinity", "NaN"] + [
    f"{start}, {half}, {leaf}"
    for start in ("normal", "subnormal")
    for half in ("x", "x/2")
    for leaf in LEAVES
    if not (start == "subnormal" and "k = 0" in leaf) and not (half == "x/2" and "f = 0" in leaf)
]


def of_bits(bits):
    return struct.unpack("<d", struct.pack("<Q", bits))[0]


def to_bits(x):
    return 0x7FF8000000000000 if x != x else struct.unpack("<Q", struct.pack("<d", x))[0]


def log(bits):
    """The logarithm's pattern and the way to it."""
    value, way = steps(bits)
    return to_bits(value), way


def steps(bits):
    x = of_bits(bits)
    hx = (bits >> 32) - (bits >> 63 << 32)
    lx = bits & 0xFFFFFFFF
    k = 0
    start = "normal"
    if hx < 0x00100000:
        if (hx & 0x7FFFFFFF | lx) == 0:
            return float("-inf"), "zero"
        if hx < 0:
            return float("nan"), "below zero" if x == x else "NaN"
        k -= 54
        x *= two54
        hx = to_bits(x) >> 32
        start = "subnormal"
    if hx >= 0x7FF00000:
        return x + x, "infinity" if x == x else "NaN"
    k += (hx >> 20) - 1023
    hx &= 0x000FFFFF
    i = hx + halve & 0x100000
    x = of_bits((hx | i ^ 0x3FF00000) << 32 | to_bits(x) & 0xFFFFFFFF)
    way = f"{start}, {'x/2' if i else 'x'}, "
    k += i >> 20
    f = x - 1.0
    at = "k = 0" if k == 0 else "k /= 0"
    if (0x000FFFFF & near[0] + hx) < near[1]:
        if f == 0.0:
            if k == 0:
                return 0.0, f"{way}f = 0, {at}"
            dk = float(k)
            return dk * ln2_hi + dk * ln2_lo, f"{way}f = 0, {at}"
        R = f * f * (0.5 - 0.33333333333333333 * f)
        way = f"{way}|f| < 2^-20, {at}"
        if k == 0:
            return f - R, way
        dk = float(k)
        return dk * ln2_hi - ((R - dk * ln2_lo) - f), way
    s = f / (2.0 + f)
    dk = float(k)
    z = s * s
    i = hx - least
    w = z * z
    j = most - hx
    t1 = w * (Lg2 + w * (Lg4 + w * Lg6))
    t2 = z * (Lg1 + w * (Lg3 + w * (Lg5 + w * Lg7)))
    i |= j
    R = t2 + t1
    if i > 0:
        way = f"{way}i > 0, {at}"
        hfsq = 0.5 * f * f
        if k == 0:
            return f - (hfsq - s * (hfsq + R)), way
        return dk * ln2_hi - ((hfsq - (s * (hfsq + R) + dk * ln2_lo)) - f), way
    way = f"{way}i <= 0, {at}"
    if k == 0:
        return f - s * (f - R), way
    return dk * ln2_hi - ((s * (f - R) - dk * ln2_lo) - f), way
