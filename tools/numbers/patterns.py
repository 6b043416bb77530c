"""Bit patterns of binary64 by which a root, a logarithm, a maximum and a minimum are tried. A pattern is an int below 2^64."""

FIELD = 1 << 52
SIGN = 1 << 63
NAN = 0x7FF8 << 48
INFINITY = 0x7FF << 52
LARGEST = INFINITY - 1
ONE = 0x3FF << 52
WORD = (1 << 64) - 1

# the high 20 bits of the fraction at which e_log.c takes another way, with those beside them
THRESHOLDS = [
    0x00000, 0x00001, 0x00002, 0xFFFFD, 0xFFFFE, 0xFFFFF,  # (0xfffff & (2 + hx)) < 3
    0x6A09B, 0x6A09C, 0x6A09D,  # (hx + 0x95f64) & 0x100000
    0x61479, 0x6147A, 0x6147B,  # hx - 0x6147a
    0x6B850, 0x6B851, 0x6B852,  # 0x6b851 - hx
]


class SplitMix64:
    def __init__(self, seed):
        self.state = seed & WORD

    def word(self):
        self.state = z = (self.state + 0x9E3779B97F4A7C15) & WORD
        z = (z ^ z >> 30) * 0xBF58476D1CE4E5B9 & WORD
        z = (z ^ z >> 27) * 0x94D049BB133111EB & WORD
        return z ^ z >> 31

    def below(self, n):
        return self.word() % n


def is_nan(bits):
    return bits & ~SIGN > INFINITY


def pattern(digits, exponent):
    """digits * 2^(exponent - 52) with 2^52 <= digits < 2^53; what falls below the last place of a subnormal is cut off."""
    if exponent < -1022:
        return digits >> -1022 - exponent
    return (exponent + 1022 << 52) + digits


def power(exponent):
    return pattern(FIELD, exponent)


def any_nan(random):
    """Of either sign, quiet or signalling, with payloads of every length."""
    w = random.word()
    quiet = w >> 62 & 1
    payload = (w & FIELD - 1) >> 1 + random.below(52)
    return w & SIGN | INFINITY | quiet << 51 | (payload or 1 - quiet)


def any_number(random):
    """No NaN, of either sign; one in four is a zero or an infinity."""
    w = random.word()
    if random.below(4) == 0:
        return w & SIGN | (INFINITY if w & 1 else 0)
    return w & ~INFINITY if is_nan(w) else w


def at_threshold(random, exponent):
    """A fraction whose high 20 bits are at one of the thresholds; exponent -1042 and above keeps them."""
    hx = THRESHOLDS[random.below(len(THRESHOLDS))]
    low = (0, 1, 0xFFFFFFFF, random.word() >> 32)[random.below(4)]
    return pattern(FIELD | hx << 32 | low, exponent)


def subnormal(random, zeros):
    """`zeros` leading zeros in the fraction's 52 bits."""
    top = 1 << 51 - zeros
    return top | random.word() % top


def near_one(random):
    """Distances from 1 of every size down to the last place, on both sides."""
    w = random.word()
    distance = (w >> 12) >> w % 52
    return ONE - distance if w >> 6 & 1 else ONE + distance


def square(random):
    """The pattern of a square of which every digit is held, at an even power of two."""
    w = random.word()
    r = w % 94906265 >> (w >> 32) % 26 | 1  # 94906265^2 < 2^53
    s = r * r
    length = s.bit_length()
    even = 2 * ((w >> 40) % 970) - 1000
    return pattern(s << 53 - length, length - 1 + even)


def beside_tie(random):
    """(2r + 1)^2 / 4, rounded down or up to the places of an argument; its root is near to a tie."""
    w = random.word()
    r = FIELD + (w & FIELD - 1)
    n = (2 * r + 1) ** 2 // 4  # the floor; the root of n lies in [2^52, 2^53)
    odd = n.bit_length() - 105
    digits = (n >> 52 + odd) + (w >> 52 & 1)
    return of_root(random, digits, odd)


def of_root(random, digits, odd):
    """digits * 2^odd, times an even power of two chosen so that nothing is cut off."""
    if digits == 2 * FIELD:
        digits, odd = FIELD, odd + 1
    return pattern(digits, odd + 2 * random.below(1022) - 1022)


def nearest_ties(distance):
    """The (digits, odd) whose root lies nearest to a tie: digits * 2^odd * 2^52 = r^2 + r - distance, the tie being r^2 + r + 1/4.

    For an even distance the equation r^2 + r = distance has two answers modulo each power of two, by Newton's method."""
    found = []
    for odd in (0, 1):
        modulus = 1 << 52 + odd
        x = 0
        for _ in range(6):
            x = (x - (x * x + x - distance) * pow(2 * x + 1, -1, modulus)) % modulus
        for r in sorted({x, modulus - 1 - x}):
            if not odd:
                r += FIELD
            digits, rest = divmod(r * r + r - distance, modulus)
            assert rest == 0
            if r >= FIELD and FIELD <= digits < 2 * FIELD:
                found.append((digits, odd))
    return found
