"""Vectors for the square root, the narrowing and the widening, by whole numbers."""
import math
import random
import struct
from fractions import Fraction

SEED = 20261115


class Format:
    """A binary format: p digits, largest exponent emax. A unit is its smallest value."""

    def __init__(self, p, emax):
        self.p, self.emax = p, emax
        self.low = emax + p - 2
        self.digits = 2 * (64 if p == 53 else 32) // 8
        self.sign = 1 << (64 if p == 53 else 32) - 1
        self.infinity = (2 * emax + 1) << (p - 1)
        self.nan = self.infinity + (1 << (p - 2))

    def is_nan(self, bits):
        return bits & (self.sign - 1) > self.infinity

    def units(self, bits):
        """The magnitude of a finite pattern, in units."""
        bits &= self.sign - 1
        field, rest = bits >> (self.p - 1), bits & (1 << self.p - 1) - 1
        return rest if field == 0 else ((1 << self.p - 1) + rest) << (field - 1)

    def pattern(self, whole, middle):
        """A number of units rounded to nearest, ties to even. whole: its whole part; middle(t): its comparison with t / 2 (-1, 0, 1)."""
        k = max(0, whole.bit_length() - self.p)
        q = whole >> k
        side = middle((2 * q + 1) << k)
        q += 1 if side > 0 or (side == 0 and q % 2 == 1) else 0
        units = q << k
        if units >= 1 << (self.low + self.emax + 1):
            return self.infinity
        k = max(0, units.bit_length() - self.p)
        return (k << (self.p - 1)) + (units >> k)

    def hex(self, bits):
        return f"{bits:0{self.digits}X}"


DOUBLE, SINGLE = Format(53, 1023), Format(24, 127)


def compare(a, b):
    return (a > b) - (a < b)


def root(f, bits):
    if f.is_nan(bits):
        return f.nan
    if bits & (f.sign - 1) == 0 or bits == f.infinity:
        return bits
    if bits & f.sign:
        return f.nan
    square = f.units(bits) << f.low  # of the root, in units squared
    return f.pattern(math.isqrt(square), lambda t: compare(4 * square, t * t))


def narrow(bits):
    if DOUBLE.is_nan(bits):
        return SINGLE.nan
    sign = SINGLE.sign if bits & DOUBLE.sign else 0
    if bits & (DOUBLE.sign - 1) == DOUBLE.infinity:
        return sign + SINGLE.infinity
    exact = Fraction(DOUBLE.units(bits), 1 << (DOUBLE.low - SINGLE.low))
    return sign + SINGLE.pattern(int(exact), lambda t: compare(2 * exact, t))


def widen(bits):
    if SINGLE.is_nan(bits):
        return DOUBLE.nan
    sign = DOUBLE.sign if bits & SINGLE.sign else 0
    if bits & (SINGLE.sign - 1) == SINGLE.infinity:
        return sign + DOUBLE.infinity
    exact = SINGLE.units(bits) << (DOUBLE.low - SINGLE.low)
    return sign + DOUBLE.pattern(exact, lambda t: compare(2 * exact, t))


def float64(bits):
    return struct.unpack("<d", struct.pack("<Q", bits))[0]


def float32(bits):
    return struct.unpack("<f", struct.pack("<I", bits))[0]


def host_root(bits):
    x = float64(bits)
    return struct.unpack("<Q", struct.pack("<d", math.sqrt(x)))[0] if x >= 0 else None


def host_narrow(bits):
    x = float64(bits)
    try:
        return struct.unpack("<I", struct.pack("<f", x))[0] if x == x else None
    except OverflowError:
        return (SINGLE.sign if x < 0 else 0) + SINGLE.infinity


def edges(f):
    """Zeros, the smallest and largest subnormals and normals, infinities, NaNs, one and its neighbours, and their negatives."""
    least = 1 << (f.p - 1)
    one = f.emax << (f.p - 1)
    marks = [0, 1, 2, 3, least - 1, least, least + 1, f.infinity - 1, f.infinity, f.infinity + 1, f.nan, f.sign - 1]
    marks += [one - 1, one, one + 1, one + (1 << f.p - 1)]
    return marks + [f.sign + m for m in marks]


def root_inputs(f, rng, many):
    yield from edges(f)
    for x in range(0, f.low + f.emax + 1, max(1, (f.low + f.emax) // 120)):  # powers of two, subnormal ones too
        yield f.pattern(1 << x, lambda t: -1)
    for _ in range(many):  # squares, and their neighbours
        q = rng.getrandbits(rng.randrange(2, f.p // 2 + 1)) | 1
        square = f.pattern((q * q) << f.low, lambda t: -1)
        yield from (square - 1, square, square + 1)
    for _ in range(many):  # close to half-way: the square of a number with one digit too many
        q = 2 * (rng.getrandbits(f.p - 1) | 1 << (f.p - 1)) + 1
        near = f.pattern((q * q << f.low) >> 2 * f.p, lambda t: -1)
        yield from (near, near + 1)
    for _ in range(2 * many):
        yield rng.getrandbits(f.p + 10 if f is DOUBLE else 31) % f.infinity
    for _ in range(many // 2):  # subnormals
        yield rng.getrandbits(rng.randrange(1, f.p - 1))


def narrow_inputs(rng):
    yield from edges(DOUBLE)
    for bits in edges(SINGLE):
        yield widen(bits)
    step = 1 << 29  # of an f64 pattern, between neighbours of an f32 in its normal range
    for _ in range(150):  # ties with even and odd neighbours, and just beside them
        at = widen(rng.getrandbits(31) % SINGLE.infinity)
        if at < 0x3810000000000000:
            continue
        yield from (at + step // 2, at + step // 2 - 1, at + step // 2 + 1)
    for _ in range(80):  # subnormal ties: (q + 1/2) of the smallest f32
        q = 2 * rng.getrandbits(rng.randrange(1, 23)) + 1
        tie = DOUBLE.pattern(q << (DOUBLE.low - SINGLE.low - 1), lambda t: -1)
        yield from (tie - 1, tie, tie + 1, DOUBLE.sign + tie)
    top = 0x47EFFFFFF0000000  # the overflow threshold
    yield from (top - 1, top, top + 1, DOUBLE.sign + top - 1, DOUBLE.sign + top)
    for _ in range(120):
        yield rng.getrandbits(64)
    for _ in range(120):  # about the range of f32
        yield rng.getrandbits(1) << 63 | rng.randrange(700, 1300) << 52 | rng.getrandbits(52)


def widen_inputs(rng):
    yield from edges(SINGLE)
    for x in range(0, SINGLE.low + SINGLE.emax + 1, 5):
        yield SINGLE.pattern(1 << x, lambda t: -1)
    for _ in range(150):
        yield rng.getrandbits(32)
    for _ in range(60):
        yield rng.getrandbits(rng.randrange(1, 23))


def lines(name, source, target, function, inputs, host):
    seen = set()
    for bits in inputs:
        if bits in seen:
            continue
        seen.add(bits)
        answer = function(bits)
        known = host(bits)
        if known is not None and known != answer:
            raise SystemExit(f"{name} {bits:X}: {answer:X} here, {known:X} on the host")
        yield f"{name} {source.hex(bits)} = {target.hex(answer)}"


def files():
    rng = random.Random(SEED)
    double = lines("sqrt64", DOUBLE, DOUBLE, lambda b: root(DOUBLE, b), root_inputs(DOUBLE, rng, 100), host_root)
    yield "sqrt64.txt", list(double)
    single = lines("sqrt32", SINGLE, SINGLE, lambda b: root(SINGLE, b), root_inputs(SINGLE, rng, 100), lambda b: None)
    yield "sqrt32.txt", list(single)
    yield "narrow.txt", list(lines("narrow", DOUBLE, SINGLE, narrow, narrow_inputs(rng), host_narrow))
    yield "widen.txt", list(lines("widen", SINGLE, DOUBLE, widen, widen_inputs(rng), lambda b: None))
