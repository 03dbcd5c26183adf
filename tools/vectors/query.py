"""Questions for the oracle: the cone query and its axis."""
import math
import random
import struct

from angles import bits32, once
from fit import hex32

SEED = 20261119
ZERO, SIGN, TINY, ONE, INF, NAN = 0x0, 0x80000000, 0x1, 0x3F800000, 0x7F800000, 0x7FC00000
PI = 0x40490FDB  # as an f32 has it


def single(bits):
    return struct.unpack("<f", struct.pack("<I", bits))[0]


def unit(rng):
    """A direction of length 1, as good as an f32 has it."""
    v = [rng.gauss(0, 1) for _ in range(3)]
    length = math.sqrt(sum(x * x for x in v))
    return [x / length for x in v]


def odd32(rng):
    return rng.choice((ZERO, SIGN, TINY, SIGN | TINY, ONE, SIGN | ONE, INF, SIGN | INF, NAN, NAN | SIGN | 5, INF - 1, 0x00800000))


def stretched(v, low, high, rng):
    """The direction with a length between powers of two; what an f32 cannot hold is infinite."""
    length = 2.0 ** rng.uniform(low, high)
    return [bits32(x * length) if abs(x * length) < 3.4e38 else INF for x in v]


def axes(rng):
    """Boresights: ordinary, long and short, at the ends of the range, along an axis, and with odd components."""
    for _ in range(50):
        yield stretched(unit(rng), -1, 1, rng)
    for _ in range(40):
        yield stretched(unit(rng), -40, 40, rng)
    for _ in range(40):  # squares that vanish or overflow
        yield stretched(unit(rng), *rng.choice(((-149, -60), (60, 129))), rng)
    for i in range(3):
        for x in (ZERO, SIGN, TINY, ONE, SIGN | ONE, INF, NAN, bits32(2.0**-75), bits32(2.0**64)):
            yield [x if i == j else rng.choice((ZERO, SIGN)) for j in range(3)]
    for _ in range(50):
        yield [odd32(rng) if rng.random() < 0.5 else bits32(rng.gauss(0, 1)) for _ in range(3)]


def turned(axis, by, rng):
    """A direction at this angle from a unit vector, on any side."""
    side = unit(rng)
    along = sum(a * s for a, s in zip(axis, side))
    across = [s - along * a for a, s in zip(axis, side)]
    length = math.sqrt(sum(x * x for x in across))
    return [math.cos(by) * a + math.sin(by) * x / length for a, x in zip(axis, across)]


def direction(rng, axis, radius):
    """At the rim or a few places of an f32 beside it, well within or without, opposite, of another length, or odd."""
    kind = rng.randrange(10)
    if kind < 4:
        at = [bits32(x) for x in turned(axis, radius + rng.choice((0, 0, 1e-7, -1e-7, 3e-4, -3e-4)), rng)]
        return [max(x + rng.choice((-1, 0, 0, 1)), 0) for x in at]
    if kind < 6:
        return [bits32(x) for x in turned(axis, radius * rng.uniform(0, 2), rng)]
    if kind == 6:
        sign = rng.choice((1, -1))
        return [bits32(sign * x) for x in axis]
    if kind == 7:
        return stretched(turned(axis, radius, rng), -2, 2, rng)
    if kind == 8:
        return [bits32(x) for x in unit(rng)]
    return [odd32(rng) for _ in range(3)]


def asked(rng, boresight, radius, near):
    """A query with directions about a unit vector that the boresight points to."""
    within = single(radius) if 0 <= single(radius) <= math.pi else 1.0
    listed = [direction(rng, near, within) for _ in range(rng.choice((0, 1, 2, 4, 7, 10, 14, 20)))]
    return " ".join(f"query {hex32(boresight)} {radius:08X} {len(listed):X} {' '.join(map(hex32, listed))}".split())


def rims(rng):
    """Along the first axis the dot product is the first component: the cosine itself, and the places of an f32 on both sides of it."""
    for _ in range(20):
        radius = bits32(rng.uniform(0, 3))
        rim = bits32(math.cos(single(radius)))
        listed = [[rim + step, bits32(rng.gauss(0, 1)), ZERO] for step in (-2, -1, 0, 1, 2)]
        yield f"query {hex32((ONE, ZERO, ZERO))} {radius:08X} 5 {' '.join(map(hex32, listed))}"


def queries(rng):
    radii = [ZERO, SIGN, TINY, bits32(1e-30), bits32(2.0**-20), PI - 1, PI, PI + 1, bits32(3.2), bits32(100.0), INF]
    radii += [SIGN | TINY, bits32(-0.1), SIGN | INF, NAN, NAN | SIGN, bits32(math.pi / 2), bits32(3.1)]
    for _ in range(70):  # ordinary cones
        v = unit(rng)
        yield asked(rng, stretched(v, -1, 1, rng), bits32(rng.choice((rng.uniform(0, 0.02), rng.uniform(0, 0.6), rng.uniform(0, 3.2)))), v)
    yield from rims(rng)
    for radius in radii:
        for _ in range(3):
            v = unit(rng)
            yield asked(rng, stretched(v, -1, 1, rng), radius, v)
    for boresight in rng.sample(list(axes(rng)), 50):  # any boresight; without a length the axis is the first one
        components = [single(x) for x in boresight]
        length = math.sqrt(sum(x * x for x in components))
        near = [x / length for x in components] if 1e-20 < length < 1e18 else [1.0, 0.0, 0.0]
        yield asked(rng, boresight, bits32(rng.uniform(0, 1)), near)


def files():
    rng = random.Random(SEED)
    yield "axis.txt", once(f"normalize_or_fallback {hex32(v)}" for v in axes(rng))
    yield "query.txt", once(queries(rng))
