"""Questions for the oracle: the angle functions at all branches and quadrants, and the methods of f64."""
import random
import struct

SEED = 20261116
ZERO, ONE, NAN, INF = 0x0, 0x3FF0000000000000, 0x7FF8000000000000, 0x7FF0000000000000
SIGN = 1 << 63
LIMIT = 0x4090000000000000  # 1,024
SPECIAL = [ZERO, 1, 0x000FFFFFFFFFFFFF, 0x0010000000000000, ONE - 1, ONE, ONE + 1, LIMIT - 1, LIMIT, LIMIT + 1, INF - 1, INF, NAN, NAN + 5]
BOTH = SPECIAL + [SIGN | b for b in SPECIAL]


def bits64(x):
    return struct.unpack("<Q", struct.pack("<d", x))[0]


def bits32(x):
    return struct.unpack("<I", struct.pack("<f", x))[0]


def turning(rng, many):
    """Angles over all quadrants: special ones, multiples of a quarter turn and their neighbours, small, large, and beyond the limit."""
    yield from BOTH
    for n in range(-12, 13):
        at = bits64(n * 1.5707963267948966)
        yield from (at, at + 1, max(at - 1, 0), bits64((n + 0.5) * 1.5707963267948966))
    for _ in range(many):
        yield bits64(rng.uniform(-1024, 1024))
    for _ in range(many):
        yield bits64(rng.uniform(-7, 7))
    for _ in range(many // 2):
        yield bits64(rng.uniform(-1, 1) * 2.0 ** -rng.randrange(1, 60))
    for _ in range(many // 8):
        yield bits64(rng.uniform(1024, 1100) * rng.choice((-1, 1)))


def ratios(rng, many):
    """Tangents: special ones, about 1, small and large."""
    yield from BOTH
    for _ in range(many):
        yield bits64(rng.uniform(-3, 3))
    for _ in range(many):
        yield bits64(rng.choice((-1, 1)) * 2.0 ** rng.uniform(-40, 40))
    for _ in range(many // 4):
        yield rng.getrandbits(64)


def sines(rng, many):
    """Within ±1, at its edge, and beyond."""
    yield from BOTH
    for _ in range(many):
        yield bits64(rng.uniform(-1, 1))
    for _ in range(many // 2):
        yield bits64(rng.choice((-1, 1)) * (1 - 2.0 ** -rng.randrange(1, 54)))
    for _ in range(many // 4):
        yield bits64(rng.uniform(-2, 2))


def points(rng, many):
    """y and x: every pair of special values, then all four quadrants at many ratios."""
    few = [ZERO, SIGN, 1, SIGN | 1, ONE, SIGN | ONE, INF, SIGN | INF, NAN]
    for y in few:
        for x in few:
            yield y, x
    for _ in range(many):
        yield bits64(rng.uniform(-2, 2)), bits64(rng.uniform(-2, 2))
    for _ in range(many // 2):
        scale = 2.0 ** rng.uniform(-30, 30)
        yield bits64(rng.uniform(-2, 2) * scale), bits64(rng.uniform(-2, 2))


def methods(rng):
    few = BOTH + [bits64(rng.uniform(-5, 5)) for _ in range(20)]
    for x in few:
        yield f"abs {x:016X}"
        yield f"is_finite {x:016X}"
    for _ in range(160):
        x, y = rng.choice(few), rng.choice(few)
        for name in ("max", "min", "total_cmp"):
            yield f"{name} {x:016X} {y:016X}"
    numbers = [b for b in few if b & (SIGN - 1) <= INF]
    for _ in range(120):
        low, high = sorted((rng.choice(numbers) for _ in range(2)), key=lambda b: struct.unpack("<d", struct.pack("<Q", b))[0])
        yield f"clamp {rng.choice(few):016X} {low:016X} {high:016X}"


def once(lines):
    return list(dict.fromkeys(lines))


def files():
    rng = random.Random(SEED)
    yield "methods.txt", once(methods(rng))
    for name in ("sin", "cos"):
        yield f"{name}.txt", once(f"{name} {a:016X}" for a in turning(rng, 160))
    yield "cos32.txt", once(f"cos32 {bits32(x):08X}" for x in [0.0, -0.0, 1024.0, -1024.0, 1025.0, float("inf"), float("nan")] + [rng.uniform(-4, 4) for _ in range(250)] + [rng.uniform(-1030, 1030) for _ in range(100)])
    yield "atan.txt", once(f"atan {x:016X}" for x in ratios(rng, 220))
    yield "asin.txt", once(f"asin {x:016X}" for x in sines(rng, 250))
    yield "atan2.txt", once(f"atan2 {y:016X} {x:016X}" for y, x in points(rng, 350))
