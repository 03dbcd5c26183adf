"""Questions for the oracle: projections, rotations, the solver, normal equations, residuals and clip."""
import math
import random

from angles import BOTH, INF, NAN, ONE, SIGN, ZERO, bits32, bits64, once

SEED = 20261117

# The plane cut: its least value, 1e-12, its greatest, and some between.
LEAST_CUT = 0x3D719799812DEA11
CUTS = (LEAST_CUT, LEAST_CUT + 1, bits64(1e-6), bits64(0.01), bits64(0.1), bits64(0.25), bits64(0.4), bits64(0.5) - 1, bits64(0.5))

# The weight of a spot: its least value and its greatest, what no call lets through, and any between.
FAINT, BRIGHT = bits64(2.0 ** -10), bits64(2.0 ** 10)
UNLAWFUL = (ZERO, SIGN, SIGN | ONE, FAINT - 1, BRIGHT + 1, NAN, INF)


def any_weight(rng):
    return bits64(2.0 ** rng.uniform(-10, 10))


def power_of_two(rng):
    return bits64(2.0 ** rng.randrange(-10, 11))


def hex64(values):
    return " ".join(f"{v:016X}" for v in values)


def hex32(values):
    return " ".join(f"{v:08X}" for v in values)


def odd64(rng):
    """Now and then a value that no lawful run has."""
    return rng.choice((ZERO, SIGN, ONE, NAN, INF, SIGN | INF, 1, bits64(1e300), bits64(-1e-300)))


def angle(rng, odd=0.04):
    return odd64(rng) if rng.random() < odd else bits64(rng.uniform(-7, 7))


def projections(rng):
    for _ in range(110):
        ra, dec = rng.uniform(-4, 4), rng.uniform(-1.6, 1.6)
        near = [bits64(x) for x in (ra + rng.gauss(0, 0.3), dec + rng.gauss(0, 0.3), ra, dec)]
        yield "tan_project " + hex64(near)
    for _ in range(60):
        yield "tan_project " + hex64(angle(rng) for _ in range(4))
    for _ in range(40):  # the point opposite, a quarter turn away, and the reference point itself
        ra, dec = rng.uniform(-4, 4), rng.uniform(-1.5, 1.5)
        yield "tan_project " + hex64(bits64(x) for x in (ra + rng.choice((0, math.pi, math.pi / 2)), rng.choice((dec, -dec, 0)), ra, dec))


def inverse_projections(rng):
    for _ in range(150):
        scale = 10.0 ** rng.uniform(-18, 1)
        yield "inverse_tan_project " + hex64(bits64(x) for x in (rng.gauss(0, scale), rng.gauss(0, scale), rng.uniform(-4, 4), rng.uniform(-1.6, 1.6)))
    for _ in range(60):
        yield "inverse_tan_project " + hex64(angle(rng, 0.2) for _ in range(4))
    for eta in (0.0, 1e-15, 9.9e-16, 1e-30, 1.0):  # both sides of 1e-30 for the squared offset
        yield "inverse_tan_project " + hex64(bits64(x) for x in (0.0, eta, 0.5, 1.0))
    for dec in (1.5707963267948966, -1.5707963267948966, 1.5):  # straight over the pole and away from it, with xi a zero of either sign
        for xi in (0.0, -0.0):
            for eta in (0.5, -0.5):
                yield "inverse_tan_project " + hex64(bits64(x) for x in (xi, eta, 0.5, dec))


def rotations(rng):
    for _ in range(60):
        yield f"cd_from_theta {angle(rng):016X} {bits64(10 ** rng.uniform(-6, 0)):016X} {rng.randrange(2)}"
    for _ in range(60):
        yield "rotation_from_theta_crval " + hex64(angle(rng) for _ in range(3))
    for _ in range(40):
        yield "camera_rows_f64 " + hex64(angle(rng) for _ in range(3))
    for _ in range(20):
        yield "tan_basis " + hex64(angle(rng) for _ in range(2))


def wcs_rotations(rng):
    for _ in range(100):
        ps, t = 10 ** rng.uniform(-6, -2), rng.uniform(-4, 4)
        flip = rng.choice((-1, 1))
        cd = [flip * ps * math.cos(t), -ps * math.sin(t), flip * ps * math.sin(t), ps * math.cos(t)]
        width = rng.choice((1, 64, 1024, 4096, 0xFFFFFFFF))
        yield "wcs_to_rotation " + hex64(bits64(x) for x in cd) + f" {angle(rng):016X} {angle(rng):016X} {width:X}"
    for _ in range(40):  # singular and odd matrices
        cd = [rng.choice((ZERO, SIGN, ONE, bits64(rng.gauss(0, 1)), odd64(rng))) for _ in range(4)]
        yield "wcs_to_rotation " + hex64(cd) + f" {angle(rng):016X} {angle(rng):016X} {rng.randrange(5):X}"


def vectors(rng):
    for _ in range(80):
        v = [rng.gauss(0, 1) for _ in range(3)]
        n = math.sqrt(sum(x * x for x in v))
        basis = [bits64(rng.gauss(0, 1)) for _ in range(6)] + [bits64(x / n + rng.gauss(0, 0.2)) for x in v]
        yield "tan_project_vec " + hex32(bits32(x / n) for x in v) + " " + hex64(basis + [LEAST_CUT])
    for _ in range(30):  # on both sides of the plane cut, and odd values
        basis = [odd64(rng) for _ in range(6)] + [ZERO, ZERO, rng.choice((LEAST_CUT, LEAST_CUT + 1, LEAST_CUT - 1, ZERO, SIGN | ONE, NAN))]
        yield "tan_project_vec " + hex32((bits32(0.5), bits32(-0.25), bits32(1.0))) + " " + hex64(basis + [LEAST_CUT])
    for _ in range(60):
        yield "predict_tanplane " + hex64(angle(rng) for _ in range(5))
    yield from cut_vectors(random.Random(SEED + 1))


def cut_vectors(rng):
    """Denominators at other cuts, a bit below and a bit above them; of a NaN, which no cut drops; and of any direction."""
    for cut in CUTS:
        for denominator in (cut - 1, cut, cut + 1, NAN):
            basis = [bits64(rng.gauss(0, 1)) for _ in range(6)] + [ZERO, ZERO, denominator]
            yield "tan_project_vec " + hex32((bits32(0.5), bits32(-0.25), bits32(1.0))) + " " + hex64(basis + [cut])
    for _ in range(60):
        v = [rng.gauss(0, 1) for _ in range(3)]
        basis = [bits64(rng.gauss(0, 1)) for _ in range(9)]
        yield "tan_project_vec " + hex32(bits32(x) for x in v) + " " + hex64(basis + [rng.choice(CUTS)])


def systems(rng):
    for _ in range(80):
        yield [bits64(rng.gauss(0, 1)) for _ in range(12)]
    for _ in range(60):  # symmetric, as normal matrices are, with scales far apart
        s = [10 ** rng.uniform(-8, 4) for _ in range(3)]
        m = [[s[i] * s[j] * (rng.gauss(0, 1) if i != j else 3) for j in range(3)] for i in range(3)]
        yield [bits64(m[min(i, j)][max(i, j)]) for i in range(3) for j in range(3)] + [bits64(rng.gauss(0, 1)) for _ in range(3)]
    for _ in range(60):  # singular, or needing every row exchange
        rows = [[rng.choice((0.0, 1.0, -1.0, 2.0)) for _ in range(3)] for _ in range(3)]
        yield [bits64(x) for r in rows for x in r] + [bits64(float(rng.randrange(-3, 4))) for _ in range(3)]
    for _ in range(40):  # NaN, infinities, tiny and huge
        yield [odd64(rng) if rng.random() < 0.25 else bits64(rng.gauss(0, 1)) for _ in range(12)]
    for d in (1e-30, 9.9e-31, -1e-30, -1.0, 1e300):  # the pivot's bound, and a negative diagonal
        yield [bits64(x) for x in (d, 0, 0, 0, 1, 0, 0, 0, 1, 1, 2, 3)]


def solutions(rng):
    for system in systems(rng):
        yield "solve_3x3 " + hex64(system)


def covariances(rng):
    for system in systems(rng):
        if rng.random() < 0.5:
            yield "covariance_from_normal " + hex64(system[:9]) + f" {bits64(rng.uniform(0, 1)):016X} {rng.choice((0, 1, 2, 3, 4, 17, 4096)):X}"


def accumulation(values, weight):
    """The sums so far and a spot's place, its weight, and all else that its match brings."""
    return "accumulate_normal_equations " + hex64(values[:14] + [weight] + values[14:])


def accumulations(rng):
    for _ in range(50):
        yield accumulation([angle(rng) for _ in range(19)], ONE)


def tells(values, weight):
    """Whether the product of the sum, w * (a + b), and the sum of the products, w * a + w * b, differ in the first entry of the right side."""
    px, py, cos_t, sin_t, ps, r_xi, r_eta = values[12:]
    a, b = ps * (-sin_t * px - cos_t * py) * r_xi, ps * (cos_t * px - sin_t * py) * r_eta
    return values[9] + weight * (a + b) != values[9] + (weight * a + weight * b)


def weighted_sums(rng):
    """Every kind of weight by turns, and then such that it tells in which order sum and product come."""
    kinds = (lambda rng: FAINT, lambda rng: BRIGHT, lambda rng: bits64(3.0), power_of_two, any_weight, lambda rng: rng.choice(UNLAWFUL))
    for i in range(60):
        yield accumulation([angle(rng) for _ in range(19)], kinds[i % len(kinds)](rng))
    found = 0
    while found < 40:
        values, weight = [rng.uniform(-7, 7) for _ in range(19)], rng.choice((3.0, 2.0 ** rng.uniform(-10, 10)))
        if tells(values, weight):
            found += 1
            yield accumulation([bits64(x) for x in values], bits64(weight))


def exposure(rng, most=9, odd=False, cut=LEAST_CUT, wide=1, least=0, reach=500, weight=lambda rng: ONE):
    """A pose and a cut with spots, matches and directions that fit the pose more or less; some directions lie behind the plane, some matches
    repeat. A wider field has directions that the greater cuts drop."""
    theta, ra, dec, ps = rng.uniform(-3, 3), rng.uniform(-3, 3), rng.uniform(-1.4, 1.4), wide * 10 ** rng.uniform(-4, -3)
    n = rng.randrange(least, most)
    sa, ca, sd, cd = math.sin(ra), math.cos(ra), math.sin(dec), math.cos(dec)
    east, north, bore = (-sa, ca, 0), (-sd * ca, -sd * sa, cd), (cd * ca, cd * sa, sd)
    spots, directions = [], []
    for _ in range(n):
        px, py = rng.uniform(-reach, reach), rng.uniform(-reach, reach)
        xi = ps * (math.cos(theta) * px - math.sin(theta) * py)
        eta = ps * (math.sin(theta) * px + math.cos(theta) * py)
        v = [b + xi * e + eta * k for b, e, k in zip(bore, east, north)]
        length = math.sqrt(sum(x * x for x in v)) * rng.choice((1, 1, 1, 1, 1, -1))
        spots += [px + rng.gauss(0, reach / 1000), py + rng.gauss(0, reach / 1000)]
        directions += [x / length for x in v]
    matches = [(i, i) for i in range(n) if rng.random() < 0.9]
    if n and rng.random() < 0.2:
        matches.append((rng.randrange(n), rng.randrange(n)))
    spots = [odd64(rng) if odd and rng.random() < 0.1 else bits64(x) for x in spots]
    spots = [x for i in range(n) for x in (spots[2 * i], spots[2 * i + 1], weight(rng))]
    pose = hex64(bits64(x + rng.gauss(0, 1e-3)) for x in (theta, ra, dec)) + f" {bits64(ps):016X} {cut:016X}"
    flat = " ".join(f"{s:X} {d:X}" for s, d in matches)
    return (f"{pose} {n:X} {hex64(spots)} {len(matches):X} {flat} {n:X} {hex32(bits32(x) for x in directions)}").split()


def fits(rng):
    for i in range(70):
        yield "ls_fit_once " + " ".join(exposure(rng, 12, odd=i % 5 == 4))


def normal_matrices(rng):
    for i in range(40):
        yield "normal_matrix " + " ".join(exposure(rng, 12, odd=i % 5 == 4))


def residuals(rng):
    for i in range(60):
        yield "compute_residuals " + " ".join(exposure(rng, 12, odd=i % 5 == 4))


def wide_fields(rng, *names):
    """Wide fields at every cut."""
    for name in names:
        for cut in CUTS:
            for _ in range(4):
                yield f"{name} " + " ".join(exposure(rng, 12, cut=cut, wide=30))


def grazing(rng):
    yield from wide_fields(rng, "ls_fit_once", "normal_matrix")


def grazing_residuals(rng):
    yield from wide_fields(rng, "compute_residuals")


def equally_weighted(rng, weights, **field):
    """The fit of one exposure with all its weights 1, and then with all of them one other."""
    seed = rng.getrandbits(64)
    for weight in (ONE, *weights):
        yield "ls_fit_once " + " ".join(exposure(random.Random(seed), 9, least=6, weight=lambda rng: weight, **field))


def weighted_fits(rng):
    """Equal weights: powers of two leave the solution's bits, 3 does not; where the spots lie so close together that a pivot is about 1e-30, the
    solver's bound, the weight decides whether there is a solution. Then weights of every kind, which the residuals do not look at."""
    for _ in range(4):
        yield from equally_weighted(rng, (FAINT, bits64(4.0), BRIGHT, bits64(3.0)))
    for _ in range(6):
        yield from equally_weighted(rng, (FAINT, BRIGHT), wide=1e-6, reach=3e-21)
    ends = lambda rng: rng.choice((FAINT, BRIGHT))
    unlawful = lambda rng: rng.choice(UNLAWFUL + (ONE,) * 20)
    for weight in (ends, power_of_two, any_weight, unlawful):
        for name, many in (("ls_fit_once", 7), ("normal_matrix", 4), ("compute_residuals", 1)):
            for _ in range(many):
                yield f"{name} " + " ".join(exposure(rng, 9, least=3, weight=weight))


def measured(rng, n):
    """Residuals of n matches, some of which lie behind the plane and have none."""
    kind = rng.randrange(4)
    for i in range(n):
        if rng.random() < 0.1:
            continue
        value = (rng.random(), float(rng.randrange(3)), rng.choice((1.0, 1.0, 1.0, 50.0)), abs(rng.gauss(0, 1e-5)))[kind]
        yield i, NAN if rng.random() < 0.02 else bits64(value)


def clips(rng):
    for _ in range(120):
        n = rng.randrange(0, 14)
        values = list(measured(rng, n))
        listed = " ".join(f"{i:X} {v:016X}" for i, v in values)
        yield f"residual_median_sigma {len(values):X} {listed}".strip()
        matches = " ".join(f"{rng.randrange(64):X} {rng.randrange(256):X}" for _ in range(n))
        median, sigma = bits64(rng.choice((0.0, 0.5, 1.0))), bits64(rng.choice((0.0, 0.1, 0.25)))
        yield " ".join(f"mad_clip_matches {len(values):X} {listed} {n:X} {matches} {median:016X} {sigma:016X}".split())


FILES = {
    "tan_project.txt": projections,
    "inverse_tan_project.txt": inverse_projections,
    "rotations.txt": rotations,
    "wcs_to_rotation.txt": wcs_rotations,
    "vectors.txt": vectors,
    "solve_3x3.txt": solutions,
    "covariance.txt": covariances,
    "accumulate.txt": accumulations,
    "fits.txt": fits,
    "normal_matrix.txt": normal_matrices,
    "residuals.txt": residuals,
    "clips.txt": clips,
    "grazing.txt": grazing,
    "grazing_residuals.txt": grazing_residuals,
    "weighted_sums.txt": weighted_sums,
    "weighted_fits.txt": weighted_fits,
}


def files():
    rng = random.Random(SEED)
    for name, questions in FILES.items():
        yield name, once(questions(rng))
