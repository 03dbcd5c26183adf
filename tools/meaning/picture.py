"""Draws the grid of docs/MATCHES.md as SVG, with the one list that lists.py means by it, found by trying all, and why each other pair is not in it.

usage: picture.py > docs/matches.svg
"""
import math

from lists import FOUR, Grid, all_lists, explains, ordered, same_spot

GRID = Grid(spots=[(1, 1), (3, 1), (2, 3)], predictions=[(2, 1), (1, 2), (3, 3)], limit=3, radius_sq=4)
WIDTH, HEIGHT = 760, 484
LOW, HIGH = -1, 5  # of both axes
LEFT, TOP, UNIT = 40, 48, 66
TABLE = (474, 540, 596)  # where its columns start: pair, distance, explained by
TAKEN, LEFT_OUT, POINT, FAINT = "#1b6ca8", "#c1440e", "#222", "#aaa"


def matches(grid):
    (found,) = (ms for ms in all_lists(grid) if ordered(grid, ms) and all(test(grid, ms) for test in FOUR))
    return found


def in_order(grid, pairs):
    return sorted(pairs, key=lambda m: sum((n, m) in grid.earlier_pairs for n in pairs))


def at(point):
    return LEFT + (point[0] - LOW) * UNIT, TOP + (HIGH - point[1]) * UNIT


def text(x, y, words, anchor="start", colour="#333", size=12, more=""):
    return f'<text x="{x:.1f}" y="{y:.1f}" font-size="{size}" text-anchor="{anchor}" fill="{colour}"{more}>{words}</text>'


def line(start, end, colour, width=1.0, dash=""):
    dashes = f' stroke-dasharray="{dash}"' if dash else ""
    (x1, y1), (x2, y2) = start, end
    return f'<line x1="{x1:.1f}" y1="{y1:.1f}" x2="{x2:.1f}" y2="{y2:.1f}" stroke="{colour}" stroke-width="{width}"{dashes}/>'


def taken_line(start, end):
    return line(start, end, TAKEN, 4)


def left_out_line(start, end):
    return line(start, end, LEFT_OUT, 1.5, "6 4")


def circle(middle, radius):
    x, y = middle
    return f'<circle cx="{x:.1f}" cy="{y:.1f}" r="{radius:.1f}" fill="none" stroke="{FAINT}" stroke-dasharray="2 4"/>'


def spot(middle):
    x, y = middle
    return f'<circle cx="{x:.1f}" cy="{y:.1f}" r="6" fill="{POINT}"/>'


def prediction(middle):
    x, y = middle
    return f'<rect x="{x - 6:.1f}" y="{y - 6:.1f}" width="12" height="12" fill="white" stroke="{POINT}" stroke-width="2"/>'


def axes():
    for n in range(LOW, HIGH + 1):
        yield line(at((n, LOW)), at((n, HIGH)), "#e4e4e4")
        yield line(at((LOW, n)), at((HIGH, n)), "#e4e4e4")
        x, y = at((n, LOW))
        yield text(x, y + 18, n, "middle", "#777")
        x, y = at((LOW, n))
        yield text(x - 10, y + 4, n, "end", "#777")


def distance_on(start, end, words, colour):
    """Beside the middle of a line: above it, or to the right of an upright one."""
    (x1, y1), (x2, y2) = sorted((start, end))
    long = math.dist(start, end)
    x, y = (x1 + x2) / 2 + 11 * (y2 - y1) / long, (y1 + y2) / 2 - 11 * (x2 - x1) / long
    return f'<rect x="{x - 6:.1f}" y="{y - 7:.1f}" width="12" height="14" fill="white"/>' + text(x, y + 4.5, words, "middle", colour, 13)


def named(name, point, others):
    """The name of a point, on the side away from the points that it is joined with."""
    x, y = at(point)
    away = [sum((point[k] - other[k]) / math.dist(point, other) for other in others) for k in (0, 1)]
    far = math.hypot(*away) or 1
    return text(x + 25 * away[0] / far, y - 21 * away[1] / far + 4.5, name, "middle", POINT, 13, ' font-weight="bold"')


def drawing(grid, taken, left_out):
    yield from axes()
    for s in grid.spots:
        yield circle(at(s), math.sqrt(grid.radius_sq) * UNIT)
    for pairs, joined, colour in ((left_out, left_out_line, LEFT_OUT), (taken, taken_line, TAKEN)):
        for m in pairs:
            ends = at(grid.spots[m[0]]), at(grid.predictions[m[1]])
            yield joined(*ends)
            yield distance_on(*ends, grid.distances[m], colour)
    for i, s in enumerate(grid.spots):
        yield spot(at(s))
        yield named(f"s{i}", s, [grid.predictions[q] for p, q in grid.near_pairs if p == i])
    for i, p in enumerate(grid.predictions):
        yield prediction(at(p))
        yield named(f"p{i}", p, [grid.spots[s] for s, q in grid.near_pairs if q == i])


def reason(grid, taken, m):
    n = next(n for n in taken if explains(grid, n, m))
    return f"{n}: same {'spot' if same_spot(m, n) else 'prediction'}"


def table(grid, taken, left_out):
    """Rows of words by column, each with its colour; None leaves a gap."""
    yield "#333", ("taken", "squared distance")
    yield from ((TAKEN, (m, grid.distances[m])) for m in taken)
    yield None
    yield "#333", ("near, not taken", "", "explained by")
    yield from ((LEFT_OUT, (m, grid.distances[m], reason(grid, taken, m))) for m in left_out)
    yield None
    beyond = in_order(grid, set(grid.pairs) - grid.near_pairs)
    yield "#777", ("beyond the radius: " + ", ".join(f"{m} at {grid.distances[m]}" for m in beyond),)


def key(grid, y):
    """What the marks mean, one below the other."""
    left, middle, right = TABLE[0], TABLE[0] + 20, TABLE[0] + 40
    radius = f"radius: {math.sqrt(grid.radius_sq):g}, squared {grid.radius_sq}"
    marks = (
        (spot((middle, y)), "spot"),
        (prediction((middle, y + 22)), "prediction"),
        (taken_line((left, y + 44), (right, y + 44)), "taken, with its squared distance"),
        (left_out_line((left, y + 66), (right, y + 66)), "near, not taken"),
        (line((left, y + 88), (right, y + 88), FAINT, 1, "2 4"), radius),
    )
    for i, (mark, words) in enumerate(marks):
        yield mark
        yield text(right + 12, y + 22 * i + 4, words)


def picture(grid):
    taken = matches(grid)
    left_out = in_order(grid, grid.near_pairs - set(taken))
    out = [
        f'<svg xmlns="http://www.w3.org/2000/svg" width="{WIDTH}" height="{HEIGHT}" font-family="sans-serif">',
        f'<rect width="{WIDTH}" height="{HEIGHT}" fill="white"/>',
        text(LEFT, 24, "The one list of this grid, as pairs (spot, prediction): " + ", ".join(map(str, taken)), size=14),
        *drawing(grid, taken, left_out),
    ]
    y = TOP + 12
    for row in table(grid, taken, left_out):
        if row:
            colour, words = row
            out += [text(x, y, word, colour=colour) for x, word in zip(TABLE, words)]
        y += 20
    return "\n".join([*out, *key(grid, y + 30), "</svg>"])


print(picture(GRID))
