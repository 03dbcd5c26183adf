"""Draws the growth of the refinement call's cost from a table of times, as SVG: a line for each number of spots, over the directions.

usage: picture.py TABLE.csv > PICTURE.svg
The table's columns: spots, directions, rounds, and the microseconds of a call here and in the reference Rust.
"""
import csv
import math
import sys

WIDTH, HEIGHT = 760, 460
LEFT, RIGHT, TOP, BOTTOM = 70, 220, 40, 50
COLOURS = ["#1b6ca8", "#c1440e", "#3a7d44", "#6b4c9a"]


def scale(low, high, start, end):
    """A logarithmic axis: where a value between low and high falls between start and end."""
    return lambda v: start + (math.log10(v) - math.log10(low)) / (math.log10(high) - math.log10(low)) * (end - start)


def named(us):
    return f"{us:g} µs" if us < 1e3 else f"{us / 1e3:g} ms" if us < 1e6 else f"{us / 1e6:g} s"


def text(x, y, words, anchor="middle", colour="#333", size=12):
    return f'<text x="{x:.1f}" y="{y:.1f}" font-size="{size}" text-anchor="{anchor}" fill="{colour}">{words}</text>'


def line(points, colour, dashed):
    where = " ".join(f"{x:.1f},{y:.1f}" for x, y in points)
    dash = ' stroke-dasharray="6 4"' if dashed else ""
    dots = "".join(f'<circle cx="{x:.1f}" cy="{y:.1f}" r="3" fill="{colour}"/>' for x, y in points)
    return f'<polyline points="{where}" fill="none" stroke="{colour}" stroke-width="2"{dash}/>{dots}'


def picture(rows):
    across = sorted({r["directions"] for r in rows})
    times = [r[k] for r in rows for k in ("here", "rust")]
    low, high = 10 ** math.floor(math.log10(min(times))), 10 ** math.ceil(math.log10(max(times)))
    at_x = scale(across[0], across[-1], LEFT, WIDTH - RIGHT)
    at_y = scale(low, high, HEIGHT - BOTTOM, TOP)
    out = [
        f'<svg xmlns="http://www.w3.org/2000/svg" width="{WIDTH}" height="{HEIGHT}" font-family="sans-serif">',
        f'<rect width="{WIDTH}" height="{HEIGHT}" fill="white"/>',
        text(LEFT, 20, "A refinement call, all directions in one field: time over directions", "start", size=14),
        text((LEFT + WIDTH - RIGHT) / 2, HEIGHT - 12, "directions"),
    ]
    for n in across:
        out.append(text(at_x(n), HEIGHT - BOTTOM + 18, f"{n:,}"))
    decade = low
    while decade <= high:
        y = at_y(decade)
        out.append(f'<line x1="{LEFT}" y1="{y:.1f}" x2="{WIDTH - RIGHT}" y2="{y:.1f}" stroke="#ddd"/>')
        out.append(text(LEFT - 8, y + 4, named(decade), "end"))
        decade *= 10
    for colour, spots in zip(COLOURS, sorted({r["spots"] for r in rows}, reverse=True)):
        mine = sorted((r for r in rows if r["spots"] == spots), key=lambda r: r["directions"])
        for key, dashed in (("here", False), ("rust", True)):
            points = [(at_x(r["directions"]), at_y(r[key])) for r in mine]
            out.append(line(points, colour, dashed))
        row = TOP + 20 + 40 * COLOURS.index(colour)
        for k, (word, dashed) in enumerate((("here", False), ("Rust", True))):
            y = row + 16 * k
            out.append(line([(WIDTH - RIGHT + 20, y), (WIDTH - RIGHT + 60, y)], colour, dashed))
            out.append(text(WIDTH - RIGHT + 70, y + 4, f"{spots:,} spots, {word}", "start"))
    return "\n".join(out + ["</svg>"])


with open(sys.argv[1]) as table:
    read = [{k: float(v) if k in ("here", "rust") else int(v) for k, v in r.items()} for r in csv.DictReader(table)]
print(picture(read))
