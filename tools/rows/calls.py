# The calls of the rows: small, and together they go through several rounds, a second query, a cached one, clips, refusal 12, refusal 13, a
# plane cut that takes a direction off the cached list, the matcher without a list, and weights: both ends, powers of two, a 3, and in the last call all 1.
# usage: python3 calls.py NAME            the record of a call, for a program that answers records
#        python3 calls.py NAME answer     the model's answer to it, as such a program prints it
import sys
from model import *

SCALE = 2.0 ** -10
LEAST = 1e-12 # of the plane cut
FAINT, BRIGHT = 2.0 ** -10, 2.0 ** 10 # the least weight and the greatest
def single(v): return [nar(x) for x in v]
AHEAD = [single(r) for r in camera(0.0, 0.0, 0.0)]

# where a direction falls under the camera's rows, to a 64th of a pixel, moved by (dx, dy)
def placed(rows, v, dx=0.0, dy=0.0):
    z = dot(rows[2], v)
    return (float(round(dot(rows[0], v) / z / SCALE * 64 + dx * 64)) / 64, float(round(dot(rows[1], v) / z / SCALE * 64 + dy * 64)) / 64)

# spots at these places, with these weights
def weighted(places, weights): return [(x, y, w) for (x, y), w in zip(places, weights, strict=True)]

# The first round matches four spots, which turn the camera by 1/16; that is past the margin, so the second queries anew.
def second_query():
    dirs = [single(v) for v in ([1.0, 0.01, 0.0], [1.0, -0.008, 0.004], [1.0, 0.002, 0.011], [1.0, -0.003, -0.01])]
    rows = camera(0.0625, 0.0, 0.0)
    spots = weighted([placed(rows, v) for v in dirs] + [(60.0, 0.0)], [3.0, 0.5, 1.0, 4.0, FAINT])
    return Call(spots, dirs, [], AHEAD, SCALE, False, nar(0.001), LEAST, 5, 3, 64, 128)

# With a large radius every spot but the last goes with every direction: 16 pairs, and room for 4.
def many_pairs():
    c = second_query()
    return Call(c.spots, c.dirs, [], c.rotation, SCALE, False, nar(0.03), LEAST, 5, 2, 16, 16)

# The same with the matcher that scans, which takes of the 16 pairs without a place for any.
def no_list():
    c = many_pairs()
    return Call(c.spots, c.dirs, [], c.rotation, SCALE, False, c.radius, LEAST, 5, 2, 0, 0, scanning=True)

# The spots lie so close together that the first pass turns the camera past 1,024.
def far_turn():
    dirs = [single(v) for v in ([1.0, 0.01, 0.0], [1.0, -0.008, 0.004], [1.0, 0.002, 0.011])]
    spots = weighted([(0.0, 0.0), (2.0 ** -20, 0.0), (0.0, 2.0 ** -20)], [FAINT, 1.0, BRIGHT])
    return Call(spots, dirs, [(0, 0), (1, 1), (2, 2)], AHEAD, SCALE, False, nar(0.01), LEAST, 3, 2, 64, 128)

# Six starting matches, of which one lies three pixels off: the clip leaves five. Its spot has the least weight and so pulls least, but the clip
# takes no note of weights.
def one_clip():
    dirs = [single(v) for v in ([1.0, 0.01, 0.0], [1.0, -0.008, 0.004], [1.0, 0.002, 0.011], [1.0, -0.003, -0.01], [1.0, 0.009, 0.008],
        [1.0, -0.012, -0.002])]
    rows = camera(0.03125, 0.0, 0.0)
    off = [(0.125, 0.0), (0.0, -0.125), (-0.125, 0.0), (0.0, 0.125), (3.0, 1.0), (0.0625, -0.0625)]
    spots = weighted([placed(rows, v, *o) for v, o in zip(dirs, off)], [1.0, 3.0, 0.25, 2.0, FAINT, BRIGHT])
    return Call(spots, dirs, [(i, i) for i in range(6)], AHEAD, SCALE, True, nar(0.003), LEAST, 6, 2, 256, 512)

# No starting match. The first round matches seven spots, one of them a pixel off; the second searches by the query that is cached, its clip
# drops that match and its search finds it again. The rounds are used up, and the closing drops it, fits, and finds nothing more to clip.
def last_clip():
    dirs = [single(v) for v in ([1.0, 0.01, 0.0], [1.0, -0.008, 0.004], [1.0, 0.002, 0.011], [1.0, -0.003, -0.01], [1.0, 0.009, 0.008],
        [1.0, -0.012, -0.002], [1.0, 0.0, 0.003])]
    rows = camera(0.0078125, 0.0, 0.0)
    off = [(0.125, 0.0), (0.0, -0.125), (-0.125, 0.0), (0.0, 0.125), (0.0625, -0.0625), (1.0, 0.0), (-0.0625, 0.0625)]
    spots = weighted([placed(rows, v, *o) for v, o in zip(dirs, off)], [2.0, 3.0, 1.0, 0.5, 1.0, 0.75, 4.0])
    return Call(spots, dirs, [], AHEAD, SCALE, False, nar(0.003), LEAST, 7, 2, 64, 128)

# The last direction lies near the plane, and its denominator is the cut: it is listed, dropped, and no longer cached, and the starting match that
# names it has no residual. The other four are matched, and their fit moves the camera towards it. In the second round it passes the cut, and would
# fall on its spot; but the query is the cached one.
def grazing():
    dirs = [single(v) for v in ([1.0, 0.01, 0.0], [1.0, -0.008, 0.004], [1.0, 0.002, 0.011], [1.0, -0.003, -0.01], [0.25, 0.96875, 0.0])]
    spots = weighted([placed(AHEAD, v, -0.03125, 0.0) for v in dirs[:4]] + [(3968.0, 0.0)], [1.0] * 5)
    return Call(spots, dirs, [(4, 4)], AHEAD, SCALE, False, nar(0.001), 0.25, 5, 3, 64, 128)

CALLS = {'far_turn': far_turn, 'many_pairs': many_pairs, 'no_list': no_list, 'second_query': second_query, 'one_clip': one_clip, 'last_clip': last_clip,
    'grazing': grazing}

if __name__ == '__main__':
    c = CALLS[sys.argv[1]]()
    if sys.argv[2:] == ['answer']:
        c.run(); sys.stdout.write(c.printed())
    else: sys.stdout.buffer.write(c.record())
