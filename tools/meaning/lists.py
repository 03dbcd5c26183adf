"""What the matcher's list means, without an algorithm: docs/MATCHES.md, and crates/matching/specs/Meaning.antt for the check.

A pair (s, p) is a spot and a prediction by their places, from 0; a list of pairs is a tuple. Distances are squared ones, in IEEE doubles.
"""
import itertools


class Grid:
    """Spots and predictions, points (x, y), with the matching limit and the squared radius; and the tables of what is asked of its pairs."""

    def __init__(self, spots, predictions, limit, radius_sq):
        self.spots, self.predictions, self.limit, self.radius_sq = spots, predictions, limit, radius_sq
        self.pairs = list(itertools.product(range(len(spots)), range(len(predictions))))
        self.distances = {m: distance(self, m) for m in self.pairs}
        self.near_pairs = {m for m in self.pairs if near(self, m)}
        self.earlier_pairs = {(m, n) for m in self.pairs for n in self.pairs if earlier(self, m, n)}


def distance(grid, m):
    """The squared distance, with dx and dy from the prediction to the spot."""
    (sx, sy), (px, py) = grid.spots[m[0]], grid.predictions[m[1]]
    dx, dy = sx - px, sy - py
    return dx * dx + dy * dy


def near(grid, m):
    """The spot is within the matching limit, the prediction exists, and the distance is at most the radius; a NaN never is."""
    spot, prediction = m
    return spot < min(len(grid.spots), grid.limit) and prediction < len(grid.predictions) and grid.distances[m] <= grid.radius_sq


def earlier(grid, m, n):
    """By distance, then spot, then prediction."""
    a, b = grid.distances[m], grid.distances[n]
    return a < b or (a == b and (m[0] < n[0] or (m[0] == n[0] and m[1] < n[1])))


def same_spot(m, n):
    return m[0] == n[0]


def same_prediction(m, n):
    return m[1] == n[1]


def explains(grid, n, m):
    """n shares its spot or its prediction with m, and is earlier."""
    return (same_spot(m, n) or same_prediction(m, n)) and (n, m) in grid.earlier_pairs


def once(grid, ms):
    """No spot and no prediction is used twice."""
    return not any(same_spot(m, n) or same_prediction(m, n) for m, n in itertools.combinations(ms, 2))


def all_near(grid, ms):
    """Each pair is near."""
    return all(m in grid.near_pairs for m in ms)


def rising(grid, ms):
    """Distances do not fall along the list."""
    return all(grid.distances[m] <= grid.distances[n] for m, n in zip(ms, ms[1:]))


def explained(grid, ms):
    """Each near pair that is not in the list shares its spot or its prediction with a pair of the list that is earlier."""
    return all(m in ms or any(explains(grid, n, m) for n in ms) for m in grid.near_pairs)


FOUR = (once, all_near, rising, explained)


def ordered(grid, ms):
    """Each pair is earlier than the next."""
    return all((m, n) in grid.earlier_pairs for m, n in zip(ms, ms[1:]))


def all_lists(grid):
    """All lists that can have the four properties, and many that do not: those of pairs of places that exist, up to as many pairs as there are
    spots, or predictions if these are fewer. A longer list uses a spot or a prediction twice, so it cannot have the first property; a pair
    of a place that does not exist is not near, so a list with one cannot have the second."""
    longest = min(len(grid.spots), len(grid.predictions))
    for length in range(longest + 1):
        yield from itertools.product(grid.pairs, repeat=length)
