"""Curves that keep away from marks. A curve is four points, as in an SVG path with C."""

BENDS = (0, 16, -16, 32, -32, 48, -48)
SWINGS = ((0.5, 0.5), (0.9, 0.3), (0.3, 0.9), (0.9, 0.9), (1.3, 0.4), (0.4, 1.3))


def clear_curve(start, end, marks, room):
    """The first curve with that much room around the marks, or the one with most."""
    best, most = None, -1.0
    for curve in curves(start, end):
        nearest = min([room] + [distance(point, mark) for point in points(curve) for mark in marks])
        if nearest > most:
            best, most = curve, nearest
        if most >= room:
            break
    return best


def curves(start, end):
    """A straight line, then bent ones, then ones that leave and arrive from the side."""
    along = end[0] - start[0], end[1] - start[1]
    length = max(1.0, distance(start, end))
    for bend in BENDS:
        side = -4 / 3 * bend * along[1] / length, 4 / 3 * bend * along[0] / length
        yield start, between(start, end, 1 / 3, side), between(start, end, 2 / 3, side), end
    for first, second in SWINGS:
        yield start, (start[0] + first * along[0], start[1]), (end[0] - second * along[0], end[1]), end


def between(start, end, part, side):
    """The point that far on the way, moved to the side."""
    return tuple(a + part * (b - a) + c for a, b, c in zip(start, end, side))


def points(curve):
    """Points along a curve."""
    for k in range(41):
        t, s = k / 40, 1 - k / 40
        yield tuple(s ** 3 * a + 3 * s * s * t * b + 3 * s * t * t * c + t ** 3 * d for a, b, c, d in zip(*curve))


def distance(one, other):
    """How far two points are from each other."""
    return ((one[0] - other[0]) ** 2 + (one[1] - other[1]) ** 2) ** 0.5


def path(curve, from_start, from_end):
    """The curve as a path, begun and ended so far from its ends."""
    start, first, second, end = curve
    ends = moved(start, first, from_start), first, second, moved(end, second, from_end)
    return 'M{} C{} {} {}'.format(*(f'{x:.1f} {y:.1f}' for x, y in ends))


def moved(point, towards, by):
    """The point moved some way towards another."""
    length = max(1.0, distance(point, towards))
    return tuple(a + by * (b - a) / length for a, b in zip(point, towards))
