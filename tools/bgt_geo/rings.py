"""The geometry of rings on whole millimetres: turning, meeting, lying inside. All of it is exact."""
from typing import Iterable

from .text import Point, Ring, Shape, edges

Edge = tuple[Point, Point]


def doubled_area(points: tuple[Point, ...]) -> int:
    """Twice the signed area: above 0 where the ring runs counter-clockwise."""
    return sum(a[0] * b[1] - b[0] * a[1] for a, b in edges(points))


def directed(points: tuple[Point, ...], is_outer: bool) -> tuple[tuple[Point, ...], bool]:
    """The ring in the direction that the register wants, and whether it was turned. Its first corner stays the first."""
    area = doubled_area(points)
    if area == 0 or (area > 0) == is_outer:
        return points, False
    return points[:1] + points[:0:-1], True


def side(a: Point, b: Point, p: Point) -> int:
    """Above 0 where p lies left of the line from a to b, 0 where it lies on it."""
    return (b[0] - a[0]) * (p[1] - a[1]) - (b[1] - a[1]) * (p[0] - a[0])


def is_strictly_inside(p: Point, a: Point, b: Point) -> bool:
    """Whether the point lies on the side from a to b, and is no end of it."""
    return side(a, b, p) == 0 and min(a, b) < p < max(a, b)


def _is_on(p: Point, e: Edge) -> bool:
    return p in e or is_strictly_inside(p, *e)


def have_common_point(e: Edge, f: Edge) -> bool:
    """Whether the two closed sides have a common point."""
    (a, b), (c, d) = e, f
    at_c, at_d, at_a, at_b = side(a, b, c), side(a, b, d), side(c, d, a), side(c, d, b)
    if (at_c > 0 > at_d or at_c < 0 < at_d) and (at_a > 0 > at_b or at_a < 0 < at_b):
        return True
    return _is_on(c, e) or _is_on(d, e) or _is_on(a, f) or _is_on(b, f)


def meet_at_an_end_alone(e: Edge, f: Edge) -> bool:
    """Whether the one common point of two sides that have one is an end of both."""
    shared = set(e) & set(f)
    if len(shared) != 1:
        return False
    return not any(_is_on(p, e) for p in f if p not in shared) and not any(_is_on(p, f) for p in e if p not in shared)


def crossing_point(e: Edge, f: Edge) -> Point:
    """A common point of two sides that have one, to the millimetre below, for a mark in a picture."""
    for p in (*e, *f):
        if _is_on(p, e) and _is_on(p, f):
            return p
    (a, b), (c, d) = e, f
    at_c, at_d = side(a, b, c), side(a, b, d)
    return (c[0] + (d[0] - c[0]) * at_c // (at_c - at_d), c[1] + (d[1] - c[1]) * at_c // (at_c - at_d))


def _near_pairs(sides: list[Edge]) -> Iterable[tuple[int, int]]:
    """The pairs of sides whose boxes meet, the lower number first. A walk from west to east over those that reach so far."""
    boxes = [(min(a[0], b[0]), max(a[0], b[0]), min(a[1], b[1]), max(a[1], b[1])) for a, b in sides]
    reaching: list[int] = []
    for k in sorted(range(len(sides)), key=lambda it: boxes[it][0]):
        west, _, south, north = boxes[k]
        reaching = [j for j in reaching if boxes[j][1] >= west]
        for j in reaching:
            if boxes[j][2] <= north and south <= boxes[j][3]:
                yield (j, k) if j < k else (k, j)
        reaching.append(k)


def _is_next(j: int, k: int, count: int) -> bool:
    return k - j == 1 or (j == 0 and k == count - 1)


def first_meeting(points: tuple[Point, ...]) -> tuple[int, int] | None:
    """The least pair of sides of a ring that meet otherwise than as successive ones at their shared corner."""
    sides = list(edges(points))
    found = [(j, k) for j, k in _near_pairs(sides)
             if have_common_point(sides[j], sides[k])
             and not (_is_next(j, k, len(sides)) and meet_at_an_end_alone(sides[j], sides[k]))]
    return min(found, default=None)


def first_repeat(points: tuple[Point, ...]) -> int | None:
    """The first corner that equals an earlier one of its ring."""
    seen: set[Point] = set()
    for place, point in enumerate(points):
        if point in seen:
            return place
        seen.add(point)
    return None


def first_ring_meeting(shape: Shape) -> tuple[int, int, Edge, Edge] | None:
    """The least two rings that touch or cross otherwise than in corners of both, and two of their sides that do."""
    sides = [(number, e) for number, ring in enumerate(shape) for e in edges(ring.points)]
    found = [(sides[j][0], sides[k][0], sides[j][1], sides[k][1]) for j, k in _near_pairs([e for _, e in sides])
             if sides[j][0] != sides[k][0] and have_common_point(sides[j][1], sides[k][1])
             and not meet_at_an_end_alone(sides[j][1], sides[k][1])]
    return min(found, default=None)


def lies_in(point: Point, rings: Iterable[Ring], scale: int = 1) -> bool:
    """Whether a ray to the right crosses the rings oddly often. The point is given in parts of a millimetre, `scale` of them to one."""
    x, y = point
    odd = False
    for ring in rings:
        for (ax, ay), (bx, by) in edges(ring.points):
            if (ay * scale > y) != (by * scale > y):
                # (the side of the upward edge, so that no division is needed)
                left = (bx - ax) * (y - ay * scale) - (by - ay) * (x - ax * scale)
                odd ^= (left > 0) == (by > ay)
    return odd


def same_ring(p: tuple[Point, ...], q: tuple[Point, ...]) -> bool:
    """Whether two rings have the same corners in the same turn, wherever each begins."""
    if len(p) != len(q) or p[0] not in q:
        return False
    at = q.index(p[0])
    return p == q[at:] + q[:at]


def same_shape(p: Shape, q: Shape) -> bool:
    """Whether two shapes have the same rings, the holes in any order."""
    if len(p) != len(q) or not same_ring(p[0].points, q[0].points):
        return False
    left = list(q[1:])
    for ring in p[1:]:
        match = next((it for it in left if same_ring(ring.points, it.points)), None)
        if match is None:
            return False
        left.remove(match)
    return True


def box_of(points: Iterable[Point]) -> tuple[int, int, int, int]:
    """West, south, east and north of the points."""
    xs, ys = zip(*points)
    return min(xs), min(ys), max(xs), max(ys)
