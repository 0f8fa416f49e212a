"""Rings on whole millimetres against plain definitions."""
from fractions import Fraction
from itertools import combinations

from hypothesis import given
from hypothesis import strategies as st

from bgt_geo import noding, rings
from bgt_geo.text import Ring, edges

POINTS = st.tuples(st.integers(0, 12), st.integers(0, 12))
RINGS = st.lists(POINTS, min_size=3, max_size=9, unique=True).map(tuple)


def common(e, f):
    """Whether two sides have a common point, by solving for it in fractions."""
    (a, b), (c, d) = e, f
    r, s = (b[0] - a[0], b[1] - a[1]), (d[0] - c[0], d[1] - c[1])
    cross = r[0] * s[1] - r[1] * s[0]
    q = (c[0] - a[0], c[1] - a[1])
    if cross:
        t, u = Fraction(q[0] * s[1] - q[1] * s[0], cross), Fraction(q[0] * r[1] - q[1] * r[0], cross)
        return 0 <= t <= 1 and 0 <= u <= 1
    if q[0] * r[1] - q[1] * r[0]:
        return False
    low, high = sorted((a, b))
    return max(low, min(c, d)) <= min(high, max(c, d))


def is_wrong(sides, j, k):
    """Whether two sides of a ring meet otherwise than as neighbours at their shared corner."""
    e, f = sides[j], sides[k]
    if not common(e, f):
        return False
    if k - j == 1 or (j == 0 and k == len(sides) - 1):
        return not rings.meet_at_an_end_alone(e, f)
    return True


@given(RINGS)
def test_the_first_meeting_is_the_least(points):
    sides = list(edges(points))
    wanted = next((pair for pair in combinations(range(len(sides)), 2) if is_wrong(sides, *pair)), None)
    assert rings.first_meeting(points) == wanted


@given(RINGS, st.booleans())
def test_a_directed_ring_has_its_direction_and_its_corners(points, is_outer):
    turned, was = rings.directed(points, is_outer)
    assert turned[0] == points[0] and sorted(turned) == sorted(points)
    area = rings.doubled_area(turned)
    assert area == 0 or (area > 0) == is_outer
    assert was == (turned != points)


@given(RINGS, st.integers(0, 8))
def test_a_ring_is_itself_wherever_it_begins(points, at):
    at %= len(points)
    assert rings.same_ring(points, points[at:] + points[:at])
    assert rings.same_shape((Ring(points),), (Ring(points[at:] + points[:at]),))
    assert not rings.same_ring(points, points[::-1])


@given(st.lists(RINGS, min_size=1, max_size=5))
def test_corners_are_put_in_exactly_where_they_lie(all_rings):
    corners = noding.Corners(all_rings)
    every = {point for ring in all_rings for point in ring}
    for ring in all_rings:
        for a, b in edges(ring):
            wanted = sorted((p for p in every if rings.is_strictly_inside(p, a, b)), reverse=b < a)
            assert corners.on(a, b) == wanted


@given(st.tuples(st.integers(0, 10**8), st.integers(0, 10**8)), st.tuples(st.integers(-99, 99), st.integers(-99, 99)).filter(any),
       st.integers(2, 3000), st.integers(1, 2999))
def test_corners_on_long_sides(start, way, steps, at):
    at %= steps
    a = start
    b = (start[0] + way[0] * steps, start[1] + way[1] * steps)
    p = (start[0] + way[0] * at, start[1] + way[1] * at)
    corners = noding.Corners([(a, b, p, (a[0] + 10**6, a[1] - 10**6))])
    assert (p in corners.on(a, b)) == (at > 0)
    assert (p in corners.on(b, a)) == (at > 0)


@given(RINGS.filter(lambda it: rings.first_meeting(it) is None), POINTS)
def test_lying_in_is_the_winding_of_a_simple_ring(points, point):
    """Against the turn of the ring seen from a point beside the lattice."""
    x, y = 2 * point[0] + 1, 2 * point[1] + 1
    doubled = [(2 * a, 2 * b) for a, b in points]
    wound = 0
    for a, b in edges(tuple(doubled)):
        at = rings.side(a, b, (x, y))
        if at == 0:
            return
        wound += (a[1] <= y < b[1] and at > 0) - (b[1] <= y < a[1] and at < 0)
    assert rings.lies_in((x, y), (Ring(points),), 2) == (wound != 0)


def test_what_why_marks_where_sides_cross():
    assert rings.crossing_point(((0, 0), (10, 10)), ((0, 10), (10, 0))) == (5, 5)
    assert rings.crossing_point(((0, 0), (10, 0)), ((10, 0), (10, 5))) == (10, 0)
