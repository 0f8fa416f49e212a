"""The plane for the reference machine: edges that meet, sound shapes, and when a map is right. Integers and fractions only."""
from fractions import Fraction
from functools import lru_cache

from texts import *

class LawBroken(Exception):
    """Two ways to decide one thing differ: one of the laws would be wrong."""


# ---------------------------------------------------------------- plane


def orient(a, b, c):
    return (b[0] - a[0]) * (c[1] - a[1]) - (b[1] - a[1]) * (c[0] - a[0])


def on_edge(p, e):
    """p (whole or fractional) on the closed segment e."""
    a, b = e
    return (min(a[0], b[0]) <= p[0] <= max(a[0], b[0]) and min(a[1], b[1]) <= p[1] <= max(a[1], b[1])
            and orient(a, b, p) == 0)


def strictly_inside(p, e):
    return p != e[0] and p != e[1] and on_edge(p, e)


MANY = "many"


def common(e, f):
    """The common points of two segments: None, one point, or MANY."""
    (a, b), (c, d) = e, f
    if max(a[0], b[0]) < min(c[0], d[0]) or max(c[0], d[0]) < min(a[0], b[0]):
        return None
    if max(a[1], b[1]) < min(c[1], d[1]) or max(c[1], d[1]) < min(a[1], b[1]):
        return None
    oc, od, oa, ob = orient(a, b, c), orient(a, b, d), orient(c, d, a), orient(c, d, b)
    if oc == 0 and od == 0:
        low, high = max(min(a, b), min(c, d)), min(max(a, b), max(c, d))
        return None if low > high else low if low == high else MANY
    if (oc > 0) == (od > 0) and oc and od or (oa > 0) == (ob > 0) and oa and ob:
        return None
    for o, p in ((oc, c), (od, d), (oa, a), (ob, b)):
        if o == 0:
            return p
    t = Fraction(oa, oa - ob)
    return (a[0] + t * (b[0] - a[0]), a[1] + t * (b[1] - a[1]))


def ends_only(e, f):
    """The two have a common point only where it is an end of both."""
    p = common(e, f)
    return p is None or p is not MANY and p in e and p in f


def ring_edges(ring):
    return [(ring[k], ring[(k + 1) % len(ring)]) for k in range(len(ring))]


@lru_cache(None)
def shape_edges(shape):
    return [e for ring in shape for e in ring_edges(ring)]


def x_at(e, y):
    (ax, ay), (bx, by) = e
    return ax + (y - ay) * Fraction(bx - ax, by - ay)


def sections(edges):
    """For one height inside each strip of the plane: the crossing edges as (x, edge) by rising x.

    Strips end at the heights of vertices and of crossings, so each face of the arrangement
    has a point on one of these heights."""
    heights = {p[1] for e in edges for p in e}
    for k, e in enumerate(edges):
        for f in edges[:k]:
            p = common(e, f)
            if p is not None and p is not MANY:
                heights.add(p[1])
    heights = sorted(heights)
    for low, high in zip(heights, heights[1:]):
        y = Fraction(low + high) / 2
        yield y, sorted((x_at(e, y), k) for k, e in enumerate(edges)
                        if min(e[0][1], e[1][1]) < y < max(e[0][1], e[1][1]))


def gaps(crossings):
    """Places k such that a point off all edges lies between crossing k - 1 and crossing k."""
    return [k for k in range(1, len(crossings)) if crossings[k - 1][0] < crossings[k][0]]


def winds_within(edges, allowed):
    """Every point off the edges is wound a number of times that is in `allowed` (0 is)."""
    for _, crossings in sections(edges):
        up = [1 if edges[k][0][1] < edges[k][1][1] else -1 for _, k in crossings]
        if any(sum(up[k:]) not in allowed for k in gaps(crossings)):
            return False
    return True


# ---------------------------------------------------------------- soundness


def ring_note(number, ring):
    if len(ring) < 3:
        return "few %d" % number
    for k, p in enumerate(ring):
        if p in ring[:k]:
            return "repeat %d %d" % (number, k)
    edges, n = ring_edges(ring), len(ring)
    for i in range(n):
        for j in range(i + 1, n):
            p = common(edges[i], edges[j])
            shared = ring[j] if j == i + 1 else ring[0] if i == 0 and j == n - 1 else None
            if p is not None and p != shared:
                return "meets %d %d %d" % (number, i, j)
    return None


@lru_cache(None)
def shape_note(shape):
    """The fault of a shape by the parts of soundness in their order, or None."""
    for number, ring in enumerate(shape):
        note = ring_note(number, ring)
        if note:
            return note
    rings = [ring_edges(r) for r in shape]
    for i in range(len(rings)):
        for j in range(i + 1, len(rings)):
            if not all(ends_only(e, f) for e in rings[i] for f in rings[j]):
                return "rings %d %d" % (i, j)
    if not winds_within(shape_edges(shape), (0, 1)):
        return "wound"
    for number, edges in enumerate(rings):
        if not winds_within(edges, (0, -1) if number else (0, 1)):
            return "turned %d" % number
    return None


def box(shape):
    xs, ys = [p[0] for r in shape for p in r], [p[1] for r in shape for p in r]
    return min(xs), min(ys), max(xs), max(ys)


@lru_cache(None)
def share(a, b):
    """Some point off the edges of two sound shapes lies in both."""
    ba, bb = box(a), box(b)
    if ba[2] <= bb[0] or bb[2] <= ba[0] or ba[3] <= bb[1] or bb[3] <= ba[1]:
        return False
    edges = shape_edges(a) + shape_edges(b)
    n = len(shape_edges(a))
    for _, crossings in sections(edges):
        mine = [k < n for _, k in crossings]
        for k in gaps(crossings):
            if sum(mine[k:]) % 2 and (len(mine) - k - sum(mine[k:])) % 2:
                return True
    return False


@lru_cache(None)
def own_pair_sound(a, b):
    return all(ends_only(e, f) for e in shape_edges(a) for f in shape_edges(b)) and not share(a, b)


# ---------------------------------------------------------------- maps


def border_edges(area, parts):
    edges = [e for s in parts for e in shape_edges(s)]
    return edges + [(b, a) for s in area for a, b in shape_edges(s)]


def unnoded(edges):
    """Least vertex strictly inside a border edge, then the least such edge; or None."""
    for p in sorted({p for e in edges for p in e}):
        inside = [e for e in edges if strictly_inside(p, e)]
        if inside:
            return p, min(inside)
    return None


def unmatched(edges):
    """Least border edge that occurs twice or whose reverse does not occur; or None."""
    count = {}
    for e in edges:
        count[e] = count.get(e, 0) + 1
    wrong = [e for e in count if count[e] > 1 or (e[1], e[0]) not in count]
    return min(wrong) if wrong else None


def tiled(area, parts):
    """Each point off the border edges lies in one part where it lies in the area, else in none."""
    shapes = list(parts) + list(area)
    edges, owner = [], []
    for number, shape in enumerate(shapes):
        edges += shape_edges(shape)
        owner += [number] * len(shape_edges(shape))
    for _, crossings in sections(edges):
        holds = [False] * len(shapes)
        for k in range(len(crossings) - 1, 0, -1):
            number = owner[crossings[k][1]]
            holds[number] = not holds[number]
            if crossings[k - 1][0] < crossings[k][0]:
                wanted = 1 if any(holds[len(parts):]) else 0
                if sum(holds[:len(parts)]) != wanted:
                    return False
    return True


# ---------------------------------------------------------------- why a map is not tiled


def lies_in(p, shape):
    """The ray to the right crosses an odd number of edges, by the half-open rule."""
    odd = False
    for a, b in shape_edges(shape):
        t = (b[0] - a[0]) * (p[1] - a[1]) - (b[1] - a[1]) * (p[0] - a[0])
        if a[1] <= p[1] < b[1] and t > 0 or b[1] <= p[1] < a[1] and t < 0:
            odd = not odd
    return odd


def least_crossing(edges):
    """The least two edges that have one common point, an end of neither, the smaller edge first; or None."""
    edges = sorted(edges)
    for k, e in enumerate(edges):
        for f in edges[k + 1:]:
            p = common(e, f)
            if p is not None and p is not MANY and p not in e and p not in f:
                return e, f
    return None


ALL_HEIGHTS = 4000  # a map that is no higher than so many millimetres is looked through at each height


def first_wrong(area, parts):
    """Where no edges cross: the first point that lies in the wrong number of parts, as (x, k, number of parts, in the area).

    Its height is k / 2 with the least odd k that has such a point. Between two neighbouring vertex heights each height
    looks alike, so that the first after each vertex height is enough; of a low map all are looked at."""
    edges = border_edges(area, parts)
    heights = sorted({p[1] for e in edges for p in e})
    found = next(filter(None, (wrong_at(2 * y + 1, edges, area, parts) for y in heights[:-1])), None)
    if heights[-1] - heights[0] <= ALL_HEIGHTS:
        plain = next(filter(None, (wrong_at(k, edges, area, parts) for k in range(2 * heights[0] - 1, 2 * heights[-1] + 2, 2))), None)
        if plain != found:
            raise LawBroken(repr((area, parts)))
    return found


def wrong_at(k, edges, area, parts):
    """Of the stretches of the height k / 2 between edges the leftmost whose middle lies in the wrong number of parts, or None."""
    y = Fraction(k, 2)
    xs = sorted({x_at(e, y) for e in edges if min(e[0][1], e[1][1]) < y < max(e[0][1], e[1][1])})
    for low, high in zip(xs, xs[1:]):
        p = ((low + high) / 2, y)
        count, inside = sum(lies_in(p, s) for s in parts), any(lies_in(p, s) for s in area)
        if count != (1 if inside else 0):
            return p[0], k, count, inside
    return None
