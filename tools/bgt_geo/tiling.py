"""Why a map is not tiled: corners that are missing on sides, gaps, overlaps, and what lies outside the area."""
from math import isqrt

from .fault import Fault
from .millimetres import point_text
from .noding import missing_corners
from .register import Current, HolderMap
from .rings import Edge, box_of, lies_in
from .text import Point, Ring, edges, ring_line

# So many parts of a millimetre are told apart beside a side, and so many of them the point beside it lies away.
SCALE, BESIDE = 2_000_000, 20_000
AREA = "the area"


def named(ident: str, at: Current) -> str:
    """An object as a sentence names it."""
    where = f"line {at.line}" if at.line else "made before this file"
    return f"{ident} ({at.item.kind}, {where})"


def side_text(a: Point, b: Point) -> str:
    """A side as a sentence names it."""
    return f"{point_text(a)} to {point_text(b)}"


def _rings(map_: HolderMap) -> list[tuple[str, Ring]]:
    """Each ring of the border of the map, with who has it."""
    own = [(ident, ring) for ident, it in map_.grounds().items() for ring in it.item.shape]
    return own + [(AREA, ring) for shape in map_.area for ring in shape]


def _who(map_: HolderMap, who: str) -> str:
    return AREA if who == AREA else named(who, map_.objects[who])


def explain_node(map_: HolderMap, corner: Point, side: Edge) -> Fault:
    """A corner that lies inside a side without a corner there. The side of an area is told reversed."""
    fault = Fault(points=[corner], sides=[side])
    rings = _rings(map_)
    have = sorted({who for who, ring in rings if corner in ring.points})
    fault.say(f"the corner {point_text(corner)} of {' and of '.join(_who(map_, it) for it in have)} lies inside the side "
              f"{side_text(*side)}, which has no corner there")
    for who, ring in rings:
        wanted = side[::-1] if who == AREA else side
        if wanted in set(edges(ring.points)):
            fault.say(_node_repair(map_, who, ring, wanted, corner))
            have.append(who)
    fault.idents = [it for it in have if it != AREA]
    lacking = missing_corners([ring.points for _, ring in rings])
    if lacking > 1:
        fault.say(f"{lacking} corners are missing on sides of this map in all; `bgt-geo messages --nodes` puts them in")
    return fault


def _node_repair(map_: HolderMap, who: str, ring: Ring, side: Edge, corner: Point) -> str:
    if ring.line == 0:
        change = "send its area again" if who == AREA else "change it in the same message (W)"
        return f"it is a side of {_who(map_, who)}: {change}, with {point_text(corner)} between {' and '.join(map(point_text, side))}"
    return (f"it is a side of {_who(map_, who)}: in line {ring.line} write {point_text(corner)} between "
            f"{' and '.join(map(point_text, side))}")


def _beside(a: Point, b: Point, is_left: bool) -> Point:
    """A point just beside the middle of a side, in parts of a millimetre."""
    dx, dy = b[0] - a[0], b[1] - a[1]
    length = max(1, isqrt(dx * dx + dy * dy))
    way = BESIDE if is_left else -BESIDE
    return ((a[0] + b[0]) * (SCALE // 2) - dy * way // length, (a[1] + b[1]) * (SCALE // 2) + dx * way // length)


def explain_tiled(map_: HolderMap, side: Edge) -> Fault:
    """A side without a partner, or twice in one direction: what is wrong on its left and on its right."""
    fault = Fault(sides=[side])
    fault.say(_owners(map_, side, fault))
    for is_left in (True, False):
        _explain_beside(map_, side, is_left, fault)
    return fault


def _owners(map_: HolderMap, side: Edge, fault: Fault) -> str:
    rings = _rings(map_)
    same = [who for who, ring in rings if (side[::-1] if who == AREA else side) in set(edges(ring.points))]
    back = [who for who, ring in rings if (side if who == AREA else side[::-1]) in set(edges(ring.points))]
    fault.idents += [who for who in same + back if who != AREA]
    told = f"the side {side_text(*side)} is one of {' and of '.join(_who(map_, it) for it in same)}"
    if back:
        return f"{told}; the other way round it is one of {' and of '.join(_who(map_, it) for it in back)}"
    return f"{told}; no neighbour has it the other way round"


def _explain_beside(map_: HolderMap, side: Edge, is_left: bool, fault: Fault) -> None:
    point = _beside(*side, is_left)
    is_in_area = any(lies_in(point, shape, SCALE) for shape in map_.area)
    there = sorted(ident for ident, it in map_.grounds().items() if lies_in(point, it.item.shape, SCALE))
    way = "left" if is_left else "right"
    if len(there) == int(is_in_area):
        return
    fault.idents += there
    names = [named(it, map_.objects[it]) for it in there]
    if not is_in_area:
        fault.say(f"on its {way} {' and '.join(names)} {'lie' if len(names) > 1 else 'lies'} outside the area: "
                  "make the area larger by an area block, or end the object at the border of the area")
    elif not there:
        fault.say(f"on its {way} is a gap: this land is in the area, and no object lies there; add an object, or let a neighbour reach "
                  "to this side with the same corners")
    else:
        fault.say(f"on its {way} {_overlap(map_, there)}")


def _overlap(map_: HolderMap, there: list[str]) -> str:
    """How objects overlap, and how they can be made to stand apart: by a hole, where one stands inside the other."""
    by_size = sorted(there, key=lambda it: _size(map_.objects[it]))
    upper, lower = by_size[0], by_size[-1]
    outer, shape = map_.objects[upper].item.shape[0], map_.objects[lower].item.shape
    hull = set(shape[0].points)
    if not all(p in hull or lies_in(p, shape[:1]) for p in outer.points):
        return f"{' and '.join(named(it, map_.objects[it]) for it in there)} overlap: one of them has to end where the other begins"
    told = f"two objects overlap: {named(upper, map_.objects[upper])} stands on {named(lower, map_.objects[lower])}"
    touched = next((ring for ring in (*shape[1:], shape[0]) if any(p in ring.points for p in outer.points)), None)
    if touched is None:
        hole = Ring(outer.points[:1] + outer.points[:0:-1])
        return f"{told}, which has no hole there: give it the line `{ring_line(hole, False)}`"
    where = f" in line {touched.line}" if touched.line else ""
    return f"{told}: let the {'ring' if touched is shape[0] else 'hole'} of the latter{where} go round it too"


def _size(it: Current) -> int:
    west, south, east, north = box_of(it.item.shape[0].points)
    return (east - west) * (north - south)
