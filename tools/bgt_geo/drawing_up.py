"""What `messages` and `changes` have in common: layers to a whole map of a holder, and corners put in."""
import argparse
from typing import NamedTuple

from . import mapping
from .catalogue import is_ground
from .noding import Corners, with_corners
from .output import counted, tell
from .reading import Drawn, Reader
from .text import Ring, Shape

AREA = "the area"
MOST_TOLD = 12


class Map(NamedTuple):
    """A holder's map as it was drawn; the area is None where none was given."""

    area: tuple[Shape, ...] | None
    objects: list[Drawn]


def read(words: argparse.Namespace) -> Map:
    """Reads the layers that the words name, and tells what was read."""
    reader = Reader(words.holder, words.moment, words.round, words.assume_rd)
    objects = reader.objects(words.layers, mapping.read(words.mapping))
    area = reader.area(words.area) if words.area else None
    reader.tell(objects)
    return Map(area, objects)


def noded(drawn: Map) -> Map:
    """The map with each corner that lies on a side put into that side, and tells where."""
    grounds = [it for it in drawn.objects if is_ground(it.item.kind, it.item.level)]
    rings = [ring.points for it in grounds for ring in it.item.shape]
    rings += [ring.points for shape in drawn.area or () for ring in shape]
    corners, told = Corners(rings), {}
    objects = []
    for it in drawn.objects:
        if is_ground(it.item.kind, it.item.level):
            shape = _with(it.item.shape, corners, it.ident, told)
            it = it._replace(item=it.item._replace(shape=shape))
        objects.append(it)
    area = drawn.area and tuple(_with(shape, corners, AREA, told) for shape in drawn.area)
    _tell(told)
    return Map(area, objects)


def _with(shape: Shape, corners: Corners, who: str, told: dict[str, int]) -> Shape:
    rings = tuple(Ring(with_corners(ring.points, corners)) for ring in shape)
    more = sum(len(ring.points) for ring in rings) - sum(len(ring.points) for ring in shape)
    if more:
        told[who] = told.get(who, 0) + more
    return rings


def _tell(told: dict[str, int]) -> None:
    tell(f"put in: {counted(sum(told.values()), 'corner')}" + (":" if told else ""))
    for who in list(told)[:MOST_TOLD]:
        tell(f"  {told[who]} into {who}")
    if len(told) > MOST_TOLD:
        tell(f"  and into {counted(len(told) - MOST_TOLD, 'object')} more")
