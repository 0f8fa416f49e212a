"""Corners on neighbours' sides: found, and put in, exactly on whole millimetres."""
from collections import defaultdict
from typing import Iterable

from .rings import is_strictly_inside
from .text import Point, edges


class Corners:
    """The corners of a map in square cells, so that those on a side are found along it."""

    def __init__(self, rings: Iterable[tuple[Point, ...]]):
        points = {point for ring in rings for point in ring}
        self.cell = _cell_size(points)
        self.cells: dict[Point, list[Point]] = defaultdict(list)
        for point in points:
            self.cells[(point[0] // self.cell, point[1] // self.cell)].append(point)

    def on(self, a: Point, b: Point) -> list[Point]:
        """The corners strictly inside the side from a to b, in its direction."""
        found = [p for cell in self._along(a, b) for p in self.cells.get(cell, ()) if is_strictly_inside(p, a, b)]
        return sorted(found, reverse=b < a)

    def _along(self, a: Point, b: Point) -> Iterable[Point]:
        """The cells that the side goes through, column by column."""
        (ax, ay), (bx, by) = sorted((a, b))
        size = self.cell
        for column in range(ax // size, bx // size + 1):
            if ax == bx:
                low, high = sorted((ay, by))
            else:
                west, east = max(ax, column * size), min(bx, (column + 1) * size)
                ends = sorted((_height(ax, ay, bx, by, west), _height(ax, ay, bx, by, east)))
                # (a height is rounded down, so the higher end may lie one above)
                low, high = ends[0], ends[1] + 1
            for row in range(low // size, high // size + 1):
                yield column, row


def _height(ax: int, ay: int, bx: int, by: int, x: int) -> int:
    return ay + (by - ay) * (x - ax) // (bx - ax)


def _cell_size(points: set[Point]) -> int:
    """About one corner a cell where they lie evenly, and at least a metre."""
    if not points:
        return 1000
    xs, ys = zip(*points)
    width, height = max(xs) - min(xs) + 1, max(ys) - min(ys) + 1
    return max(1000, int((width * height / len(points)) ** 0.5))


def with_corners(ring: tuple[Point, ...], corners: Corners) -> tuple[Point, ...]:
    """The ring with each corner that lies inside one of its sides put in there."""
    points: list[Point] = []
    for a, b in edges(ring):
        points.append(a)
        points += corners.on(a, b)
    return tuple(points)


def missing_corners(rings: list[tuple[Point, ...]]) -> int:
    """How many corners would be put into sides of these rings."""
    corners = Corners(rings)
    return sum(len(with_corners(ring, corners)) - len(ring) for ring in rings)
