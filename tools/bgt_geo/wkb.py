"""Polygons in the well-known binary form (OGC 06-103r4), which keeps doubles as they are."""
import struct

# A ring as its points, a polygon as its rings, all in the source's own doubles.
Doubles = list[tuple[float, float]]
Polygon = list[Doubles]

_NAMES = {1: "a point", 2: "a line", 3: "a polygon", 4: "points", 5: "lines", 6: "polygons", 7: "a collection", 8: "an arc", 9: "a curve",
          10: "a polygon with arcs", 11: "curves", 12: "polygons with arcs", 15: "a surface in space", 16: "a triangulation", 17: "a triangle"}


class NoPolygon(Exception):
    """Why a geometry gives no polygons, to stand after the name of its feature."""


def polygons_of(data: bytes) -> list[Polygon]:
    """The polygons of a geometry, without those that are empty."""
    polygons, _ = _geometry(data, 0)
    return [polygon for polygon in polygons if polygon and polygon[0]]


def _geometry(data: bytes, at: int) -> tuple[list[Polygon], int]:
    order = "<" if data[at] == 1 else ">"
    (code,) = struct.unpack_from(order + "I", data, at + 1)
    form, dimensions = code % 1000, code // 1000
    if dimensions:
        what = {1: "heights (3D)", 2: "measures (M)", 3: "heights and measures"}.get(dimensions, "more than two dimensions")
        raise NoPolygon(f"has {what}, and the register is flat: `ogr2ogr -dim XY` takes them away")
    if form == 3:
        polygon, at = _polygon(data, at + 5, order)
        return [polygon], at
    if form != 6:
        raise NoPolygon(f"is {_NAMES.get(form, 'of an unknown form')}, and objects are polygons")
    (count,) = struct.unpack_from(order + "I", data, at + 5)
    at, polygons = at + 9, []
    for _ in range(count):
        more, at = _geometry(data, at)
        polygons += more
    return polygons, at


def _polygon(data: bytes, at: int, order: str) -> tuple[Polygon, int]:
    (count,) = struct.unpack_from(order + "I", data, at)
    at, rings = at + 4, []
    for _ in range(count):
        (points,) = struct.unpack_from(order + "I", data, at)
        numbers = struct.unpack_from(f"{order}{points * 2}d", data, at + 4)
        rings.append(list(zip(numbers[::2], numbers[1::2])))
        at += 4 + points * 16
    return rings, at


def data_of(polygons: list[Polygon], is_many: bool) -> bytes:
    """A polygon, or a multipolygon of these. The rings are given without their closing points, which this form wants."""
    parts = [_polygon_data(it) for it in polygons]
    return parts[0] if not is_many else struct.pack("<BII", 1, 6, len(parts)) + b"".join(parts)


def _polygon_data(polygon: Polygon) -> bytes:
    rings = b"".join(_ring_data(it + it[:1]) for it in polygon)
    return struct.pack("<BII", 1, 3, len(polygon)) + rings


def _ring_data(points: Doubles) -> bytes:
    return struct.pack(f"<I{len(points) * 2}d", len(points), *(c for point in points for c in point))
