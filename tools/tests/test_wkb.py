"""The binary form, without GDAL."""
import struct

import pytest
from hypothesis import given
from hypothesis import strategies as st

from bgt_geo import wkb

NUMBERS = st.floats(allow_nan=False)
RINGS = st.lists(st.tuples(NUMBERS, NUMBERS), min_size=1, max_size=6)
POLYGONS = st.lists(RINGS, min_size=1, max_size=3)


def closed(polygons):
    return [[ring + ring[:1] for ring in polygon] for polygon in polygons]


@given(st.lists(POLYGONS, min_size=1, max_size=3))
def test_polygons_come_back(polygons):
    assert wkb.polygons_of(wkb.data_of(polygons, True)) == closed(polygons)
    assert wkb.polygons_of(wkb.data_of(polygons[:1], False)) == closed(polygons[:1])


def test_the_other_byte_order():
    data = struct.pack(">BIII6d", 0, 3, 1, 3, 0, 0, 1, 0, 0, 1)
    assert wkb.polygons_of(data) == [[[(0, 0), (1, 0), (0, 1)]]]


@pytest.mark.parametrize(("code", "told"), [(1, "a point"), (2, "a line"), (10, "arcs"), (1003, "heights"), (2003, "measures"),
                                            (3006, "heights and measures"), (77, "unknown form")])
def test_what_is_no_polygon(code, told):
    with pytest.raises(wkb.NoPolygon, match=told):
        wkb.polygons_of(struct.pack("<BII", 1, code, 0))


def test_empty_polygons_are_none():
    assert wkb.polygons_of(struct.pack("<BII", 1, 3, 0)) == []
    assert wkb.polygons_of(struct.pack("<BIIBII", 1, 6, 1, 1, 3, 0)) == []
