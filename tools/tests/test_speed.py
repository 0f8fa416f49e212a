"""10,000 features in under 10 s of processor time, each way."""
import time

import pytest

from conftest import bgt, needs_bgt

pytest.importorskip("osgeo")
import drawn  # noqa: E402 (it needs GDAL)

SIZE = 100
LIMIT = 10.0


def cells():
    """A grid of cells with corners off the lines, so that no side is straight over several cells."""
    at = {(i, j): (155_000_000 + 10_000 * i + (i * 37 + j * 91) % 1999, 463_000_000 + 10_000 * j + (i * 53 + j * 29) % 1999)
          for i in range(SIZE + 1) for j in range(SIZE + 1)}
    for i in range(SIZE):
        for j in range(SIZE):
            yield [at[i, j], at[i, j + 1], at[i + 1, j + 1], at[i + 1, j]]
    yield ([at[i, 0] for i in range(SIZE)] + [at[SIZE, j] for j in range(SIZE)] + [at[i, SIZE] for i in range(SIZE, 0, -1)]
           + [at[0, j] for j in range(SIZE, 0, -1)])


def took(run):
    """The processor seconds of a run, which ends well."""
    began = time.process_time()
    assert run().status == 0
    return time.process_time() - began


def test_ten_thousand_features(geo):
    *rings, border = cells()
    drawn.draw("cells.gpkg", [({"identification": drawn.ident(k), **drawn.YARD}, [drawn.in_metres(ring)]) for k, ring in enumerate(rings)])
    drawn.draw_area("area.gpkg", [drawn.in_metres(border)])
    assert took(lambda: geo("messages", "cells.gpkg", "--holder", "G0307", "--moment", "2026-11-02T09:00:00", "--area", "area.gpkg", "--nodes",
                            "-o", "m.txt")) < LIMIT


@needs_bgt
def test_ten_thousand_objects_back(geo):
    test_ten_thousand_features(geo)
    with open("m.txt", "rb") as it:
        assert bgt("load", "register", messages=it.read()).out == "1 OK\n"
    assert took(lambda: geo("layers", "register", "-o", "back.gpkg")) < LIMIT
    assert took(lambda: geo("changes", "register", "back.gpkg", "--holder", "G0307", "--moment", "2026-11-03T09:00:00")) < LIMIT
    assert took(lambda: geo("picture", "register", "-o", "map.svg")) < LIMIT
    assert took(lambda: geo("page", "register", "-o", "map.html")) < LIMIT
