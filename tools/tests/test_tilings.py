"""Random maps, drawn anyhow, become messages that are accepted, and come back."""
import os
import random
import tempfile

import pytest
from hypothesis import given, settings
from hypothesis import strategies as st

from bgt_geo import main, program, rings, text
from conftest import bgt, needs_bgt

pytest.importorskip("osgeo")
import drawn  # noqa: E402 (it needs GDAL)

pytestmark = needs_bgt
WEST, SOUTH = 155_000_000, 463_000_000
WORDS = ["--holder", "G0307", "--moment", "2026-11-02T09:00:00"]


@st.composite
def cuts(draw, west=WEST, south=SOUTH, east=WEST + 60_000, north=SOUTH + 40_000, depth=4):
    """A rectangle cut into rectangles at any millimetre: corners of one lie on sides of others."""
    if depth == 0 or draw(st.integers(0, 5)) == 0:
        return [[(west, south), (east, south), (east, north), (west, north)]]
    if draw(st.booleans()) and east - west > 2:
        at = draw(st.integers(west + 1, east - 1))
        return draw(cuts(west, south, at, north, depth - 1)) + draw(cuts(at, south, east, north, depth - 1))
    if north - south <= 2:
        return [[(west, south), (east, south), (east, north), (west, north)]]
    at = draw(st.integers(south + 1, north - 1))
    return draw(cuts(west, south, east, at, depth - 1)) + draw(cuts(west, at, east, north, depth - 1))


@st.composite
def nets(draw):
    """Cells between corners that lie up to 4 m off a grid of 10 m, in any millimetre. Neighbours share all corners."""
    columns, rows = draw(st.integers(1, 4)), draw(st.integers(1, 4))
    off = st.integers(-4000, 4000)
    at = {(i, j): (WEST + 10_000 * i + draw(off), SOUTH + 10_000 * j + draw(off)) for i in range(columns + 1) for j in range(rows + 1)}
    cells = [[at[i, j], at[i + 1, j], at[i + 1, j + 1], at[i, j + 1]] for i in range(columns) for j in range(rows)]
    border = ([at[i, 0] for i in range(columns)] + [at[columns, j] for j in range(rows)]
              + [at[i, rows] for i in range(columns, 0, -1)] + [at[0, j] for j in range(rows, 0, -1)])
    return cells, border


def shuffled(ring, seed):
    """The ring from another corner and in another direction."""
    dice = random.Random(seed)
    at = dice.randrange(len(ring))
    ring = ring[at:] + ring[:at]
    return ring[::-1] if dice.random() < 0.5 else ring


def draw_map(cells, border, seed):
    rows = [({"identification": drawn.ident(k), **drawn.YARD}, [drawn.in_metres(shuffled(cell, seed + k))]) for k, cell in enumerate(cells)]
    drawn.draw("cells.gpkg", rows)
    drawn.draw_area("area.gpkg", [drawn.in_metres(shuffled(border, seed))])


def replied(*words):
    assert main.main(["messages", "cells.gpkg", *WORDS, "--area", "area.gpkg", "-o", "m.txt", *words]) == 0
    with open("m.txt", "rb") as it:
        return bgt("load", "register", messages=it.read()).out


def in_scratch(test):
    """Each example has a folder of its own."""
    def run(*arguments):
        before = os.getcwd()
        with tempfile.TemporaryDirectory() as folder:
            os.chdir(folder)
            try:
                test(*arguments)
            finally:
                os.chdir(before)
    return run


@settings(max_examples=25)
@given(cuts(), st.integers(0, 1000))
def test_cut_rectangles_are_taken_with_nodes(cells, seed):
    @in_scratch
    def run():
        border = [(WEST, SOUTH), (WEST + 60_000, SOUTH), (WEST + 60_000, SOUTH + 40_000), (WEST, SOUTH + 40_000)]
        draw_map(cells, border, seed)
        assert replied("--nodes") == "1 OK\n"
        every = {tuple(p) for cell in cells for p in cell}
        lacks = any(rings.is_strictly_inside(p, a, b) for cell in [*cells, border] for a, b in text.edges(tuple(cell)) for p in every)
        assert replied().startswith("1 E5 STALE")
        os.remove("register")
        assert replied().startswith("1 E19 NODE" if lacks else "1 OK")
    run()


@settings(max_examples=25)
@given(nets(), st.integers(0, 1000))
def test_nets_come_back_to_the_millimetre(net, seed):
    cells, border = net
    simple = all(rings.first_meeting(tuple(it)) is None for it in (*cells, border))

    @in_scratch
    def run():
        draw_map(cells, border, seed)
        if not simple:
            assert main.main(["messages", "cells.gpkg", *WORDS, "--area", "area.gpkg", "-o", "m.txt"]) == 1
            return
        assert replied() == "1 OK\n"
        assert main.main(["layers", "register", "-o", "back.gpkg"]) == 0
        assert main.main(["messages", "back.gpkg", *WORDS, "--area", "back.gpkg", "-o", "again.txt"]) == 0
        with open("again.txt", encoding="ascii") as it:
            assert it.read() == program.ask("export", "register", "2026-11-02T09:00:00")
        assert main.main(["changes", "register", "cells.gpkg", "--holder", "G0307", "--moment", "2026-11-03T09:00:00", "-o", "none.txt"]) == 0
        assert os.path.getsize("none.txt") == 0
    run()
