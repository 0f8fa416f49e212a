"""The difference between a register and layers, as a message that the register takes."""
import pytest

from conftest import bgt, needs_bgt

pytest.importorskip("osgeo")
import drawn  # noqa: E402 (it needs GDAL)
from drawn import HOUSE, ROAD, YARD, ident, rectangle  # noqa: E402

pytestmark = needs_bgt
WORDS = ("--holder", "G0307", "--nodes", "--area", "area.gpkg")


def loaded(geo, name="register"):
    """A register of the street that is drawn by hand."""
    drawn.street("street.gpkg")
    drawn.street_area("area.gpkg")
    geo("messages", "street.gpkg", *WORDS, "--moment", "2026-11-02T09:00:00", "-o", "m.txt")
    assert bgt("load", name, messages=open("m.txt", "rb").read()).out == "1 OK\n"
    return name


def changed(geo, *words):
    """The lines T, W and V of the message, what was told, and what bgt answers to it."""
    ran = geo("changes", "register", "new.gpkg", *WORDS, "--moment", "2026-11-03T09:00:00", *words)
    assert ran.status == 0, ran.err
    lines = [it for it in ran.out.split("\n") if it.startswith(("T ", "W ", "V ", "GEBIED"))]
    return lines, ran.err, bgt("load", "register", messages=ran.out.encode()).out


def test_the_same_layer_is_no_message(geo):
    loaded(geo)
    drawn.street("new.gpkg")
    lines, told, reply = changed(geo)
    assert lines == [] and reply == "" and "nothing differs, so there is no message" in told


def test_what_layers_wrote_is_no_message(geo):
    loaded(geo)
    geo("layers", "register", "-o", "new.gpkg")
    ran = geo("changes", "register", "new.gpkg", "--holder", "G0307", "--moment", "2026-11-03T09:00:00", "--area", "new.gpkg")
    assert ran.out == "" and "5 as before; the area as before" in ran.err


def test_a_split_a_change_and_an_end(geo):
    loaded(geo)
    drawn.draw("new.gpkg", [
        ({"identification": ident(1), **ROAD, "functie": "fietspad"}, [rectangle(155000, 463010, 155040, 463016)]),
        ({"identification": ident(2), **YARD}, [rectangle(155000, 463000, 155040, 463010)]),
        ({"identification": ident(4), **YARD}, [rectangle(155000, 463016, 155030, 463030), rectangle(155010, 463020, 155020, 463028)]),
        ({"identification": ident(5), **HOUSE, "bagpnd": "0307100000000001"}, [rectangle(155010, 463020, 155020, 463028)]),
        ({"identification": ident(6), **YARD}, [rectangle(155030, 463016, 155040, 463030)]),
    ])
    lines, told, reply = changed(geo, "--end", "2026-11-02")
    assert lines == ["GEBIED", f"V {ident(3)} 2026-11-02T09:00:00 2026-11-02",
                     f"W {ident(1)} 2026-11-02T09:00:00 wegdeel 0 2026-11-01 functie=fietspad fysiekVoorkomen=open_verharding",
                     f"W {ident(2)} 2026-11-02T09:00:00 onbegroeid_terreindeel 0 2026-11-01 fysiekVoorkomen=erf",
                     f"W {ident(4)} 2026-11-02T09:00:00 onbegroeid_terreindeel 0 2026-11-01 fysiekVoorkomen=erf",
                     f"T {ident(6)} onbegroeid_terreindeel 0 2026-11-01 fysiekVoorkomen=erf"]
    assert reply == "1 OK\n" and "1 new, 3 changed, 1 ended, 1 as before; the area of 1 shape" in told


def test_what_a_layer_does_not_say_stays_as_it_was(geo):
    loaded(geo)
    columns = {"identification": str, "kind": str, "functie": str, "fysiekVoorkomen": str}
    rows = [
        ({"identification": ident(1), **ROAD}, [rectangle(155000, 463010, 155040, 463016)]),
        ({"identification": ident(2), **YARD}, [rectangle(155000, 463000, 155020, 463010)]),
        ({"identification": ident(3), **YARD}, [rectangle(155020, 463000, 155040, 463010)]),
        ({"identification": ident(4), **YARD}, [rectangle(155000, 463016, 155040, 463030), rectangle(155010, 463020, 155020, 463028)]),
        ({"identification": ident(5), **HOUSE}, [rectangle(155010, 463020, 155020, 463028)]),
    ]
    drawn.draw("new.gpkg", [({name: it[name] for name in columns if name in it}, polygon) for it, polygon in rows], columns=columns)
    lines, told, _ = changed(geo)
    assert lines == [] and "nothing differs" in told


def test_another_kind_is_told(geo):
    loaded(geo)
    drawn.draw("new.gpkg", [({"identification": ident(5), **YARD}, [rectangle(155010, 463020, 155020, 463028)])])
    ran = geo("changes", "register", "new.gpkg", "--holder", "G0307", "--moment", "2026-11-03T09:00:00")
    assert (ran.status, ran.out) == (1, "")
    assert f"feature 1 of objects is a onbegroeid_terreindeel, and {ident(5)} is a pand: an object keeps its kind" in ran.err
