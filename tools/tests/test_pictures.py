"""Pictures: the whole map, and a refusal with its fault in red."""
import xml.etree.ElementTree as ET

import pytest

from bgt_geo import scene
from conftest import TOP, bgt, needs_bgt

SVG = "{http://www.w3.org/2000/svg}"


@pytest.mark.parametrize(("width", "length"), [(1, 1), (60, 20), (149, 20), (150, 50), (299_999, 50_000), (300_000, 100_000)])
def test_a_scale_bar_is_round_and_a_third_at_most(width, length):
    assert scene.bar_length(width) == length


@needs_bgt
def test_a_map_has_all_its_objects_legend_and_bar(geo, register):
    assert geo("picture", register, "--moment", "2026-11-03T12:00:00", "-o", "map.svg").status == 0
    root = ET.parse("map.svg").getroot()
    titles = [it.text for it in root.iter(f"{SVG}title")]
    assert len([it for it in titles if it.startswith("G0307.")]) == 7 and "area of G0307" in titles
    words = [it.text for it in root.iter(f"{SVG}text")]
    assert words == ["the map at 2026-11-03T12:00:00", "wegdeel", "onbegroeid_terreindeel", "pand", "10 m, EPSG:28992"]


@needs_bgt
def test_a_png_is_a_png(geo, register):
    pytest.importorskip("matplotlib")
    assert geo("picture", register, "-o", "map.png", "--holder", "G0307").status == 0
    assert open("map.png", "rb").read(8) == b"\x89PNG\r\n\x1a\n"


def test_a_refusal_is_drawn_with_its_fault_in_red(geo, tmp_path):
    pytest.importorskip("matplotlib")
    lines = (TOP / "examples" / "street.txt").read_text().split("\n")
    lines[22] = lines[13]
    (tmp_path / "s.txt").write_text("\n".join(lines))
    (tmp_path / "r.txt").write_text("1 OK\n2 E20 TILED 155020.000 463020.000 155025.000 463020.000\n3 E9 UNKNOWN 1 -\n")
    assert geo("why", "s.txt", "r.txt", "--picture", "pictures").status == 0
    assert sorted(it.name for it in (tmp_path / "pictures").iterdir()) == ["message-2.png", "message-2.svg"]
    root = ET.parse("pictures/message-2.svg").getroot()
    red = [it for it in root.iter(f"{SVG}path") if it.get("stroke") == scene.RED and it.get("stroke-width") == "4"]
    assert len(red) == 1


def test_geojson_names_the_objects_and_the_side(geo, tmp_path):
    import json
    (tmp_path / "s.txt").write_bytes((TOP / "examples" / "gap.txt").read_bytes())
    (tmp_path / "r.txt").write_bytes((TOP / "examples" / "gap.reply").read_bytes())
    assert geo("why", "s.txt", "r.txt", "--geojson", "why.geojson").status == 0
    it = json.loads((tmp_path / "why.geojson").read_text())
    assert it["crs"]["properties"]["name"] == "urn:ogc:def:crs:EPSG::28992"
    assert [each["geometry"]["coordinates"] for each in it["features"] if each["geometry"]["type"] == "LineString"] == [
        [[100005.0, 400000.0], [100006.0, 400005.0]]]
    assert {each["properties"].get("object") for each in it["features"]} == {"G0001." + "0" * 31 + "1", None}


@needs_bgt
def test_a_register_that_was_not_empty_is_read(geo, register, tmp_path):
    (tmp_path / "s.txt").write_text("BERICHT G0307 2026-11-05T09:00:00\nV G0307.00000000000000000000000000000006 2026-11-02T09:00:00 2026-11-05\nEINDE\n")
    ran = bgt("load", register, messages=(tmp_path / "s.txt").read_bytes())
    assert ran.out == "1 E20 TILED 155010.000 463020.000 155010.000 463028.000\n"
    (tmp_path / "r.txt").write_text(ran.out)
    told = geo("why", "s.txt", "r.txt", "--register", register).out
    assert "G0307.00000000000000000000000000000005 (onbegroeid_terreindeel, made before this file)" in told and "is a gap" in told


@pytest.mark.parametrize(("stream", "replies", "sentence"), [
    ("s.txt", "missing", "missing cannot be read"), ("missing", "r.txt", "missing cannot be read"),
    ("s.txt", "junk", "line 1 of junk is no reply of bgt"), ("s.txt", "more", "they do not belong together"),
    ("s.txt", "other", "does not fit the message"),
])
def test_files_that_do_not_fit(geo, tmp_path, stream, replies, sentence):
    (tmp_path / "s.txt").write_bytes((TOP / "examples" / "first-map.txt").read_bytes())
    for name, text in (("r.txt", "1 OK\n"), ("junk", "hello\n"), ("more", "1 OK\n2 OK\n"), ("other", "1 E15 SHAPE 9 wound\n")):
        (tmp_path / name).write_text(text)
    ran = geo("why", stream, replies)
    assert ran.status in (1, 2) and ran.out == "" and sentence in ran.err and ran.err.count("\n") == 1
