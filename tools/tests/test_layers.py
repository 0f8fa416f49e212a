"""From layers to messages and back: equal to the millimetre, and what is drawn by hand becomes right."""
import pytest

from bgt_geo import program, text
from bgt_geo.rings import same_shape
from conftest import bgt, needs_bgt

pytest.importorskip("osgeo")
import drawn  # noqa: E402 (it needs GDAL)
from drawn import HOUSE, ROAD, YARD, ident, rectangle  # noqa: E402

WORDS = ("--holder", "G0307", "--moment", "2026-11-02T09:00:00")


def answered(messages: str) -> str:
    return bgt("check", messages=messages.encode()).out


@needs_bgt
@pytest.mark.parametrize("name", ["map.gpkg", "map.geojson", "map.fgb", "map.shp", "map.gml"])
def test_layers_come_back_as_the_same_map(geo, register, name):
    assert geo("layers", register, "--moment", "2026-11-03T12:00:00", "-o", name).status == 0
    ran = geo("messages", name, "--holder", "G0307", "--moment", "2026-11-03T12:00:00", "--area", name, "-o", "m.txt")
    assert ran.status == 0, ran.err
    message = open("m.txt").read()
    assert bgt("load", "copy", messages=message.encode()).out == "1 OK\n"
    exported = bgt("export", register, "2026-11-03T12:00:00").out
    wanted, got = (text.read_message(it.split("\n")[:-1]) for it in (exported, message))
    assert same_shape(wanted.area[0], got.area[0]) and len(wanted.mutations) == len(got.mutations) == 7
    for a, b in zip(wanted.mutations, got.mutations):
        assert a.ident == b.ident and a.item._replace(shape=()) == b.item._replace(shape=()) and same_shape(a.item.shape, b.item.shape)
    if name != "map.shp":
        # (a shapefile turns rings round, so that only their first corners differ)
        assert message == exported


@needs_bgt
def test_a_layer_of_two_holders_is_that_of_the_one_who_is_named(geo, tmp_path):
    from conftest import TOP
    bgt("load", "two", messages=(TOP / "examples" / "two-holders.txt").read_bytes())
    assert geo("layers", "two", "--moment", "2024-01-01T00:00:02", "-o", "two.gpkg").status == 0
    ran = geo("messages", "two.gpkg", "--holder", "G0002", "--moment", "2024-01-01T00:00:03", "--area", "two.gpkg")
    assert ran.out.count("\nT ") == 1 and "left out: 2 features of other holders" in ran.err
    assert answered(ran.out) == "1 OK\n"


def told(ran) -> str:
    return ran.err.replace("bgt-geo: ", "")


@needs_bgt
def test_a_street_drawn_by_hand_is_taken_with_nodes_and_explained_without(geo):
    layer, area = drawn.street("street.gpkg"), drawn.street_area("area.gpkg")
    ran = geo("messages", layer, *WORDS, "--area", area, "--nodes")
    assert ran.status == 0 and answered(ran.out) == "1 OK\n"
    assert "turned: 5 outer rings to run counter-clockwise, 1 hole clockwise" in ran.err
    assert "put in: 6 corners:" in ran.err and "5 into the area" in ran.err and f"1 into {ident(1)}" in ran.err
    without = geo("messages", layer, *WORDS, "--area", area, "-o", "m.txt")
    assert without.status == 0
    reply = answered(open("m.txt").read())
    assert reply == "1 E19 NODE 155000.000 463010.000 155000.000 463000.000 155000.000 463030.000\n"
    open("r.txt", "w").write(reply)
    why = geo("why", "m.txt", "r.txt").out
    assert "in line 3 write 155000.000 463010.000 between 155000.000 463030.000 and 155000.000 463000.000" in why
    assert "6 corners are missing on sides of this map in all; `bgt-geo messages --nodes` puts them in" in why


@needs_bgt
def test_a_house_on_a_yard_without_a_hole_is_explained(geo):
    layer, area = drawn.street("street.gpkg", with_hole=False), drawn.street_area("area.gpkg")
    geo("messages", layer, *WORDS, "--area", area, "--nodes", "-o", "m.txt")
    reply = answered(open("m.txt").read())
    assert reply.startswith("1 E20 TILED ")
    open("r.txt", "w").write(reply)
    why = geo("why", "m.txt", "r.txt").out
    assert f"{ident(5)} (pand, line 12) stands on {ident(4)} (onbegroeid_terreindeel, line 10), which has no hole there: give it the line `GAT 1550" in why


def test_a_mapping_makes_fields_of_columns_and_values(geo):
    columns = {"nr": int, "soort": str, "hoogte": int, "sinds": str}
    drawn.draw("roads.gpkg", [({"nr": 7, "soort": "stoep", "sinds": "2026-10-01T08:00:00"}, [rectangle(155000, 463000, 155010, 463010)]),
                              ({"nr": 8, "soort": "brug", "hoogte": 1}, [rectangle(155000, 463010, 155010, 463020)])], "wegen", columns)
    open("m.toml", "w").write("""
[layer.wegen]
identification = { column = "nr", pad = true }
kind = { value = "wegdeel" }
level = "hoogte"
begin = { column = "sinds", missing = "2026-11-01" }
functie = { column = "soort", values = { stoep = "voetpad", brug = "fietspad" } }
fysiekVoorkomen = { value = "open_verharding" }
""")
    ran = geo("messages", "roads.gpkg", *WORDS, "--mapping", "m.toml")
    assert ran.status == 0, ran.err
    assert ran.out.split("\n")[1] == f"T {ident(7)} wegdeel 0 2026-10-01 functie=voetpad fysiekVoorkomen=open_verharding"
    assert ran.out.split("\n")[3] == f"T {ident(8)} wegdeel 1 2026-11-01 functie=fietspad fysiekVoorkomen=open_verharding"
    assert "not given: level of 1 object; taken is 0" in ran.err


@pytest.mark.parametrize(("toml", "status", "sentence"), [
    ("layer = 1", 2, "is to have tables [layer.NAME]"), ("[layers.x]\nkind='a'", 2, "and no layers"), ("[layer.x]\nsoort='a'", 2, "has soort, and the fields"),
    ("[layer.x]\nkind=1", 2, "a column's name"), ("[layer.x.kind]\ncolumn='a'\nvalue='b'", 2, "one of the two"), ("[layer", 2, "is no TOML"),
    ("[layer.x.kind]\nvaleu='b'", 2, "valeu is not understood"), ("[layer.other]\nkind='a'", 1, "has no object of G0307"),
])
def test_a_mapping_that_is_wrong_is_told(geo, toml, status, sentence):
    drawn.street("street.gpkg")
    open("m.toml", "w").write(toml)
    ran = geo("messages", "street.gpkg", *WORDS, "--mapping", "m.toml")
    assert (ran.status, ran.out) == (status, "") and sentence in ran.err and "\n" not in told(ran).strip()


SQUARE = rectangle(155000, 463000, 155010, 463010)


def one(columns=None, ring=SQUARE, *holes, name=None):
    """A layer of one road, with some of its columns changed."""
    return drawn.draw("one.gpkg", [({"identification": ident(1), **ROAD, **(columns or {})}, [ring, *holes])])



@pytest.mark.parametrize(("columns", "rings", "sentence"), [
    ({}, [[(155000.0005, 463000), *SQUARE[1:]]], "has a corner that is not on the millimetre: 155000.0005 463000.0; --round rounds such corners"),
    ({}, [[(155000, 463000), (155010, 463010), (155010, 463000), (155000, 463010)]], "its outer ring crosses or touches itself near 155005.000 463005.000"),
    ({}, [SQUARE[:1] + SQUARE[:1] + SQUARE[1:]], "its outer ring comes to 155000.000 463000.000 twice"),
    ({}, [[(155000, 463000), (155010, 463010)]], "its outer ring has fewer than three corners"),
    ({}, [SQUARE, rectangle(155000, 463002, 155004, 463004)], "its rings 0 and 1 meet near 155000.000 463002.000"),
    ({}, [rectangle(5.1, 52.1, 5.2, 52.2)], "outside of the grid's bounds"),
    ({}, [[(y, x) for x, y in SQUARE]], "x and y are in the wrong order perhaps"),
    ({"identification": "7"}, [SQUARE], "`pad = true` in the mapping puts zeros before a shorter one"),
    ({"identification": "G0001." + "0" * 32}, [SQUARE], "and the message is one of G0307"),
    ({"kind": "gebouw"}, [SQUARE], "has the kind gebouw, which is none: translate it by `values` in the mapping"),
    ({"begin": "1 november"}, [SQUARE], "has the begin day 1 november, which is no day"),
    ({"functie": "rijbaan lokale weg"}, [SQUARE], "which is no code of letters, digits, _ and -: translate it by `values`"),
    ({"level": 1000}, [SQUARE], "has the level 1000, which is no whole number of at most three digits"),
])
def test_what_is_not_right_is_told_by_feature(geo, columns, rings, sentence):
    one(columns, *rings)
    ran = geo("messages", "one.gpkg", *WORDS, "-o", "m.txt")
    assert ran.status == 1 and ran.err.startswith("bgt-geo: feature 1 of objects") and sentence in ran.err
    assert not __import__("os").path.exists("m.txt")


def test_layers_that_the_mapping_does_not_name_are_told(geo):
    drawn.street("street.gpkg")
    one()
    open("m.toml", "w").write('[layer.other]\nkind = "kind"\n')
    drawn.draw("other.gpkg", [({"identification": ident(9), **ROAD}, [SQUARE])], "other")
    ran = geo("messages", "street.gpkg", "other.gpkg", *WORDS, "--mapping", "m.toml")
    assert ran.status == 0 and ran.out.count("\nT ") == 1 and "left out: 1 layer that the mapping does not name: objects" in ran.err


def test_rounding_is_asked_for_and_told(geo):
    one({}, [(155000.0004, 463000), *SQUARE[1:]])
    ran = geo("messages", "one.gpkg", *WORDS, "--round")
    assert ran.status == 0 and "RING 155000.000 463000.000 155010.000" in ran.out and "rounded: 1 corner, by 0.400000 mm at most" in ran.err


@pytest.mark.parametrize("number", [float("nan"), float("inf")])
def test_a_coordinate_that_is_no_number(number):
    from bgt_geo.reading import Reader
    reader = Reader("G0307", "2026-11-02T09:00:00", may_round=True)
    assert reader._shape([[(number, 463000.0), *SQUARE[1:]]], "feature 1 of odd") == ()
    assert reader.faults[0].startswith("feature 1 of odd has a coordinate that is no number of metres: ")


def shaped(path, geometry: str, epsg: int | None = 28992, columns=("identification",)):
    """A layer of one geometry in well-known text."""
    from osgeo import gdal, ogr, osr
    data = gdal.GetDriverByName("GPKG").Create(str(path), 0, 0, 0, gdal.GDT_Unknown)
    grid = None
    if epsg:
        grid = osr.SpatialReference()
        grid.ImportFromEPSG(epsg)
    layer = data.CreateLayer("odd", grid, ogr.wkbUnknown)
    for name in columns:
        layer.CreateField(ogr.FieldDefn(name, ogr.OFTString))
    for each in geometry.split(";") if geometry else ():
        feature = ogr.Feature(layer.GetLayerDefn())
        if each != "NONE":
            feature.SetGeometry(ogr.CreateGeometryFromWkt(each))
        layer.CreateFeature(feature)
    del layer, data
    return path


FLAT = "POLYGON((155000 463000,155010 463000,155010 463010,155000 463000))"


@pytest.mark.parametrize(("geometry", "epsg", "columns", "sentence"), [
    (FLAT, 28992, (), "has no column identification for the identification, it has no columns: name one by --mapping"),
    (FLAT, 28992, ("naam",), "has no column identification for the identification, it has naam: name one by --mapping"),
    (FLAT, 28992, ("identification",), "has no column kind for the kind"),
    (FLAT, 4326, ("identification", "kind"), "is in EPSG:4326, and the register is in EPSG:28992: `ogr2ogr -t_srs EPSG:28992` makes it so"),
    (FLAT, None, ("identification", "kind"), "does not say in which grid its coordinates are"),
    ("", 28992, ("identification", "kind"), "has no object of G0307"),
    (FLAT + ";POINT(155000 463000)", 28992, ("identification", "kind"), "feature 2 of odd is a point, and objects are polygons"),
    ("POLYGON Z((155000 463000 1,155010 463000 1,155010 463010 1,155000 463000 1))", 28992, ("identification", "kind"), "feature 1 of odd has heights (3D)"),
    ("CURVEPOLYGON(CIRCULARSTRING(155000 463000,155010 463010,155000 463000))", 28992, ("identification", "kind"), "feature 1 of odd has arcs"),
    ("MULTIPOLYGON(((155000 463000,155010 463000,155010 463010,155000 463000)),((155020 463000,155030 463000,155030 463010,155020 463000)))", 28992,
     ("identification", "kind"), "feature 1 of odd has 2 parts, and an object has one outer ring"),
    ("POLYGON EMPTY", 28992, ("identification", "kind"), "feature 1 of odd has no geometry"),
    ("NONE", 28992, ("identification", "kind"), "feature 1 of odd has no geometry"),
])
def test_odd_layers_are_told(geo, geometry, epsg, columns, sentence):
    shaped("odd.gpkg", geometry, epsg, columns)
    ran = geo("messages", "odd.gpkg", *WORDS)
    assert (ran.status, ran.out) == (1, "") and sentence in ran.err


def test_a_curve_of_straight_pieces_is_a_polygon(geo):
    shaped("straight.gpkg", FLAT.replace("POLYGON((", "CURVEPOLYGON(COMPOUNDCURVE((").replace("))", ")))"), columns=("identification", "kind"))
    from osgeo import gdal
    data = gdal.OpenEx("straight.gpkg", gdal.OF_VECTOR | gdal.OF_UPDATE)
    data.ExecuteSQL(f"UPDATE odd SET identification = '{ident(1)}', kind = 'pand'")
    del data
    ran = geo("messages", "straight.gpkg", *WORDS)
    assert ran.status == 0 and "RING 155000.000 463000.000 155010.000 463000.000 155010.000 463010.000\n" in ran.out


@pytest.mark.parametrize(("words", "status", "sentence"), [
    (("messages", "missing.gpkg", *WORDS), 2, "missing.gpkg cannot be opened"),
    (("messages", "one.gpkg|layername=two", *WORDS), 2, "one.gpkg has no layer two; it has objects"),
    (("messages", "one.gpkg", *WORDS, "-o", "no/such/m.txt"), 2, "no/such/m.txt cannot be written"),
    (("messages", "one.gpkg", "--holder", "307", "--moment", "2026-11-02T09:00:00"), 2, "'307' is no holder"),
    (("messages", "one.gpkg", "--holder", "G0307", "--moment", "2026-11-02"), 2, "'2026-11-02' is no moment"),
    (("messages", "junk", *WORDS), 2, "junk cannot be opened"),
])
def test_words_and_files_that_are_not_right(geo, words, status, sentence):
    one()
    open("junk", "w").write("no layer")
    ran = geo(*words)
    assert ran.status == status and sentence in ran.err and "usage" not in ran.err


def test_the_same_identification_twice_names_both_features(geo):
    drawn.draw("twice.gpkg", [({"identification": ident(1), **ROAD}, [SQUARE]),
                              ({"identification": ident(1), **YARD}, [rectangle(155010, 463000, 155020, 463010)])])
    assert f"feature 2 of objects has the identification {ident(1)}, as feature 1 of objects has" in geo("messages", "twice.gpkg", *WORDS).err


def test_many_faults_are_counted_past_the_first(geo):
    drawn.draw("bad.gpkg", [({"identification": ident(k), **HOUSE}, [[(155000.0005, 463000), *SQUARE[1:]]]) for k in range(40)])
    ran = geo("messages", "bad.gpkg", *WORDS)
    assert ran.status == 1 and ran.err.count("\n") == 26 and "and 15 more" in ran.err


@needs_bgt
def test_what_layers_writes_is_in_the_national_grid_with_a_style(geo, register):
    from osgeo import gdal
    assert geo("layers", register, "--moment", "2026-11-03T12:00:00", "-o", "map.gpkg").status == 0
    data = gdal.OpenEx("map.gpkg", gdal.OF_VECTOR)
    names = [data.GetLayer(k).GetName() for k in range(data.GetLayerCount())]
    assert names == ["gebied", "wegdeel", "onbegroeid_terreindeel", "pand", "layer_styles"]
    assert all(data.GetLayerByName(name).GetSpatialRef().GetAuthorityCode(None) == "28992" for name in names[:4])
    assert data.GetLayerByName("layer_styles").GetFeatureCount() == 4
    assert 'attr="kind"' in open("map.qml").read()
    assert sorted(__import__("os").listdir(".")) == ["map.gpkg", "map.qml", "register"]


@needs_bgt
@pytest.mark.parametrize(("words", "sentence"), [
    (("layers", "register", "--moment", "2020-01-01T00:00:00", "-o", "x.gpkg"), "has nothing at 2020-01-01T00:00:00"),
    (("layers", "register", "-o", "x.doc"), "the ending of x.doc names no format"),
    (("layers", "register", "-o", "x.gpkg", "--format", "Nothing"), "OGR cannot write a format Nothing"),
    (("layers", "missing", "-o", "x.gpkg"), "missing is missing, or is no file"),
    (("layers", "junk", "-o", "x.gpkg"), "junk is no register"),
    (("layers", "damaged", "-o", "x.gpkg"), "damaged is damaged at byte "),
    (("picture", "damaged", "-o", "x.svg"), "damaged is damaged at byte "),
    (("page", "damaged", "-o", "x.html"), "damaged is damaged at byte "),
    (("picture", "register", "-o", "x.jpg"), "x.jpg is to end in .svg or .png"),
    (("page", "register", "-o", "x.txt"), "x.txt is to end in .html"),
    (("picture", "register", "-o", "x.svg", "--holder", "G0001"), "has nothing of G0001"),
])
def test_registers_and_outputs_that_are_not_right(geo, register, words, sentence):
    open("junk", "w").write("no register at all")
    data = bytearray(register.read_bytes())
    data[-2] ^= 1
    open("damaged", "wb").write(data)
    ran = geo(*words)
    assert ran.status in (1, 2) and sentence in ran.err and ran.err.count("\n") == 1
    assert not [it for it in __import__("os").listdir(".") if it.startswith(("x", ".x"))]


def test_nothing_is_left_where_a_write_fails(geo, monkeypatch):
    from bgt_geo import output
    with pytest.raises(KeyError), output.whole_file("out.txt") as beside:
        open(beside, "w").write("half")
        raise KeyError
    assert __import__("os").listdir(".") == []


def test_the_state_is_read_as_it_is_printed():
    areas, objects = text.read_state(
        "GEBIED G0001 2024-01-01T00:00:01 -\nRING 1.000 2.000 3.000 2.000 3.000 4.000\nGAT 1.500 2.500 1.600 2.600 1.700 2.500\n"
        "OBJECT G0001 2024-01-01T00:00:01 2024-01-01T00:00:02 2024-01-01\n"
        f"T G0001.{'0' * 32} pand -1 2024-01-01 bagpnd=0000100000000001\nRING 1.000 2.000 3.000 2.000 3.000 4.000\n")
    assert [(it.holder, it.until, len(it.shapes[0])) for it in areas] == [("G0001", None, 2)]
    assert [(it.end, it.item.level, it.item.attributes) for it in objects] == [("2024-01-01", -1, (("bagpnd", "0000100000000001"),))]
    assert program.path
