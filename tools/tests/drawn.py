"""Layers as a GIS would draw them, for the tests."""
from bgt_geo import ogr_layers
from bgt_geo.millimetres import metres

ROAD = {"kind": "wegdeel", "level": 0, "begin": "2026-11-01", "functie": "rijbaan_lokale_weg", "fysiekVoorkomen": "open_verharding"}
YARD = {"kind": "onbegroeid_terreindeel", "level": 0, "begin": "2026-11-01", "fysiekVoorkomen": "erf"}
HOUSE = {"kind": "pand", "level": 0, "begin": "2026-11-01"}
COLUMNS = {"identification": str, "kind": str, "level": int, "begin": str, "functie": str, "fysiekVoorkomen": str, "type": str, "bagpnd": str}


def ident(number: int) -> str:
    return f"G0307.{number:032d}"


def rectangle(west: float, south: float, east: float, north: float, clockwise: bool = False):
    """A ring of four corners; QGIS keeps outer rings clockwise."""
    ring = [(west, south), (east, south), (east, north), (west, north)]
    return ring[::-1] if clockwise else ring


def draw(path, rows, name="objects", columns=None, format_name="GPKG"):
    """Writes rows of columns and polygons as one layer."""
    table = ogr_layers.Table(name, COLUMNS if columns is None else columns, [(values, [polygon]) for values, polygon in rows])
    ogr_layers.write(str(path), format_name, [table])
    return path


def draw_area(path, *polygons):
    """Writes the layer of an area."""
    return draw(path, [({"holder": "G0307"}, polygon) for polygon in polygons], "gebied", {"holder": str})


def in_metres(ring):
    return [(metres(x), metres(y)) for x, y in ring]


def street(path, with_hole=True):
    """A street as it is drawn by hand: rings in any direction, no corner where only a neighbour has one."""
    hole = [rectangle(155010, 463020, 155020, 463028)] if with_hole else []
    return draw(path, [
        ({"identification": ident(1), **ROAD}, [rectangle(155000, 463010, 155040, 463016, True)]),
        ({"identification": ident(2), **YARD}, [rectangle(155000, 463000, 155020, 463010)]),
        ({"identification": ident(3), **YARD}, [rectangle(155020, 463000, 155040, 463010, True)]),
        ({"identification": ident(4), **YARD}, [rectangle(155000, 463016, 155040, 463030, True), *hole]),
        ({"identification": ident(5), **HOUSE, "bagpnd": "0307100000000001"}, [rectangle(155010, 463020, 155020, 463028, True)]),
    ])


def street_area(path):
    return draw_area(path, [rectangle(155000, 463000, 155040, 463030, True)])
