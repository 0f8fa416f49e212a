"""bgt-geo layers: the state of a register at a moment as layers of a GIS."""
import os

from . import ogr_layers, program, style
from .catalogue import AREA, KINDS
from .forms import LAST
from .millimetres import metres
from .ogr_layers import Table
from .output import counted, tell, whole_file, write_text
from .problem import Problem
from .text import AreaVersion, Shape, Version
from .wkb import Polygon

OBJECT_COLUMNS = {"identification": str, "holder": str, "kind": str, "level": int, "begin": str, "endday": str, "since": str, "until": str,
                  "functie": str, "fysiekVoorkomen": str, "type": str, "bagpnd": str}
AREA_COLUMNS = {"holder": str, "kind": str, "since": str, "until": str}


def polygon_of(shape: Shape) -> Polygon:
    """The rings of a shape in metres."""
    return [[(metres(x), metres(y)) for x, y in ring.points] for ring in shape]


def object_row(it: Version) -> tuple[dict[str, object], list[Polygon]]:
    """The columns of an object's version."""
    item = it.item
    values = {"identification": it.ident, "holder": it.holder, "kind": item.kind, "level": item.level, "begin": item.begin, "endday": it.end,
              "since": it.since, "until": it.until, **dict(item.attributes)}
    return values, [polygon_of(item.shape)]


def area_rows(area: AreaVersion) -> list[tuple[dict[str, object], list[Polygon]]]:
    """A row for each shape of an area."""
    values = {"holder": area.holder, "kind": AREA, "since": area.since, "until": area.until}
    return [(values, [polygon_of(shape)]) for shape in area.shapes]


def tables_of(areas: list[AreaVersion], objects: list[Version], are_many: bool) -> list[Table]:
    """A layer for the areas and one for each kind that there is, or all in one where the format has one layer."""
    area = Table(AREA, AREA_COLUMNS, [row for each in areas for row in area_rows(each)])
    if not are_many:
        return [Table("map", OBJECT_COLUMNS, area.rows + [object_row(it) for it in objects])]
    kinds = {kind: Table(kind, OBJECT_COLUMNS) for kind in KINDS}
    for it in objects:
        kinds[it.item.kind].rows.append(object_row(it))
    return [table for table in (area, *kinds.values()) if table.rows]


def run(file: str, moment: str, out: str, format_name: str | None) -> int:
    """Writes the layers, and a style for QGIS beside them."""
    driver = ogr_layers.driver_of(out, format_name)
    areas, objects = program.state(file, moment)
    tables = tables_of(areas, objects, ogr_layers.has_many_layers(driver))
    if not any(table.rows for table in tables):
        raise Problem(f"{file} has nothing at {moment if moment != LAST else 'any moment that lasts'}")
    styles = {table.name: style.qml() for table in tables}
    with whole_file(out) as beside:
        ogr_layers.write(beside, driver, tables, styles)
    beside_it = os.path.splitext(out)[0] + ".qml"
    write_text(beside_it, style.qml())
    tell(f"{counted(len(objects), 'object')} and {counted(sum(len(it.shapes) for it in areas), 'shape')} of areas in "
         f"{counted(len(tables), 'layer')} of {out} ({driver}); the style is {beside_it}")
    return 0
