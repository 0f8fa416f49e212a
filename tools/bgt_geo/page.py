"""bgt-geo page: one page with the map at all moments, which needs nothing else."""
import html
import json
import os

from . import journal
from .catalogue import COLOURS, KINDS
from .millimetres import text_of
from .output import counted, tell, write_text
from .problem import USAGE, Problem
from .rings import box_of
from .scene import drawing_order
from .text import AreaVersion, Shape, Version

TEMPLATE = os.path.join(os.path.dirname(os.path.realpath(__file__)), "page.html")


def _flat(shape: Shape, west: int, north: int) -> list[list[int]]:
    """The rings in millimetres from the upper left corner, as x, y, x, y and so on: y grows downwards on a page."""
    return [[c for x, y in ring.points for c in (x - west, north - y)] for ring in shape]


def data_of(areas: list[AreaVersion], objects: list[Version], moments: list[str], name: str) -> dict:
    """What the page's script draws. Moments and holders are named by their places."""
    box = box_of(point for shape in [s for it in areas for s in it.shapes] + [it.item.shape for it in objects] for point in shape[0].points)
    west, south, east, north = box
    holders = sorted({it.holder for it in areas} | {it.holder for it in objects})
    at = {moment: place for place, moment in enumerate(moments)}
    ordered = sorted(objects, key=lambda it: (drawing_order(it.item), it.ident, it.since))
    return {
        "name": name, "moments": moments, "holders": holders, "width": east - west, "height": north - south,
        "corner": [text_of(west), text_of(north)], "kinds": [[kind, COLOURS[kind]] for kind in KINDS],
        "areas": [[holders.index(it.holder), at[it.since], at.get(it.until, -1), [_flat(s, west, north) for s in it.shapes]] for it in areas],
        "objects": [[it.ident, holders.index(it.holder), list(KINDS).index(it.item.kind), it.item.level, it.item.begin,
                     " ".join(f"{name}={code}" for name, code in it.item.attributes), at[it.since], at.get(it.until, -1), it.end or "",
                     _flat(it.item.shape, west, north)] for it in ordered],
    }


def run(file: str, out: str) -> int:
    """Writes the page."""
    if not out.lower().endswith((".html", ".htm")):
        raise Problem(f"{out} is to end in .html", USAGE)
    messages = journal.messages(file)
    areas, objects = journal.versions(messages)
    if not objects and not any(it.shapes for it in areas):
        raise Problem(f"{file} has no map at any moment")
    moments = sorted({it.moment for it in messages})
    name = os.path.basename(file)
    # (`<` is written otherwise, so that no text of the data can end the script)
    data = json.dumps(data_of(areas, objects, moments, name), separators=(",", ":")).replace("<", "\\u003c")
    with open(TEMPLATE, encoding="utf-8") as it:
        page = it.read()
    write_text(out, page.replace("{{TITLE}}", html.escape(name)).replace("{{DATA}}", data))
    tell(f"{counted(len(objects), 'version')} of {counted(len({it.ident for it in objects}), 'object')} at {counted(len(moments), 'moment')} in {out}")
    return 0
