"""bgt-geo picture: the map of a register at a moment, as SVG or PNG."""
from . import png, program, svg
from .output import whole_file, write_text
from .problem import USAGE, Problem
from .scene import Frame, Scene, area_path, box_of_shapes, drawing_order, object_path, padded, sheet
from .text import AreaVersion, Version


def scene_of(areas: list[AreaVersion], objects: list[Version], title: str, width: float) -> Scene:
    """The scene of what holds at a moment."""
    box = box_of_shapes([shape for area in areas for shape in area.shapes] + [it.item.shape for it in objects])
    frame = Frame(padded(box, max(1, (box[2] - box[0]) // 100)), width)
    scene = sheet(frame, title, [it.item.kind for it in objects], [])
    scene.marks += [object_path(frame, it.ident, it.item) for it in sorted(objects, key=lambda it: drawing_order(it.item))]
    scene.marks += [area_path(frame, area.holder, shape) for area in areas for shape in area.shapes]
    return scene


def run(file: str, moment: str, out: str, holders: list[str], width: int) -> int:
    """Writes the picture."""
    if not out.lower().endswith((".svg", ".png")):
        raise Problem(f"{out} is to end in .svg or .png", USAGE)
    areas, objects = program.state(file, moment)
    if holders:
        areas, objects = [it for it in areas if it.holder in holders], [it for it in objects if it.holder in holders]
    if not objects and not any(area.shapes for area in areas):
        whose = f" of {' or '.join(holders)}" if holders else ""
        raise Problem(f"{file} has nothing{whose} at {moment}")
    scene = scene_of(areas, objects, f"the map at {moment}", width)
    if out.lower().endswith(".svg"):
        write_text(out, svg.text_of(scene))
        return 0
    with whole_file(out) as beside:
        png.write(scene, beside)
    return 0
