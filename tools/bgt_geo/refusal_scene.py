"""The picture of a refusal: the map that the message would have left, round the fault, which is red."""
import textwrap

from .rings import box_of
from .scene import (RED, Box, Circle, Frame, Path, Scene, area_path, box_of_shapes, drawing_order, meets, object_path, padded, sheet)
from .why import Explained, shown_shapes

WIDTH = 640.0


def scene_of(it: Explained) -> Scene | None:
    """The scene, or None where the refusal has no place on the map."""
    shown = shown_shapes(it)
    places = [point for side in it.fault.sides for point in side] + it.fault.points
    if it.map_after is None or not (places or shown):
        return None
    objects = {ident: each.item for ident, each in it.map_after.objects.items()}
    box = _window(box_of(places) if places else box_of_shapes([shape for _, _, shape in shown]),
                  [item.shape for item in objects.values()] + list(it.map_after.area))
    frame = Frame(box, WIDTH)
    near = {ident: item for ident, item in objects.items() if meets(box, item.shape)}
    kinds = [item.kind for item in near.values()] + [kind for _, kind, _ in shown]
    scene = sheet(frame, f"message {it.number}: {it.reply}", kinds, _notes(it))
    inside = [object_path(frame, ident, item) for ident, item in sorted(near.items(), key=lambda each: drawing_order(each[1]))]
    inside += [area_path(frame, it.message.holder, shape) for shape in it.map_after.area]
    inside += [Path(frame.runs(shape), stroke=RED, width=1.2, title=ident) for ident, _, shape in shown]
    inside += [Path([[frame.pixel(p) for p in side]], is_closed=False, stroke=RED, width=4) for side in it.fault.sides]
    inside += [Circle(*frame.pixel(point), 7, RED) for point in it.fault.points]
    scene.marks += _clipped(inside, frame)
    return scene


def _window(fault: Box, shapes: list) -> Box:
    """The box that is shown: some land round the fault, and no more than there is."""
    size = max(fault[2] - fault[0], fault[3] - fault[1])
    box = padded(fault, max(10_000, size * 3 // 4))
    if not shapes:
        return box
    whole = padded(box_of_shapes(shapes), 1000)
    return (max(box[0], min(whole[0], fault[0])), max(box[1], min(whole[1], fault[1])),
            min(box[2], max(whole[2], fault[2])), min(box[3], max(whole[3], fault[3])))


def _notes(it: Explained) -> list[str]:
    return [line for sentence in it.fault.sentences for line in textwrap.wrap(sentence, 120, subsequent_indent="   ")]


def _clipped(marks: list, frame: Frame) -> list:
    """The marks with their points held to the frame, so that nothing is drawn over the legend."""
    low, high = frame.pixel((frame.box[0], frame.box[3])), frame.pixel((frame.box[2], frame.box[1]))
    for mark in marks:
        if isinstance(mark, Path):
            mark.runs = [clipped for run in mark.runs if (clipped := _held(run, low, high, mark.is_closed))]
    return [mark for mark in marks if not isinstance(mark, Path) or mark.runs]


def _held(run: list, low: tuple, high: tuple, is_closed: bool) -> list:
    """A ring cut by the frame's four sides, one after another (Sutherland and Hodgman, 1974). A line is only held to them."""
    if not is_closed:
        return [(min(max(x, low[0]), high[0]), min(max(y, low[1]), high[1])) for x, y in run]
    for axis, bound, sign in ((0, low[0], 1), (0, high[0], -1), (1, low[1], 1), (1, high[1], -1)):
        run = _cut(run, axis, bound, sign)
    return run


def _cut(run: list, axis: int, bound: float, sign: int) -> list:
    kept = []
    for a, b in zip(run, run[1:] + run[:1]):
        at_a, at_b = sign * (a[axis] - bound), sign * (b[axis] - bound)
        if at_a >= 0:
            kept.append(a)
        if (at_a < 0) != (at_b < 0):
            part = at_a / (at_a - at_b)
            kept.append((a[0] + (b[0] - a[0]) * part, a[1] + (b[1] - a[1]) * part))
    return kept
