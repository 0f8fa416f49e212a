"""A map picture as marks on a sheet of pixels, so that SVG and PNG show the same."""
from dataclasses import dataclass, field
from typing import Iterable

from .catalogue import COLOURS, DIVIDING, KINDS
from .rings import box_of
from .text import Item, Point, Shape

Box = tuple[int, int, int, int]

INK, FAINT, RED = "#333333", "#777777", "#d40000"
MARGIN, LEGEND, HEAD, FOOT, LINE = 16, 210, 34, 44, 17
HIGHEST = 1400.0


@dataclass
class Path:
    """Lines through pixels, filled where there is a fill."""

    runs: list[list[tuple[float, float]]]
    is_closed: bool = True
    fill: str | None = None
    stroke: str | None = INK
    width: float = 0.8
    opacity: float = 1.0
    title: str = ""


@dataclass
class Circle:
    """A mark at a point."""

    x: float
    y: float
    radius: float
    stroke: str


@dataclass
class Words:
    """A line of text, its foot at y."""

    x: float
    y: float
    text: str
    size: int = 12
    colour: str = INK


@dataclass
class Scene:
    """A sheet with its marks in the order in which they are drawn."""

    width: float
    height: float
    marks: list[Path | Circle | Words] = field(default_factory=list)


class Frame:
    """The part of the sheet that has the map, and where a point of the map lies on it."""

    def __init__(self, box: Box, width: float):
        west, south, east, north = box
        self.west, self.north = west, north
        self.factor = min(width / max(east - west, 1), HIGHEST / max(north - south, 1))
        self.width, self.height = (east - west) * self.factor, (north - south) * self.factor
        self.box = box

    def pixel(self, point: Point) -> tuple[float, float]:
        """Where a point of the map lies on the sheet."""
        return MARGIN + (point[0] - self.west) * self.factor, HEAD + (self.north - point[1]) * self.factor

    def runs(self, shape: Shape) -> list[list[tuple[float, float]]]:
        """The rings of a shape on the sheet."""
        return [[self.pixel(point) for point in ring.points] for ring in shape]


def padded(box: Box, by: int) -> Box:
    """The box with so many millimetres more on each side."""
    west, south, east, north = box
    return west - by, south - by, east + by, north + by


def meets(box: Box, shape: Shape) -> bool:
    """Whether the box of a shape meets the box."""
    west, south, east, north = box_of(shape[0].points)
    return west <= box[2] and box[0] <= east and south <= box[3] and box[1] <= north


def box_of_shapes(shapes: Iterable[Shape]) -> Box:
    """The box of all shapes."""
    return box_of(point for shape in shapes for point in shape[0].points)


def drawing_order(item: Item) -> tuple[int, int]:
    """Low levels first; what divides the ground before what lies on it."""
    return item.level, list(KINDS).index(item.kind)


def object_path(frame: Frame, ident: str, item: Item) -> Path:
    """An object in the colour of its kind. What is not of the ground lets the ground shine through."""
    is_over = item.level != 0 or item.kind not in DIVIDING
    words = " ".join(f"{name}={code}" for name, code in item.attributes)
    title = f"{ident} {item.kind} {words}".strip() + (f", level {item.level}" if item.level else "")
    return Path(frame.runs(item.shape), fill=COLOURS[item.kind], width=0.7, opacity=0.6 if is_over else 1.0, title=title)


def area_path(frame: Frame, holder: str, shape: Shape) -> Path:
    """The border of an area."""
    return Path(frame.runs(shape), stroke="#111111", width=2.2, title=f"area of {holder}")


def sheet(frame: Frame, title: str, kinds: Iterable[str], notes: list[str]) -> Scene:
    """A sheet with its title, the legend of these kinds, the scale bar and notes below, and no map yet."""
    used = [kind for kind in KINDS if kind in set(kinds)]
    height = max(HEAD + frame.height + FOOT, HEAD + (len(used) + 1) * LINE + FOOT) + len(notes) * LINE
    scene = Scene(MARGIN * 3 + frame.width + LEGEND, height)
    scene.marks.append(Path([[(0, 0), (scene.width, 0), (scene.width, height), (0, height)]], fill="#ffffff", stroke=None))
    scene.marks.append(Words(MARGIN, 22, title, 14))
    left = MARGIN * 2 + frame.width
    for place, kind in enumerate(used):
        top = HEAD + place * LINE
        scene.marks.append(Path([_square(left, top, 11)], fill=COLOURS[kind], width=0.7))
        scene.marks.append(Words(left + 18, top + 10, kind))
    scene.marks += _scale_bar(frame)
    for place, note in enumerate(notes):
        scene.marks.append(Words(MARGIN, height - (len(notes) - place) * LINE + 4, note))
    return scene


def _square(left: float, top: float, size: float) -> list[tuple[float, float]]:
    return [(left, top), (left + size, top), (left + size, top + size), (left, top + size)]


def bar_length(width: int) -> int:
    """A round length, in millimetres, of at most a third of the width: 1, 2 or 5 and zeros."""
    round_lengths = (times * 10 ** power for power in range(12) for times in (1, 2, 5))
    return max((length for length in round_lengths if length * 3 <= width), default=1)


def _length_text(length: int) -> str:
    return f"{length // 1_000_000} km" if length >= 1_000_000 else f"{length // 1000} m" if length >= 1000 else f"{length} mm"


def _scale_bar(frame: Frame) -> list[Path | Words]:
    length = bar_length(frame.box[2] - frame.box[0])
    top, end = HEAD + frame.height + 14, MARGIN + length * frame.factor
    bar = Path([[(MARGIN, top), (MARGIN, top + 6), (end, top + 6), (end, top)]], is_closed=False, width=1.4)
    return [bar, Words(end + 8, top + 9, f"{_length_text(length)}, EPSG:28992", 11)]
