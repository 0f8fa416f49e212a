"""The line form: messages, replies and the texts of a register, read and printed.

What is read here was taken or written by bgt, so its lines have the right form; `syntax` looks at those that have not.
"""
from typing import Iterator, NamedTuple

from .forms import printed_moment
from .millimetres import of_text, point_text

Point = tuple[int, int]


class Ring(NamedTuple):
    """The corners of a ring, without a closing one, and the line of the file that has them, from 1."""

    points: tuple[Point, ...]
    line: int = 0


# An outer ring and its holes.
Shape = tuple[Ring, ...]


class Item(NamedTuple):
    """What an object is."""

    kind: str
    level: int
    begin: str
    attributes: tuple[tuple[str, str], ...]
    shape: Shape


class Mutation(NamedTuple):
    """A T, W or V. `was` is the moment that W and V name, `end` the day that V names."""

    word: str
    ident: str
    was: str | None
    item: Item | None
    end: str | None
    line: int = 0


class Message(NamedTuple):
    """A message; its area is None where it has no area block."""

    holder: str
    moment: str
    area: tuple[Shape, ...] | None
    mutations: tuple[Mutation, ...]
    line: int = 0


class Version(NamedTuple):
    """A version of an object; `until` and `end` are None where it has not ended."""

    holder: str
    since: str
    until: str | None
    end: str | None
    ident: str
    item: Item


class AreaVersion(NamedTuple):
    """A version of an area."""

    holder: str
    since: str
    until: str | None
    shapes: tuple[Shape, ...]


def open_ring(points: list[Point]) -> tuple[Point, ...]:
    """The corners without a closing one: a last point that repeats the first is dropped once."""
    return tuple(points[:-1] if len(points) > 1 and points[0] == points[-1] else points)


def read_ring(line: str, number: int = 0) -> Ring:
    """The ring of a line of RING or GAT."""
    numbers = [of_text(field) for field in line.split(" ")[1:]]
    return Ring(open_ring(list(zip(numbers[::2], numbers[1::2]))), number)


def read_item(fields: list[str], shape: Shape) -> Item:
    """The item of the fields from the kind on."""
    attributes = tuple((name, code) for name, _, code in (field.partition("=") for field in fields[3:]))
    return Item(fields[0], int(fields[1]), fields[2], attributes, shape)


def _is_ring(line: str) -> bool:
    return line.startswith(("RING ", "GAT "))


def _shapes(lines: list[str], at: int, first: int) -> tuple[tuple[Shape, ...], int]:
    """The shapes whose lines begin at a place of the list, and the place after them. The list's first line has number `first`."""
    shapes: list[list[Ring]] = []
    while at < len(lines) and _is_ring(lines[at]):
        if lines[at].startswith("RING "):
            shapes.append([])
        shapes[-1].append(read_ring(lines[at], first + at))
        at += 1
    return tuple(tuple(shape) for shape in shapes), at


def read_message(lines: list[str], first: int = 1) -> Message:
    """The message of a text of the grammar whose first line has that number in the file."""
    _, holder, moment = lines[0].split(" ")
    area, at = None, 1
    if lines[at] == "GEBIED":
        area, at = _shapes(lines, 2, first)
    mutations = []
    while lines[at] != "EINDE":
        fields, number = lines[at].split(" "), first + at
        shapes, at = _shapes(lines, at + 1, first)
        mutations.append(_mutation(fields, shapes, number))
    return Message(holder, printed_moment(moment), area, tuple(mutations), first)


def _mutation(fields: list[str], shapes: tuple[Shape, ...], number: int) -> Mutation:
    word, ident = fields[:2]
    if word == "V":
        return Mutation(word, ident, printed_moment(fields[2]), None, fields[3], number)
    if word == "W":
        return Mutation(word, ident, printed_moment(fields[2]), read_item(fields[3:], shapes[0]), None, number)
    return Mutation(word, ident, None, read_item(fields[2:], shapes[0]), None, number)


def ring_line(ring: Ring, is_outer: bool) -> str:
    """The line of a ring."""
    return f"{'RING' if is_outer else 'GAT'} {' '.join(point_text(point) for point in ring.points)}"


def shape_lines(shape: Shape) -> list[str]:
    """The lines of a shape."""
    return [ring_line(ring, place == 0) for place, ring in enumerate(shape)]


def item_text(item: Item) -> str:
    """An item's fields from the kind on."""
    return " ".join([item.kind, str(item.level), item.begin, *(f"{name}={code}" for name, code in item.attributes)])


def print_message(message: Message) -> str:
    """The message in canonical form."""
    lines = [f"BERICHT {message.holder} {message.moment}"]
    if message.area is not None:
        lines.append("GEBIED")
        for shape in message.area:
            lines += shape_lines(shape)
    for it in message.mutations:
        if it.word == "V":
            lines.append(f"V {it.ident} {it.was} {it.end}")
            continue
        was = [] if it.was is None else [it.was]
        lines.append(" ".join([it.word, it.ident, *was, item_text(it.item)]))
        lines += shape_lines(it.item.shape)
    return "\n".join([*lines, "EINDE", ""])


def cut(stream: bytes) -> tuple[list[tuple[int, list[str]]], bytes]:
    """The texts of a stream, each with the number of its first line, and the tail, as bgt cuts them."""
    texts, lines, first, number, at = [], [], 1, 0, 0
    tail = 0
    while (end := stream.find(b"\n", at)) >= 0:
        number += 1
        # (each byte is one character, so that no text is lost that is not ASCII)
        lines.append(stream[at:end].decode("latin-1"))
        at = end + 1
        if lines[-1] == "EINDE":
            texts.append((first, lines))
            lines, first, tail = [], number + 1, at
    return texts, stream[tail:]


def _known(field: str) -> str | None:
    return None if field == "-" else field


def read_state(text: str) -> tuple[list[AreaVersion], list[Version]]:
    """What a state text has: area versions and object versions."""
    lines, at = text.split("\n"), 0
    areas, objects = [], []
    while at < len(lines) and lines[at]:
        word, *fields = lines[at].split(" ")
        if word == "GEBIED":
            shapes, at = _shapes(lines, at + 1, 1)
            areas.append(AreaVersion(fields[0], fields[1], _known(fields[2]), shapes))
            continue
        item = lines[at + 1].split(" ")
        shapes, at = _shapes(lines, at + 2, 1)
        holder, since, until, end = fields
        objects.append(Version(holder, since, _known(until), _known(end), item[1], read_item(item[2:], shapes[0])))
    return areas, objects


def edges(points: tuple[Point, ...]) -> Iterator[tuple[Point, Point]]:
    """The sides of a ring, the last one back to the first corner."""
    return zip(points, points[1:] + points[:1])
