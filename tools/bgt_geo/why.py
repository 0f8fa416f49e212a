"""bgt-geo why: what each refusal of a stream means, where it stands in the file, and what to mend."""
import json
import os
import re
from dataclasses import dataclass
from typing import Iterator

from . import program, refusals, tail
from .fault import Fault
from .forms import just_before
from .millimetres import metres
from .output import counted, whole_file, write_text
from .problem import USAGE, Problem
from .register import HolderMap, Register
from .text import Message, Ring, Shape, cut, read_message

_REPLY = re.compile(r"([0-9]+) (OK|E[0-9]+ .+)\Z", re.ASCII)
_TAIL = re.compile(r"TAIL ([0-9]+)\Z", re.ASCII)
# Lines that may stand after the reply to a message, and answer none.
_BESIDE = ("POINT ", "CROSS ")


@dataclass
class Explained:
    """A refused text: its number, its lines in the file, its reply, and what is told of it. The map is what it would have left."""

    number: int
    lines: tuple[int, int]
    reply: str
    fault: Fault
    map_after: HolderMap | None
    message: Message | None


def read_bytes(path: str) -> bytes:
    """The bytes of a file."""
    try:
        with open(path, "rb") as it:
            return it.read()
    except OSError as fault:
        raise Problem(f"{path} cannot be read: {fault.strerror}", USAGE) from fault


def read_replies(path: str) -> tuple[list[str], bool]:
    """What was answered to each text, and whether a tail was told."""
    replies, has_tail = [], False
    for number, line in enumerate(read_bytes(path).decode("ascii", "replace").splitlines(), 1):
        reply = _REPLY.match(line)
        if reply and int(reply[1]) == len(replies) + 1:
            replies.append(reply[2])
        elif _TAIL.match(line):
            has_tail = True
        elif not (replies and line.startswith(_BESIDE)):
            raise Problem(f"line {number} of {path} is no reply of bgt: {line[:60]!r}")
    return replies, has_tail


def follow(texts: list[tuple[int, list[str]]], replies: list[str], file: str | None) -> Iterator[Explained]:
    """Each refused text with what is told of it, in order."""
    register, begun = Register(), set()
    for number, ((first, lines), reply) in enumerate(zip(texts, replies), 1):
        words, last = reply.split(" "), first + len(lines) - 1
        if words[0] in ("E1", "E2", "E3", "E4"):
            yield Explained(number, (first, last), reply, refusals.explain_lines(lines, first, words), None, None)
            register.refuse_lines(lines, number)
            continue
        message = _message(lines, first, number)
        if file is not None and message.holder not in begun:
            begun.add(message.holder)
            register.begin(*program.state(file, just_before(message.moment)), message.holder)
        if reply == "OK":
            register.accept(message)
            continue
        map_after = register.after(message)
        yield Explained(number, (first, last), reply, _fault(message, words, register, map_after), map_after, message)
        register.refuse(message, number)


def _message(lines: list[str], first: int, number: int) -> Message:
    try:
        return read_message(lines, first)
    except (ValueError, IndexError) as fault:
        raise Problem(f"text {number} (from line {first}) is no message, though its reply says so: these replies are of another stream") from fault


def _fault(message: Message, words: list[str], register: Register, map_after: HolderMap) -> Fault:
    try:
        return refusals.explain(refusals.Refused(message, words, register, map_after))
    except (KeyError, IndexError, ValueError, StopIteration) as fault:
        raise Problem(f"the reply '{' '.join(words)}' does not fit the message from line {message.line}: these replies are of another "
                      "stream") from fault


def paragraph(it: Explained, name: str) -> str:
    """What is told of one refusal."""
    head = f"message {it.number}, lines {it.lines[0]} to {it.lines[1]} of {name}: {it.reply}"
    return "\n".join([head, *(f"  {sentence}" for sentence in it.fault.sentences)])


def run(stream: str, replies: str, geojson: str | None, pictures: str | None, file: str | None) -> int:
    """Tells what is wrong with each refused message."""
    data = read_bytes(stream)
    texts, left = cut(data)
    answered, has_tail = read_replies(replies)
    if len(answered) > len(texts):
        raise Problem(f"{replies} has {len(answered)} replies, and {stream} has {counted(len(texts), 'text')}: they do not belong together")
    explained = list(follow(texts, answered, file))
    told = [paragraph(it, stream) for it in explained]
    if has_tail:
        told.append(f"after line {data[:len(data) - len(left)].count(10)} of {stream}: TAIL {len(left)}\n  {tail.explain(left, bool(texts))}")
    told.append(_summary(len(texts), answered, len(explained)))
    if geojson:
        write_text(geojson, json.dumps(collection(explained), separators=(",", ":")) + "\n")
    if pictures:
        _draw(explained, pictures)
    write_text(None, "\n".join(told) + "\n")
    return 0


def _summary(texts: int, answered: list[str], refused: int) -> str:
    unanswered = texts - len(answered)
    return (f"{counted(texts, 'message')}: {len(answered) - refused:,} accepted, {refused:,} refused"
            + (f", {unanswered:,} without a reply" if unanswered else ""))


def shown_shapes(it: Explained) -> list[tuple[str, str, Shape]]:
    """The objects that a refusal speaks of, or else those of its message, as identification, kind and shape."""
    if it.map_after is None or it.message is None:
        return []
    wanted = it.fault.idents or [each.ident for each in it.message.mutations]
    own = {each.ident: each.item for each in it.message.mutations if each.item}
    objects = {ident: each.item for ident, each in it.map_after.objects.items()}
    items = {ident: own.get(ident) or objects.get(ident) for ident in dict.fromkeys(wanted)}
    return [(ident, item.kind, item.shape) for ident, item in items.items() if item]


def collection(explained: list[Explained]) -> dict:
    """GeoJSON of the refusals: the objects that each speaks of, its sides and its points."""
    features = []
    for it in explained:
        told = {"message": it.number, "reply": it.reply, "why": " ".join(it.fault.sentences)}
        features += [_feature("Polygon", _rings(shape), object=ident, kind=kind, **told) for ident, kind, shape in shown_shapes(it)]
        features += [_feature("LineString", [_metres(p) for p in side], **told) for side in it.fault.sides]
        features += [_feature("Point", _metres(point), **told) for point in it.fault.points]
    crs = {"type": "name", "properties": {"name": "urn:ogc:def:crs:EPSG::28992"}}
    return {"type": "FeatureCollection", "crs": crs, "features": features}


def _metres(point: tuple[int, int]) -> list[float]:
    return [metres(c) for c in point]


def _rings(shape: tuple[Ring, ...]) -> list[list[list[float]]]:
    return [[_metres(p) for p in (*ring.points, ring.points[0])] for ring in shape]


def _feature(form: str, coordinates: list, **properties: object) -> dict:
    return {"type": "Feature", "properties": properties, "geometry": {"type": form, "coordinates": coordinates}}


def _draw(explained: list[Explained], folder: str) -> None:
    """An SVG and a PNG of each refusal that has a place on the map."""
    from . import png, svg  # (matplotlib takes a second, and only pictures need it)
    from .refusal_scene import scene_of
    try:
        os.makedirs(folder, exist_ok=True)
    except OSError as fault:
        raise Problem(f"{folder} cannot be made: {fault.strerror}", USAGE) from fault
    for it in explained:
        scene = scene_of(it)
        if scene is None:
            continue
        path = os.path.join(folder, f"message-{it.number}")
        write_text(path + ".svg", svg.text_of(scene))
        with whole_file(path + ".png") as beside:
            png.write(scene, beside)
