"""Each refusal in plain words, with its place in the file and how to mend it."""
from typing import Callable, NamedTuple

from . import syntax
from .catalogue import KINDS
from .fault import Fault
from .forms import day_of
from .millimetres import of_text, point_text
from .register import HolderMap, Register
from .rings import crossing_point, doubled_area, first_ring_meeting, lies_in
from .text import Message, Mutation, Ring, Shape, edges
from .tiling import explain_node, explain_tiled, named, side_text

LIMITS = {
    "mutations": "a message has at most 262,144 mutations: split it, with a later moment for the second part",
    "rings": "an object has at most 256 rings: split it into two objects",
    "points": "a ring of an object has at most 4,096 corners: split the object into two",
    "area": "an area block has at most 65,536 corners",
}


class Refused(NamedTuple):
    """A refused message, and what the register had before it."""

    message: Message
    words: list[str]
    register: Register
    map_after: HolderMap

    def mutation(self) -> Mutation:
        """The mutation that the reply names."""
        return self.message.mutations[int(self.words[2]) - 1]

    def about(self) -> Fault:
        """A fault that begins with the place of the mutation."""
        it = self.mutation()
        fault = Fault(idents=[it.ident])
        return fault.say(f"line {it.line}: {it.word} {it.ident}")


def explain_lines(lines: list[str], first: int, words: list[str]) -> Fault:
    """The refusals of a text that is no message, or no message that may be: E1 to E4."""
    code = words[0]
    if code == "E1":
        return Fault().say("the message has more than 268,435,456 bytes: split it, with a later moment for the second part")
    if code == "E4":
        return Fault().say(LIMITS[words[2]])
    at = int(words[2])
    shown = lines[at - 1] if at <= len(lines) else ""
    fault = Fault().say(f"line {first + at - 1}: {shown if len(shown) <= 100 else shown[:97] + '...'}")
    if code == "E3":
        return fault.say("arcs are not taken: draw the arc as sides between corners, and write RING or GAT")
    return fault.say(syntax.explain(lines, at))


def explain(refused: Refused) -> Fault:
    """The refusals of a message: E5 to E20."""
    return _EXPLAINERS[refused.words[0]](refused)


def _stale(it: Refused) -> Fault:
    message, moment = it.message, it.words[2]
    fault = Fault().say(f"line {message.line}: the moment {message.moment}")
    last = it.register.last.get(message.holder)
    own = f"the last accepted message of {message.holder}"
    area = "the last accepted area block, of any holder,"
    if message.area is None or (last == moment and message.moment <= moment):
        return fault.say(f"{own} has the moment {moment}: give this one a later moment, or leave it out if it was sent before")
    if last is not None:
        return fault.say(f"{area} has the moment {moment}: give a message with an area block that moment or a later one")
    return fault.say(f"{own}, or {area} has the moment {moment}: give this one a later moment")


def _twice(it: Refused) -> Fault:
    first = next(other for other in it.message.mutations if other.ident == it.mutation().ident)
    return it.about().say(f"line {first.line} has the same identification: one message changes an object once; keep one of the two")


def _prefix(it: Refused) -> Fault:
    return it.about().say(f"a new object of {it.message.holder} has an identification that begins with {it.message.holder}.")


def _known(it: Refused) -> Fault:
    kept = it.register.kept(it.mutation().ident)
    if kept is None:
        return it.about().say("the identification was used before, and its object ended: take a new one, since none is used again")
    return it.about().say(f"the identification is in use: write W for a change, with the moment {kept.since}, or take a new one")


def _unknown(it: Refused) -> Fault:
    ident = it.mutation().ident
    fault = it.about()
    if it.words[3] != "-":
        return fault.say(f"the object ended at {it.words[3]}: add it by T under a new identification")
    if ident in it.register.refused:
        return fault.say(f"message {it.register.refused[ident]} would have added it and was refused: repair that one first")
    return fault.say("there was never such an object: add it by T, or mend the identification")


def _owner(it: Refused) -> Fault:
    return it.about().say(f"the object is one of {it.words[3]}: that holder has to send the change")


def _was(it: Refused) -> Fault:
    return it.about().say(f"the version that is kept was registered at {it.words[3]}: write that moment in place of {it.mutation().was}")


def _kind(it: Refused) -> Fault:
    return it.about().say(f"the object is a {it.words[3]}, and an object keeps its kind: end it by V, and add the other by T under a new "
                          "identification")


def _item(it: Refused) -> Fault:
    fault, item, what = it.about(), it.mutation().item, it.words[3]
    attributes = KINDS[item.kind]
    if what == "level":
        return fault.say(f"the level is {item.level}, and goes from -99 to 99")
    if what == "bagpnd":
        return fault.say("bagpnd is a number of 16 digits" if item.kind == "pand" else f"bagpnd is for a pand, and this is a {item.kind}: "
                         "take it out")
    name = it.words[4]
    if name not in attributes:
        return fault.say(f"a {item.kind} has no {name}: take it out" + (f"; it has {', '.join(attributes)}" if attributes else ""))
    values = ", ".join(attributes[name])
    if what == "missing":
        return fault.say(f"a {item.kind} has to have {name}: one of {values}")
    return fault.say(f"{dict(item.attributes)[name]} is no {name} of a {item.kind}: one of {values}")


def _days(it: Refused) -> Fault:
    mutation, day = it.mutation(), day_of(it.message.moment)
    if mutation.word != "V":
        return it.about().say(f"the begin day {mutation.item.begin} is after the day of the message, {day}: no day lies in the future")
    if mutation.end > day:
        return it.about().say(f"the end day {mutation.end} is after the day of the message, {day}: no day lies in the future")
    kept = it.register.kept(mutation.ident)
    begin = f", {kept.item.begin}" if kept else ""
    return it.about().say(f"the end day {mutation.end} is before the begin day of the object{begin}")


def _shape(it: Refused) -> Fault:
    fault = it.about()
    return _note(fault, it.mutation().item.shape, it.words[3:])


def _note(fault: Fault, shape: Shape, note: list[str]) -> Fault:
    """Why a shape is not sound."""
    what, numbers = note[0], [int(number) for number in note[1:]]
    if what == "wound":
        return _wound(fault, shape)
    ring = shape[numbers[0]]
    if what == "few":
        return fault.say(f"line {ring.line}: the ring has fewer than three corners")
    if what == "repeat":
        point = ring.points[numbers[1]]
        fault.points.append(point)
        return fault.say(f"line {ring.line}: the ring comes to its corner {point_text(point)} a second time: take one of the two out, or "
                         "make two objects of it")
    if what == "turned":
        return fault.say(_turned(ring, numbers[0]))
    if what == "rings":
        return _rings_meet(fault, shape, numbers)
    sides = list(edges(ring.points))
    return _sides_meet(fault, sides[numbers[1]], sides[numbers[2]], f"line {ring.line}: the ring crosses or touches itself")


def _sides_meet(fault: Fault, e: tuple, f: tuple, told: str) -> Fault:
    fault.sides += [e, f]
    fault.points.append(crossing_point(e, f))
    return fault.say(f"{told}: its side {side_text(*e)} and its side {side_text(*f)} meet near {point_text(fault.points[-1])}; move a corner, "
                     "or change the order of the corners")


def _rings_meet(fault: Fault, shape: Shape, numbers: list[int]) -> Fault:
    first, second = (shape[number] for number in numbers)
    met = first_ring_meeting((first, second))
    told = f"line {first.line} and line {second.line}: the two rings may meet in corners of both only"
    if met is None:
        return fault.say(told)
    fault.sides += met[2:]
    fault.points.append(crossing_point(*met[2:]))
    return fault.say(f"{told}, and they meet near {point_text(fault.points[-1])}: give both a corner there, or draw the hole smaller")


def _turned(ring: Ring, number: int) -> str:
    if number == 0:
        return f"line {ring.line}: the outer ring runs clockwise: write its corners in the other order"
    return f"line {ring.line}: the hole runs counter-clockwise: write its corners in the other order, or make an object of it"


def _wound(fault: Fault, shape: Shape) -> Fault:
    """The ring that runs the wrong way, or the hole that lies where none may be."""
    turned = [number for number, ring in enumerate(shape) if (doubled_area(ring.points) > 0) != (number == 0)]
    for number in turned:
        fault.say(_turned(shape[number], number))
    for number, hole in enumerate(shape[1:], 1):
        if not _is_in(hole, shape[0]):
            fault.say(f"line {hole.line}: the hole lies outside of its outer ring")
        elif any(_is_in(hole, other) for other in shape[1:] if other is not hole):
            fault.say(f"line {hole.line}: the hole lies inside another hole: an island is an object of its own")
    return fault if len(fault.sentences) > 1 else fault.say("some land lies in the shape twice: a hole lies on another, or outside")


def _is_in(inner: Ring, outer: Ring) -> bool:
    """Whether a ring that meets another in corners at most lies inside it: by the middle of its first side that is none of the other."""
    of_outer = {frozenset(e) for e in edges(outer.points)}
    free = next((e for e in edges(inner.points) if frozenset(e) not in of_outer), None)
    if free is None:
        return True
    (ax, ay), (bx, by) = free
    return lies_in((ax + bx, ay + by), (outer,), 2)


def _full(it: Refused) -> Fault:
    if it.words[2] == "holders":
        return Fault().say("1,024 holders have an accepted message, and there may be no more")
    return Fault().say(f"{it.message.holder} would have more than 262,144 current objects")


def _area(it: Refused) -> Fault:
    area, what = it.message.area, it.words[2]
    if what == "meets":
        return _area_meets(it)
    fault = Fault()
    if what == "shape":
        shape = area[int(it.words[3])]
        return _note(fault.say(f"line {shape[0].line}: a shape of the area"), shape, it.words[4:])
    first, second = (area[int(number)] for number in it.words[3:5])
    fault.sides += [e for shape in (first, second) for ring in shape for e in edges(ring.points)]
    return fault.say(f"line {first[0].line} and line {second[0].line}: these two shapes of the area overlap, or touch otherwise than in "
                     "corners of both: join them into one ring, or give both a corner where they touch")


def _area_meets(it: Refused) -> Fault:
    other = it.words[3]
    fault = Fault()
    theirs = it.register.areas.get(other, ())
    fault.sides += [e for shape in theirs for ring in shape for e in edges(ring.points)]
    where = f" (line {theirs[0][0].line})" if theirs and theirs[0][0].line else ""
    return fault.say(f"the area overlaps that of {other}{where}: the two holders have to agree on their border; one gives up what both "
                     "claim, in an earlier message")


def _levels(it: Refused) -> Fault:
    first, second = it.words[2:4]
    fault = Fault(idents=[first, second])
    objects = it.map_after.objects
    names = [named(ident, objects[ident]) if ident in objects else ident for ident in (first, second)]
    level = f"level {objects[first].item.level}" if first in objects else "one level"
    return fault.say(f"{names[0]} and {names[1]} share ground at {level}: let one end where the other begins, or give one another level")


def _point(fields: list[str]) -> tuple[int, int]:
    return of_text(fields[0]), of_text(fields[1])


def _node(it: Refused) -> Fault:
    corner, a, b = (_point(it.words[k:k + 2]) for k in (2, 4, 6))
    return explain_node(it.map_after, corner, (a, b))


def _tiled(it: Refused) -> Fault:
    return explain_tiled(it.map_after, (_point(it.words[2:4]), _point(it.words[4:6])))


_EXPLAINERS: dict[str, Callable[[Refused], Fault]] = {
    "E5": _stale, "E6": _twice, "E7": _prefix, "E8": _known, "E9": _unknown, "E10": _owner, "E11": _was, "E12": _kind, "E13": _item,
    "E14": _days, "E15": _shape, "E16": _full, "E17": _area, "E18": _levels, "E19": _node, "E20": _tiled,
}
