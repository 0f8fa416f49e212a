"""bgt-geo changes: what differs between a holder's current map and layers, as one message of T, W and V."""
import argparse

from . import drawing_up, program
from .catalogue import ATTRIBUTES
from .forms import day_of
from .output import counted, tell, write_text
from .problem import many
from .reading import Drawn, tell_defaults
from .rings import same_shape
from .text import AreaVersion, Item, Message, Mutation, Shape, Version, print_message


def run(words: argparse.Namespace) -> int:
    """Writes the message, or nothing where nothing differs."""
    areas, objects = program.state(words.file)
    kept = {it.ident: it for it in objects if it.holder == words.holder}
    drawn = drawing_up.read(words)
    if words.nodes:
        # (an area that was not drawn stays, and shares its corners all the same)
        area = tuple(shape for it in areas if it.holder == words.holder for shape in it.shapes)
        drawn = drawing_up.noded(drawn if drawn.area is not None else drawn._replace(area=area or None))
    new = [it for it in drawn.objects if it.ident not in kept]
    tell_defaults(new, words.moment)
    mutations = (ends(kept, drawn.objects, words.end or day_of(words.moment)) + _changed(kept, drawn.objects)
                 + [Mutation("T", it.ident, None, it.item, None) for it in new])
    area = _changed_area(areas, words.holder, drawn.area)
    counts = {word: sum(it.word == word for it in mutations) for word in "TWV"}
    tell(f"{counts['T']} new, {counts['W']} changed, {counts['V']} ended, {len(drawn.objects) - counts['T'] - counts['W']} as before; "
         f"the area {'as before' if area is None else 'of ' + counted(len(area), 'shape')}")
    if not mutations and area is None:
        tell("nothing differs, so there is no message")
        write_text(words.output, "")
        return 0
    write_text(words.output, print_message(Message(words.holder, words.moment, area, tuple(mutations))))
    return 0


def ends(kept: dict[str, Version], drawn: list[Drawn], day: str) -> list[Mutation]:
    """A V for each object that the layers have no more."""
    still = {it.ident for it in drawn}
    return [Mutation("V", ident, it.since, None, day) for ident, it in sorted(kept.items()) if ident not in still]


def _changed(kept: dict[str, Version], drawn: list[Drawn]) -> list[Mutation]:
    """A W for each object that is drawn otherwise than it is kept. What a feature leaves open stays as it was."""
    mutations, faults = [], []
    for it in drawn:
        old = kept.get(it.ident)
        if old is None:
            continue
        if old.item.kind != it.item.kind:
            faults.append(f"{it.where} is a {it.item.kind}, and {it.ident} is a {old.item.kind}: an object keeps its kind, so give the new one "
                          "a new identification")
            continue
        item = filled(it, old)
        if item._replace(shape=()) == old.item._replace(shape=()) and same_shape(item.shape, old.item.shape):
            continue
        mutations.append(Mutation("W", it.ident, old.since, item, None))
    if faults:
        raise many(faults)
    return mutations


def filled(it: Drawn, old: Version) -> Item:
    """The drawn item with what its feature leaves open as it was kept."""
    kept, own = dict(old.item.attributes), dict(it.item.attributes)
    attributes = {name: (kept if name in it.open_fields else own).get(name) for name in ATTRIBUTES}
    return it.item._replace(level=old.item.level if "level" in it.open_fields else it.item.level,
                            begin=old.item.begin if "begin" in it.open_fields else it.item.begin,
                            attributes=tuple((name, code) for name, code in attributes.items() if code))


def _changed_area(areas: list[AreaVersion], holder: str, drawn: tuple[Shape, ...] | None) -> tuple[Shape, ...] | None:
    """The area block, or None where the area is as it was or was not drawn."""
    if drawn is None:
        return None
    left = [shape for area in areas if area.holder == holder for shape in area.shapes]
    for shape in drawn:
        same = next((it for it in left if same_shape(it, shape)), None)
        if same is None:
            return drawn
        left.remove(same)
    return drawn if left else None
