"""What a run of messages leaves, and in which line of the file each thing stands. bgt decides; this follows its answers."""
from typing import NamedTuple

from .catalogue import is_ground
from .text import AreaVersion, Item, Message, Mutation, Shape, Version


class Current(NamedTuple):
    """A current version of an object, and the line that made it, or 0 where that is not in the file."""

    holder: str
    since: str
    item: Item
    line: int


class HolderMap(NamedTuple):
    """One holder's area and current objects."""

    area: tuple[Shape, ...]
    objects: dict[str, Current]

    def grounds(self) -> dict[str, Current]:
        """The objects that fill the area."""
        return {ident: it for ident, it in self.objects.items() if is_ground(it.item.kind, it.item.level)}


class Register:
    """The map after the messages that were accepted, and what is known of the others."""

    def __init__(self) -> None:
        self.areas: dict[str, tuple[Shape, ...]] = {}
        self.objects: dict[str, dict[str, Current]] = {}
        # Where each identification that was ever taken stands: its holder.
        self.holder_of: dict[str, str] = {}
        self.ended: dict[str, str] = {}
        self.last: dict[str, str] = {}
        # The number of the message that would have made an identification, and was refused.
        self.refused: dict[str, int] = {}

    def begin(self, areas: list[AreaVersion], objects: list[Version], holder: str) -> None:
        """Takes what a register had of a holder before the file's messages."""
        for area in areas:
            if area.holder == holder:
                self.areas[holder] = area.shapes
        for it in objects:
            if it.holder == holder:
                self.objects.setdefault(holder, {})[it.ident] = Current(holder, it.since, it.item, 0)
                self.holder_of[it.ident] = holder

    def kept(self, ident: str) -> Current | None:
        """The current version of an identification."""
        return self.objects.get(self.holder_of.get(ident, ""), {}).get(ident)

    def after(self, message: Message) -> HolderMap:
        """The map of the message's holder as the message would leave it."""
        objects = dict(self.objects.get(message.holder, {}))
        for it in message.mutations:
            apply(objects, message, it)
        area = self.areas.get(message.holder, ()) if message.area is None else message.area
        return HolderMap(area, objects)

    def accept(self, message: Message) -> None:
        """Takes an accepted message."""
        self.last[message.holder] = message.moment
        if message.area is not None:
            self.areas[message.holder] = message.area
        objects = self.objects.setdefault(message.holder, {})
        for it in message.mutations:
            apply(objects, message, it)
            self.holder_of[it.ident] = message.holder
            if it.word == "V":
                self.ended[it.ident] = message.moment

    def refuse(self, message: Message, number: int) -> None:
        """Notes what a refused message would have made."""
        for it in message.mutations:
            if it.word == "T":
                self.refused[it.ident] = number

    def refuse_lines(self, lines: list[str], number: int) -> None:
        """The same for a text that is no message, as far as its lines tell."""
        for line in lines:
            if line.startswith("T ") and line.count(" ") > 1:
                self.refused[line.split(" ")[1]] = number


def apply(objects: dict[str, Current], message: Message, it: Mutation) -> None:
    """Changes the objects of a holder as a mutation of its message does."""
    if it.word == "V":
        objects.pop(it.ident, None)
    else:
        objects[it.ident] = Current(message.holder, message.moment, it.item, it.line)
