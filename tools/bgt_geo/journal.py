"""The messages that a register's file has, as docs/FORMATS.md says its bytes are. bgt has read the file before: it tells damage."""
from . import program
from .forms import LAST
from .problem import USAGE, Problem
from .text import AreaVersion, Message, Version, read_message, read_state

MARK = b"BGTJ0001"
OPEN = 1


def messages(file: str) -> list[Message]:
    """The accepted messages, in order."""
    told = program.ask("state", file, LAST)
    try:
        with open(file, "rb") as it:
            data = it.read()
    except OSError as fault:
        raise Problem(f"{file} cannot be read: {fault.strerror}", USAGE) from fault
    found = [read_message(text.decode("ascii").split("\n")[:-1]) for text in _payloads(data)]
    if _holds_last(found) != _known(told):
        raise Problem(f"{file} was changed while it was read: try again")
    return found


def _payloads(data: bytes) -> list[bytes]:
    payloads, gate = [], len(MARK)
    while gate < len(data) and data[gate] == OPEN:
        length = int.from_bytes(data[gate + 1:gate + 9], "big")
        payloads.append(data[gate + 9:gate + 9 + length])
        gate += 9 + length
    return payloads


def _known(state: str) -> list[tuple[str, str]]:
    return sorted((it.ident, it.since) for it in read_state(state)[1])


def _holds_last(found: list[Message]) -> list[tuple[str, str]]:
    """What holds after all messages: a check of this reading against the program's."""
    return sorted((it.ident, it.since) for it in versions(found)[1] if it.until is None)


def versions(found: list[Message]) -> tuple[list[AreaVersion], list[Version]]:
    """All versions of areas and of objects, in the order in which they were made."""
    areas: list[AreaVersion] = []
    objects: list[Version] = []
    area_at: dict[str, int] = {}
    object_at: dict[str, int] = {}
    for message in found:
        if message.area is not None:
            if message.holder in area_at:
                place = area_at[message.holder]
                areas[place] = areas[place]._replace(until=message.moment)
            area_at[message.holder] = len(areas)
            areas.append(AreaVersion(message.holder, message.moment, None, message.area))
        for it in message.mutations:
            if it.ident in object_at:
                place = object_at[it.ident]
                objects[place] = objects[place]._replace(until=message.moment, end=it.end)
            if it.item is not None:
                object_at[it.ident] = len(objects)
                objects.append(Version(message.holder, message.moment, None, None, it.ident, it.item))
    return areas, objects
