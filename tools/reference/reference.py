#!/usr/bin/env python3
"""A plain reference machine of `bgt`, written from the definitions alone.

It follows the stated definitions word by word, with integers and fractions only, and
makes no effort to be fast. A run is a pure function:

    run(words, input_bytes, file_bytes, limits) -> (told, status, file_bytes)

As a program, `reference.py WORDS < input` works on a real FILE.
"""
import re
import sys
from dataclasses import dataclass, field, replace
from fractions import Fraction
from functools import lru_cache

from plane import *
from texts import *

# ---------------------------------------------------------------- the machine


@dataclass(frozen=True)
class Version:
    holder: str
    ident: str
    item: Item
    since: int
    until: int = None
    end_day: int = None

    def holds(self, t):
        return self.since <= t and (self.until is None or t < self.until)


@dataclass(frozen=True)
class AreaVersion:
    holder: str
    shapes: tuple
    since: int
    until: int = None

    holds = Version.holds


@dataclass
class State:
    versions: list = field(default_factory=list)
    areas: list = field(default_factory=list)
    last: dict = field(default_factory=dict)
    accepted: int = 0

    def copy(self):
        return State(list(self.versions), list(self.areas), dict(self.last), self.accepted)

    def of_ident(self, ident):
        return [v for v in self.versions if v.ident == ident]

    def current(self, ident):
        return next((v for v in self.versions if v.ident == ident and v.until is None), None)

    def objects(self, holder):
        return [v for v in self.versions if v.holder == holder and v.until is None]

    def area(self, holder):
        return next((a.shapes for a in self.areas if a.holder == holder and a.until is None), ())


def mutation_refusal(state, message, number):
    """Refusals 6 to 15 of one mutation."""
    m = message.mutations[number - 1]
    if any(e.ident == m.ident for e in message.mutations[:number - 1]):
        return "E6 TWICE %d" % number
    if m.word == "T":
        if m.ident[:5] != message.holder:
            return "E7 PREFIX %d" % number
        if state.of_ident(m.ident):
            return "E8 KNOWN %d" % number
    else:
        refusal = kept_refusal(state, message, number, m)
        if refusal:
            return refusal
    today = message.moment // DAY_MS
    if m.word == "V":
        begin = state.current(m.ident).item.begin
        return None if begin <= m.day <= today else "E14 DAYS %d" % number
    fault = check_item(m.item)
    if fault:
        return "E13 ITEM %d %s" % (number, fault)
    if m.item.begin > today:
        return "E14 DAYS %d" % number
    note = shape_note(m.item.rings)
    return "E15 SHAPE %d %s" % (number, note) if note else None


def kept_refusal(state, message, number, m):
    """Refusals 9 to 12 of a W or V."""
    kept = state.current(m.ident)
    if kept is None:
        ended = state.of_ident(m.ident)
        return "E9 UNKNOWN %d %s" % (number, print_moment(ended[-1].until) if ended else "-")
    if kept.holder != message.holder:
        return "E10 OWNER %d %s" % (number, kept.holder)
    if m.was != kept.since:
        return "E11 WAS %d %s" % (number, print_moment(kept.since))
    if m.word == "W" and m.item.kind != kept.item.kind:
        return "E12 KIND %d %s" % (number, kept.item.kind)
    return None


def area_refusal(state, message):
    """Refusal 17."""
    shapes = message.area
    for s, shape in enumerate(shapes):
        note = shape_note(shape)
        if note:
            return "E17 AREA shape %d %s" % (s, note)
    for s in range(len(shapes)):
        for t in range(s + 1, len(shapes)):
            if not own_pair_sound(shapes[s], shapes[t]):
                return "E17 AREA own %d %d" % (s, t)
    for a in sorted((a for a in state.areas if a.until is None), key=lambda a: a.holder):
        if a.holder != message.holder and any(share(s, t) for s in shapes for t in a.shapes):
            return "E17 AREA meets " + a.holder
    return None


def level_refusal(objects):
    """Refusal 18 over the holder's current objects."""
    objects = sorted((v for v in objects if v.item.level != 0 and v.item.kind in PLANE),
                     key=lambda v: v.ident)
    for k, v in enumerate(objects):
        for w in objects[k + 1:]:
            if v.item.level == w.item.level and share(v.item.rings, w.item.rings):
                return "E18 LEVELS %s %s" % (v.ident, w.ident)
    return None


def rules(limits, state, message):
    """Refusals 5 to 18, or None."""
    last = state.last.get(message.holder)
    if last is not None and message.moment <= last:
        return "E5 STALE " + print_moment(last)
    if message.area is not None and state.areas:
        latest = max(a.since for a in state.areas)
        if message.moment < latest:
            return "E5 STALE " + print_moment(latest)
    for number in range(1, len(message.mutations) + 1):
        refusal = mutation_refusal(state, message, number)
        if refusal:
            return refusal
    if last is None and len(state.last) >= limits.holders:
        return "E16 FULL holders"
    objects = after(state, message).objects(message.holder)
    if len(objects) > limits.objects:
        return "E16 FULL objects"
    if message.area is not None:
        refusal = area_refusal(state, message)
        if refusal:
            return refusal
    return level_refusal(objects)


def after(state, message):
    new, moment = state.copy(), message.moment
    named = {m.ident: m for m in message.mutations if m.word != "T"}
    for k, v in enumerate(new.versions):
        if v.until is None and v.ident in named:
            new.versions[k] = replace(v, until=moment, end_day=named[v.ident].day)
    for m in message.mutations:
        if m.word != "V":
            new.versions.append(Version(message.holder, m.ident, m.item, moment))
    if message.area is not None:
        for k, a in enumerate(new.areas):
            if a.until is None and a.holder == message.holder:
                new.areas[k] = replace(a, until=moment)
        new.areas.append(AreaVersion(message.holder, message.area, moment))
    new.last[message.holder] = moment
    new.accepted += 1
    return new


@lru_cache(4096)
def map_refusal(area, parts, check_law=True):
    """Refusals 19 and 20 of one holder's map."""
    edges = border_edges(area, parts)
    inside = unnoded(edges)
    if inside:
        return "E19 NODE %s %s" % (print_point(inside[0]), print_edge(inside[1]))
    wrong = unmatched(edges)
    if check_law and tiled(area, parts) != (wrong is None):
        raise LawBroken(repr((area, parts)))
    return "E20 TILED " + print_edge(wrong) if wrong else None


LAW_EDGES = 700  # larger maps are judged by cancelled edges alone


def step(limits, state, message):
    """(refusal text or None, next state)."""
    refusal = rules(limits, state, message)
    if refusal:
        return refusal, state
    new = after(state, message)
    area, parts = holder_map(new, message.holder)
    law = sum(len(r) for s in area + parts for r in s) <= LAW_EDGES
    refusal = map_refusal(area, parts, law)
    return (refusal, state) if refusal else (None, new)


def holder_map(state, holder):
    """The holder's area and its ground parts."""
    return state.area(holder), tuple(v.item.rings for v in state.objects(holder) if v.item.ground())


def explanation(state, message):
    """The line that says why the map is not tiled that the message would leave its holder."""
    area, parts = holder_map(after(state, message), message.holder)
    edges = least_crossing(border_edges(area, parts))
    if edges:
        return "CROSS %s %s\n" % tuple(print_edge(e) for e in edges)
    x, k, count, inside = first_wrong(area, parts)
    return "POINT %d/%d %d/2 %d %s\n" % (x.numerator, x.denominator, k, count, "in" if inside else "out")


# ---------------------------------------------------------------- query texts


def or_dash(value, printer):
    return "-" if value is None else printer(value)


def version_block(v):
    head = "OBJECT %s %s %s %s\n" % (v.holder, print_moment(v.since), or_dash(v.until, print_moment),
                                     or_dash(v.end_day, print_day))
    return head + mutation_lines(Mutation("T", v.ident, item=v.item))


def versions_at(state, t):
    return sorted((v for v in state.versions if v.holds(t)), key=lambda v: v.ident)


def areas_at(state, t):
    return sorted((a for a in state.areas if a.holds(t)), key=lambda a: a.holder)


def state_text(state, t):
    text = ""
    for a in areas_at(state, t):
        text += "GEBIED %s %s %s\n" % (a.holder, print_moment(a.since), or_dash(a.until, print_moment))
        text += "".join(shape_lines(s) for s in a.shapes)
    return text + "".join(version_block(v) for v in versions_at(state, t))


def history_text(state, ident):
    blocks = sorted(state.of_ident(ident), key=lambda v: v.since)
    return "".join(version_block(v) for v in blocks) or "NONE\n"


def point_text(state, p, t):
    parts = [v for v in versions_at(state, t) if v.item.ground()]
    shapes = [s for a in areas_at(state, t) for s in a.shapes] + [v.item.rings for v in parts]
    if any(on_edge(p, e) for s in shapes for e in shape_edges(s)):
        return "BORDER\n"
    idents = [v.ident for v in parts if lies_in(p, v.item.rings)]
    assert len(idents) <= 1, "two ground parts hold one point"
    return (idents[0] if idents else "NONE") + "\n"


def export_text(state, t):
    text = ""
    areas = {a.holder: a.shapes for a in areas_at(state, t) if a.shapes}
    versions = versions_at(state, t)
    for holder in sorted(set(areas) | {v.holder for v in versions}):
        adds = tuple(Mutation("T", v.ident, item=v.item) for v in versions if v.holder == holder)
        text += print_message(Message(holder, t, areas.get(holder, ()), adds))
    return text


# ---------------------------------------------------------------- the test map of `trial`


def made(n):
    corner = lambda i, j: (100_000_000 + 10_000 * i, 400_000_000 + 10_000 * j)

    def h(i, j):
        x, y = corner(i, j)
        return x + 5_000, y + 1_000 * ((i + 2 * j) % 3) - 1_000

    def v(i, j):
        x, y = corner(i, j)
        return x + 1_000 * ((2 * i + j) % 3) - 1_000, y + 5_000

    def cell(i, j):
        return (corner(i, j), h(i, j), corner(i + 1, j), v(i + 1, j), corner(i + 1, j + 1),
                h(i, j + 1), corner(i, j + 1), v(i, j))

    def double(r):
        return (corner(0, r), h(0, r), corner(1, r), h(1, r), corner(2, r), v(2, r), corner(2, r + 1),
                h(1, r + 1), corner(1, r + 1), h(0, r + 1), corner(0, r + 1), v(0, r))

    day = read_day("2024-01-01")
    t = lambda k: day * DAY_MS + 1000 * k
    ident = lambda number: "G0001.%032d" % number
    number = lambda i, j: j * n + i + 1
    item = lambda ring: Item("begroeid_terreindeel", 0, day, (("fysiekVoorkomen", "groenvoorziening"),), (ring,))
    ring = []
    for i in range(n):
        ring += [corner(i, 0), h(i, 0)]
    for j in range(n):
        ring += [corner(n, j), v(n, j)]
    for i in range(n - 1, -1, -1):
        ring += [corner(i + 1, n), h(i, n)]
    for j in range(n - 1, -1, -1):
        ring += [corner(0, j + 1), v(0, j)]
    adds = tuple(Mutation("T", ident(number(i, j)), item=item(cell(i, j))) for j in range(n) for i in range(n))
    messages = [Message("G0001", t(0), ((tuple(ring),),), adds)]
    for k in range(1, n + 1):
        if k % 2:
            r = k - 1
            changes = (Mutation("W", ident(number(0, r)), t(0), item(double(r))),
                       Mutation("V", ident(number(1, r)), t(0), day=day))
        else:
            r = k - 2
            changes = (Mutation("W", ident(number(0, r)), t(k - 1), item(cell(0, r))),
                       Mutation("T", ident(n * n + k), item=item(cell(1, r))))
        messages.append(Message("G0001", t(k), None, changes))
    return messages + [Message("G0001", t(n + 1), None, (Mutation("V", ident(n * n), t(0), day=day),))]


def trial_text(n, limits):
    state, refused = State(), 0
    messages = made(n)
    for message in messages:
        refusal, state = step(limits, state, message)
        refused += refusal is not None
    counts = (n, len(messages) - refused, refused, len(state.objects("G0001")), len(state.versions))
    return "TRIAL %d\nACCEPTED %d\nREFUSED %d\nOBJECTS %d\nVERSIONS %d\n" % counts


# ---------------------------------------------------------------- the journal

MARK = b"BGTJ0001"


class BadJournal(Exception):
    pass


def open_journal(file, limits):
    """(state, offset of the first closed gate); BadJournal with its line otherwise."""
    if len(file) <= 9:
        return State(), 8
    if file[:8] != MARK:
        raise BadJournal("NOTJOURNAL")
    state, gate = State(), 8
    while file[gate] == 1:
        length = int.from_bytes(file[gate + 1:gate + 9], "big")
        end = gate + 9 + length
        damaged = BadJournal("DAMAGED %d" % gate)
        if len(file) < gate + 9 or end >= len(file):
            raise damaged
        payload = file[gate + 9:end]
        message = read_text(payload, limits, with_bytes=False)
        if isinstance(message, str) or print_message(message).encode("latin-1") != payload:
            raise damaged
        refusal, state = step(limits, state, message)
        if refusal:
            raise damaged
        gate = end
    return state, gate


def overwrite(file, at, data):
    return file[:at] + data + file[at + len(data):]


def append(file, gate, payload):
    record = len(payload).to_bytes(8, "big") + payload + b"\0"
    file = overwrite(overwrite(file, gate + 1, record), gate, b"\x01")
    return file, gate + 9 + len(payload)


# ---------------------------------------------------------------- the program

GOOD, REFUSED, USAGE, BAD_JOURNAL, INPUT_LONG, JOURNAL_FULL = 0, 1, 2, 6, 8, 9


def answer_stream(data, limits, state, keep, explains=False):
    """Reply lines and status for `check`, `load` and `explain`; `keep(message)` is False without room."""
    texts, tail = cut_texts(data[:limits.input_bytes])
    told, good = [], True
    for number, text in enumerate(texts, 1):
        message = read_text(text, limits)
        refusal, after_state = (message, state) if isinstance(message, str) else step(limits, state, message)
        if refusal is None and not keep(message):
            return "".join(told), JOURNAL_FULL
        good = good and refusal is None
        told.append("%d %s\n" % (number, refusal or "OK"))
        if explains and refusal and refusal.startswith("E20 TILED"):
            told.append(explanation(state, message))
        state = after_state
    if len(data) >= limits.input_bytes:
        return "".join(told), INPUT_LONG
    if tail:
        told.append("TAIL %d\n" % len(tail))
    return "".join(told), GOOD if good and not tail else REFUSED


def load(data, file, limits):
    try:
        state, gate = open_journal(file, limits)
    except BadJournal as bad:
        return "%s\n" % bad, BAD_JOURNAL, file
    if len(file) <= 9:
        file = MARK + b"\0"
    book = [file, gate]

    def keep(message):
        payload = print_message(message).encode("latin-1")
        if book[1] + 10 + len(payload) > limits.journal_bytes:
            return False
        book[0], book[1] = append(book[0], book[1], payload)
        return True

    told, status = answer_stream(data, limits, state, keep)
    return told, status, book[0]


def explain(data, file, limits):
    try:
        state, _ = open_journal(file, limits)
    except BadJournal as bad:
        return "%s\n" % bad, BAD_JOURNAL
    return answer_stream(data, limits, state, lambda message: True, explains=True)


def asked(words):
    """The query of the words as a function of the state, or None where they are not listed."""
    name, count = words[0], len(words)
    moment = read_moment(words[-1])
    if name in ("state", "export") and count == 3 and moment is not None:
        return lambda state: (state_text if name == "state" else export_text)(state, moment)
    if name == "history" and count == 3 and RE_IDENT.fullmatch(words[2]):
        return lambda state: history_text(state, words[2])
    if name == "point" and count == 5 and moment is not None:
        x, y = read_mm(words[2], X_RANGE), read_mm(words[3], Y_RANGE)
        if x is not None and y is not None:
            return lambda state: point_text(state, (x, y), moment)
    return None


def run(words, data=b"", file=b"", limits=STANDARD):
    """What `bgt` tells, its status, and the file afterwards."""
    told, status = "USAGE\n", USAGE
    query = asked(words) if words else None
    if words == ["check"]:
        told, status = answer_stream(data, limits, State(), lambda message: True)
    elif len(words) == 2 and words[0] == "load":
        told, status, file = load(data, file, limits)
    elif len(words) == 2 and words[0] == "explain":
        told, status = explain(data, file, limits)
    elif query:
        try:
            told, status = query(open_journal(file, limits)[0]), GOOD
        except BadJournal as bad:
            told, status = "%s\n" % bad, BAD_JOURNAL
    elif len(words) == 2 and words[0] == "trial" and re.fullmatch("[1-9][0-9]{0,2}", words[1]):
        if 2 <= int(words[1]) <= 400:
            told, status = trial_text(int(words[1]), limits), GOOD
    return told.encode("latin-1"), status, file


def main():
    words = sys.argv[1:]
    has_file = len(words) > 1 and words[0] in ("load", "explain", "state", "history", "point", "export")
    file = b""
    if has_file:
        try:
            with open(words[1], "rb") as f:
                file = f.read()
        except FileNotFoundError:
            file = b""
    takes = words[:1] in (["check"], ["load"], ["explain"])
    told, status, new = run(words, sys.stdin.buffer.read() if takes else b"", file)
    if has_file and words[0] == "load" and status != USAGE:
        with open(words[1], "wb") as f:
            f.write(new)
    sys.stdout.buffer.write(told)
    sys.exit(status)


if __name__ == "__main__":
    main()
