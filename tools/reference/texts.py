"""The texts of messages for the reference machine: limits, fields, the catalogue, reading, and canonical text.

It follows the stated definitions word by word, and makes no effort to be fast.
"""
import re
from dataclasses import dataclass, field, replace
from fractions import Fraction
from functools import lru_cache

# ---------------------------------------------------------------- limits


@dataclass(frozen=True)
class Limits:
    message_bytes: int = 268_435_456
    mutations: int = 262_144
    shape_rings: int = 256
    ring_points: int = 4_096
    area_points: int = 65_536
    objects: int = 262_144
    holders: int = 1_024
    journal_bytes: int = 1 << 40
    input_bytes: int = 1 << 40


STANDARD = Limits()

# ---------------------------------------------------------------- fields

X_RANGE = (-100_000_000, 400_000_000)
Y_RANGE = (200_000_000, 800_000_000)
DAY_MS = 86_400_000

RE_HOLDER = re.compile(r"[A-Z][0-9]{4}")
RE_IDENT = re.compile(r"[A-Z][0-9]{4}\.[A-Za-z0-9]{32}")
RE_DAY = re.compile(r"([0-9]{4})-([0-9]{2})-([0-9]{2})")
RE_CLOCK = re.compile(r"([0-9]{2}):([0-9]{2}):([0-9]{2})(?:\.([0-9]{1,3}))?")
RE_COORD = re.compile(r"(-?)([0-9]{1,9})(?:\.([0-9]{1,3}))?")
RE_LEVEL = re.compile(r"-?[0-9]{1,3}")
RE_CODE = re.compile(r"[A-Za-z0-9_-]{1,64}")


def leap(year):
    return year % 4 == 0 and (year % 100 != 0 or year % 400 == 0)


def month_days(year, month):
    return [31, 29 if leap(year) else 28, 31, 30, 31, 30, 31, 31, 30, 31, 30, 31][month - 1]


def year_start(year):
    """Day number of the first of January, counted from 1970-01-01."""
    y = year - 1
    whole = 365 * y + y // 4 - y // 100 + y // 400
    return whole - 719_162


def day_number(year, month, day):
    return year_start(year) + sum(month_days(year, m) for m in range(1, month)) + day - 1


def day_parts(number):
    year = 1970 + number // 366 - 2 if number >= 0 else 1970 + number // 365 - 2
    while year_start(year + 1) <= number:
        year += 1
    while year_start(year) > number:
        year -= 1
    rest = number - year_start(year)
    month = 1
    while rest >= month_days(year, month):
        rest -= month_days(year, month)
        month += 1
    return year, month, rest + 1


def read_day(text):
    m = RE_DAY.fullmatch(text)
    if not m:
        return None
    year, month, day = (int(g) for g in m.groups())
    if not 1 <= month <= 12 or not 1 <= day <= month_days(year, month):
        return None
    return day_number(year, month, day)


def print_day(number):
    return "%04d-%02d-%02d" % day_parts(number)


def read_moment(text):
    """Milliseconds since 1970-01-01T00:00:00, or None."""
    if len(text) < 11 or text[10] != "T":
        return None
    day = read_day(text[:10])
    m = RE_CLOCK.fullmatch(text[11:])
    if day is None or not m:
        return None
    hours, minutes, seconds = int(m[1]), int(m[2]), int(m[3])
    if hours > 23 or minutes > 59 or seconds > 59:
        return None
    millis = int((m[4] or "").ljust(3, "0"))
    return day * DAY_MS + ((hours * 60 + minutes) * 60 + seconds) * 1000 + millis


def print_moment(moment):
    day, ms = divmod(moment, DAY_MS)
    seconds, ms = divmod(ms, 1000)
    text = "%sT%02d:%02d:%02d" % (print_day(day), seconds // 3600, seconds // 60 % 60, seconds % 60)
    return text + (".%03d" % ms if ms else "")


def read_mm(text, bounds):
    m = RE_COORD.fullmatch(text)
    if not m:
        return None
    value = int(m[2]) * 1000 + int((m[3] or "").ljust(3, "0"))
    value = -value if m[1] else value
    return value if bounds[0] <= value <= bounds[1] else None


def print_mm(value):
    return "%s%d.%03d" % ("-" if value < 0 else "", abs(value) // 1000, abs(value) % 1000)


def print_point(p):
    return print_mm(p[0]) + " " + print_mm(p[1])


def print_edge(e):
    return print_point(e[0]) + " " + print_point(e[1])


# ---------------------------------------------------------------- catalogue

_VOORKOMEN_HARD = "gesloten_verharding open_verharding half_verhard onverhard"

# kind -> attribute -> values; the first eleven kinds are dividing, the first six are plane.
CATALOGUE = {
    "wegdeel": {
        "functie": "rijbaan_autosnelweg rijbaan_autoweg rijbaan_regionale_weg rijbaan_lokale_weg fietspad "
                   "voetpad voetpad_op_trap ruiterpad parkeervlak spoorbaan baan_voor_vliegverkeer OV-baan "
                   "overweg inrit woonerf voetgangersgebied transitie",
        "fysiekVoorkomen": _VOORKOMEN_HARD + " transitie",
    },
    "ondersteunend_wegdeel": {
        "functie": "berm verkeerseiland transitie",
        "fysiekVoorkomen": _VOORKOMEN_HARD + " groenvoorziening transitie",
    },
    "begroeid_terreindeel": {
        "fysiekVoorkomen": "loofbos gemengd_bos naaldbos heide struiken houtwal duin moeras rietland kwelder "
                           "fruitteelt boomteelt bouwland grasland_agrarisch grasland_overig "
                           "groenvoorziening transitie",
    },
    "onbegroeid_terreindeel": {
        "fysiekVoorkomen": "erf " + _VOORKOMEN_HARD + " zand transitie",
    },
    "waterdeel": {"type": "zee waterloop watervlakte greppel_droge_sloot transitie"},
    "ondersteunend_waterdeel": {"type": "oever_slootkant slik transitie"},
    "pand": {},
    "overig_bouwwerk": {
        "type": "overkapping open_loods opslagtank bezinkbak windturbine lage_trafo bassin niet-bgt transitie",
    },
    "kunstwerkdeel": {
        "type": "hoogspanningsmast gemaal perron sluis strekdam steiger stuw niet-bgt transitie",
    },
    "scheiding": {"type": "muur kademuur damwand geluidsscherm walbescherming hek niet-bgt transitie"},
    "ongeclassificeerd_object": {},
    "overbruggingsdeel": {"type": "dek landhoofd pijler sloof pyloon transitie"},
    "tunneldeel": {},
}
CATALOGUE = {k: {a: v.split() for a, v in t.items()} for k, t in CATALOGUE.items()}
KINDS = list(CATALOGUE)
DIVIDING = set(KINDS[:11])
PLANE = set(KINDS[:6])
ATTRIBUTES = ["functie", "fysiekVoorkomen", "type", "bagpnd"]


# ---------------------------------------------------------------- messages


@dataclass(frozen=True)
class Item:
    kind: str
    level: int
    begin: int
    codes: tuple  # of (attribute, code), in the order of ATTRIBUTES
    rings: tuple = ()

    def code(self, attribute):
        return dict(self.codes).get(attribute)

    def ground(self):
        return self.kind in DIVIDING and self.level == 0


@dataclass(frozen=True)
class Mutation:
    word: str  # T, W or V
    ident: str
    was: int = None
    item: Item = None
    day: int = None


@dataclass(frozen=True)
class Message:
    holder: str
    moment: int
    area: tuple = None  # of shapes, each a tuple of rings
    mutations: tuple = ()


def check_item(item):
    """The fault's text, or None."""
    if not -99 <= item.level <= 99:
        return "level"
    tables = CATALOGUE[item.kind]
    for attribute in ATTRIBUTES[:3]:
        value = item.code(attribute)
        if value is not None and value not in tables.get(attribute, ()):
            return "code " + attribute
        if value is None and attribute in tables:
            return "missing " + attribute
    pand = item.code("bagpnd")
    if pand is not None and (item.kind != "pand" or not re.fullmatch("[0-9]{16}", pand)):
        return "bagpnd"
    return None


# ---------------------------------------------------------------- reading texts


def cut_texts(data):
    """The texts of a stream and its tail."""
    texts, start, at = [], 0, 0
    while True:
        end = data.find(b"\n", at)
        if end < 0:
            return texts, data[start:]
        if data[at:end] == b"EINDE":
            texts.append(data[start:end + 1])
            start = end + 1
        at = end + 1


def read_points(fields):
    if not fields or len(fields) % 2:
        return None
    points = []
    for k in range(0, len(fields), 2):
        x, y = read_mm(fields[k], X_RANGE), read_mm(fields[k + 1], Y_RANGE)
        if x is None or y is None:
            return None
        points.append((x, y))
    if len(points) >= 2 and points[-1] == points[0]:
        points.pop()
    return tuple(points)


def read_item(fields):
    """Kind, level, day and attributes."""
    if len(fields) < 3 or fields[0] not in CATALOGUE or not RE_LEVEL.fullmatch(fields[1]):
        return None
    begin = read_day(fields[2])
    if begin is None:
        return None
    codes, least = [], 0
    for text in fields[3:]:
        name, sign, value = text.partition("=")
        if not sign or name not in ATTRIBUTES[least:] or not RE_CODE.fullmatch(value):
            return None
        least = ATTRIBUTES.index(name) + 1
        codes.append((name, value))
    return Item(fields[0], int(fields[1]), begin, tuple(codes))


class Reader:
    """Reads the lines of one text; `line` is False at the first line that no text goes on with."""

    def __init__(self):
        self.allowed = {"BERICHT"}
        self.holder = self.moment = self.area = None
        self.mutations = []
        self.shapes = None  # where the next ring goes
        self.arcs = []
        self.lines = 0

    def line(self, text):
        self.lines += 1
        fields = text.split(" ")
        word, rest = fields[0], fields[1:]
        plain = {"RINGBOOG": "RING", "GATBOOG": "GAT"}.get(word, word)
        if plain not in self.allowed:
            return False
        if plain != word:
            self.arcs.append(self.lines)
        return getattr(self, "on_" + plain.lower())(rest)

    def on_bericht(self, rest):
        if len(rest) != 2 or not RE_HOLDER.fullmatch(rest[0]):
            return False
        self.holder, self.moment = rest[0], read_moment(rest[1])
        self.allowed = {"GEBIED", "T", "W", "V", "EINDE"}
        return self.moment is not None

    def on_gebied(self, rest):
        self.area = self.shapes = []
        self.allowed = {"RING", "T", "W", "V", "EINDE"}
        return not rest

    def on_ring(self, rest):
        points = read_points(rest)
        self.shapes.append([points])
        self.allowed = {"GAT", "T", "W", "V", "EINDE"}
        if self.shapes is self.area:
            self.allowed.add("RING")
        return points is not None

    def on_gat(self, rest):
        points = read_points(rest)
        self.shapes[-1].append(points)
        return points is not None

    def on_t(self, rest):
        item = read_item(rest[1:])
        return self.object("T", rest, None, item) if item else False

    def on_w(self, rest):
        was = read_moment(rest[1]) if len(rest) > 1 else None
        item = read_item(rest[2:])
        return self.object("W", rest, was, item) if item and was is not None else False

    def object(self, word, rest, was, item):
        self.shapes = []
        self.mutations.append((word, rest[0], was, item, None, self.shapes))
        self.allowed = {"RING"}
        return bool(RE_IDENT.fullmatch(rest[0]))

    def on_v(self, rest):
        if len(rest) != 3 or not RE_IDENT.fullmatch(rest[0]):
            return False
        was, day = read_moment(rest[1]), read_day(rest[2])
        self.mutations.append(("V", rest[0], was, None, day, None))
        self.allowed = {"T", "W", "V", "EINDE"}
        return was is not None and day is not None

    def on_einde(self, rest):
        self.allowed = set()
        return not rest

    def message(self):
        freeze = lambda shapes: tuple(tuple(s) for s in shapes)
        mutations = []
        for word, ident, was, item, day, shapes in self.mutations:
            if item:
                item = replace(item, rings=freeze(shapes)[0])
            mutations.append(Mutation(word, ident, was, item, day))
        area = None if self.area is None else freeze(self.area)
        return Message(self.holder, self.moment, area, tuple(mutations))


def limit_fault(message, limits):
    shapes = [m.item.rings for m in message.mutations if m.item]
    if len(message.mutations) > limits.mutations:
        return "mutations"
    if any(len(s) > limits.shape_rings for s in shapes):
        return "rings"
    if any(len(r) > limits.ring_points for s in shapes for r in s):
        return "points"
    if sum(len(r) for s in message.area or () for r in s) > limits.area_points:
        return "area"
    return None


def read_text(text, limits, with_bytes=True):
    """The message, or the text of refusal 1 to 4."""
    if with_bytes and len(text) > limits.message_bytes:
        return "E1 TOOLONG"
    lines = text.decode("latin-1").split("\n")
    unended = lines.pop()
    reader = Reader()
    for number, line in enumerate(lines, 1):
        if "\r" in line or not reader.line(line):
            return "E2 SYNTAX %d" % number
    if unended or reader.allowed:
        return "E2 SYNTAX %d" % (len(lines) + 1)
    if reader.arcs:
        return "E3 ARC %d" % reader.arcs[0]
    message = reader.message()
    which = limit_fault(message, limits)
    return "E4 LIMIT " + which if which else message


# ---------------------------------------------------------------- canonical text


def ring_line(word, ring):
    closing = ring[:1] if len(ring) >= 2 and ring[-1] == ring[0] else ()
    return word + "".join(" " + print_point(p) for p in ring + closing) + "\n"


def shape_lines(shape):
    return "".join(ring_line("GAT" if k else "RING", ring) for k, ring in enumerate(shape))


def item_words(item):
    words = [item.kind, str(item.level), print_day(item.begin)]
    return " ".join(words + [a + "=" + c for a, c in item.codes])


def mutation_lines(m):
    if m.word == "T":
        return "T %s %s\n" % (m.ident, item_words(m.item)) + shape_lines(m.item.rings)
    if m.word == "W":
        head = "W %s %s %s\n" % (m.ident, print_moment(m.was), item_words(m.item))
        return head + shape_lines(m.item.rings)
    return "V %s %s %s\n" % (m.ident, print_moment(m.was), print_day(m.day))


def print_message(message):
    text = "BERICHT %s %s\n" % (message.holder, print_moment(message.moment))
    if message.area is not None:
        text += "GEBIED\n" + "".join(shape_lines(s) for s in message.area)
    return text + "".join(mutation_lines(m) for m in message.mutations) + "EINDE\n"
