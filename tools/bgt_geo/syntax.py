"""Why a line cannot stand where it stands: the sentence behind a refusal for syntax."""
import difflib
import re

from . import forms
from .catalogue import ATTRIBUTES, KINDS
from .millimetres import BOUNDS, of_text, text_of

_WORDS = ("BERICHT", "GEBIED", "RING", "GAT", "T", "W", "V", "EINDE")


def explain(lines: list[str], at: int) -> str:
    """What is wrong in line `at` of a text, from 1, where all lines before it can begin a message."""
    if at > len(lines):
        return "the text ends here in the middle of a message: write what is missing, and EINDE"
    line, before = lines[at - 1], lines[at - 2].split(" ")[0] if at > 1 else None
    return _bytes(line, at) or _place(line.split(" "), before, lines[:at - 1]) or _fields(line.split(" "))


def _bytes(line: str, at: int) -> str | None:
    """Faults that no eye sees: marks, spaces, other characters."""
    if line.startswith("\xef\xbb\xbf"):
        return "the file begins with a byte order mark: save it as UTF-8 without one (or as ASCII)"
    if line.startswith(("\xff\xfe", "\xfe\xff")) or "\0" in line:
        return "the file is in UTF-16: save it as ASCII"
    if "\r" in line:
        return "the line has a carriage return: save the file with Unix line ends (LF)"
    if line.strip() == "":
        return "the line is blank: take it out" + (" (it belongs to the message after it)" if at == 1 else "")
    if line.startswith(("#", "//", "--", ";")):
        return "a message has no comments: take the line out"
    if "\t" in line:
        return "the line has a tab: exactly one space stands between two fields"
    if line != line.strip(" "):
        return "the line has a space at its beginning or end: take it out"
    if "  " in line:
        return "two spaces stand together: exactly one stands between two fields"
    return None


def _place(fields: list[str], before: str | None, lines: list[str]) -> str | None:
    """Faults of the order of lines."""
    word = fields[0]
    if word in ("RINGBOOG", "GATBOOG"):
        word = word.removesuffix("BOOG")
    if word not in _WORDS:
        return _unknown_word(word)
    if before is None:
        return None if word == "BERICHT" else f"a message begins with BERICHT, and not with {word}"
    if word == "BERICHT":
        return "a new message begins before the last one ended: write the line EINDE before it"
    if before in ("T", "W") and word != "RING":
        return f"the shape of the object is missing: a RING line comes after the {before} line"
    if word == "GEBIED" and before != "BERICHT":
        return "the area block comes once, right after the BERICHT line"
    if word in ("RING", "GAT"):
        return _ring_place(word, before, lines)
    return None


def _ring_place(word: str, before: str, lines: list[str]) -> str | None:
    if before in ("BERICHT", "V"):
        return f"no shape stands after a {before} line: " + ("write GEBIED before the area's rings" if before == "BERICHT"
                                                             else "an end has none")
    if word == "GAT" and before not in ("RING", "GAT", "RINGBOOG", "GATBOOG"):
        return "a hole comes after its outer ring: a RING line is missing before this GAT"
    owner = next((it.split(" ")[0] for it in reversed(lines) if it.split(" ")[0] in ("GEBIED", "T", "W")), "T")
    if word == "RING" and owner != "GEBIED" and before != owner:
        return "an object has one outer ring: give the other part an identification of its own"
    return None


def _unknown_word(word: str) -> str:
    if word.upper() in _WORDS:
        return f"{word} is written {word.upper()}"
    near = difflib.get_close_matches(word.upper(), _WORDS, 1, 0.6)
    return f"no line begins with {_shown(word)}" + (f"; {near[0]} is meant perhaps" if near else
                                                      "; a line begins with BERICHT, GEBIED, RING, GAT, T, W, V or EINDE")


def _shown(text: str) -> str:
    return repr(text if len(text) <= 40 else text[:37] + "...")


_COUNTS = {"BERICHT": (3, "holder moment"), "V": (4, "identification moment day"), "GEBIED": (1, ""), "EINDE": (1, "")}


def _fields(fields: list[str]) -> str:
    """Faults of the fields of a line that may stand here."""
    word = fields[0]
    if word.startswith(("RING", "GAT")):
        return _numbers(fields[1:]) or "the line is no ring"
    if word in ("T", "W"):
        return _item_line(fields) or "the line is no T or W line"
    count, form = _COUNTS[word]
    if word == "BERICHT":
        told = _holder(fields[1] if len(fields) > 1 else "") or _moment(fields[2:])
    elif word == "V" and len(fields) >= 4:
        told = _ident(fields[1]) or _moment(fields[2:3]) or _day(fields[3])
    else:
        told = None
    if told:
        return told
    return f"the line has {len(fields)} fields where it wants {count}: {word} {form}".rstrip()


def _item_line(fields: list[str]) -> str | None:
    told = _ident(fields[1]) if len(fields) > 1 else None
    rest = fields[2:]
    if told is None and fields[0] == "W":
        told, rest = _moment(rest[:1]), rest[1:]
    elif told is None and rest and forms.is_moment(rest[0]):
        return "a T line names no moment; W, for a change, does"
    if told:
        return told
    if len(rest) < 3:
        return f"fields are missing: {fields[0]} identification {'moment ' if fields[0] == 'W' else ''}kind level day attributes"
    return _kind(rest[0]) or _level(rest[1]) or _day(rest[2]) or _attributes(rest[3:])


def _holder(text: str) -> str | None:
    return None if forms.HOLDER.match(text) else f"{_shown(text)} is no holder: one capital letter and four digits, as G0307"


def _ident(text: str) -> str | None:
    if forms.IDENTIFICATION.match(text):
        return None
    if text.startswith("NL.IMGeo."):
        return "the namespace NL.IMGeo is understood and not written: take it out of the identification"
    return f"{_shown(text)} is no identification: a holder, a full stop and 32 letters or digits"


def _moment(fields: list[str]) -> str | None:
    text = fields[0] if fields else ""
    if len(fields) == 1 and forms.is_moment(text):
        return None
    if len(fields) == 2 and forms.is_day(text):
        return f"write T between the day and the hour, and no space: {text}T{fields[1]}"
    if re.search(r"(Z|[+-][0-9]{2}:?[0-9]{2})$", text[10:]):
        return "a moment has no zone: take it out, and write the civil time"
    return f"{_shown(' '.join(fields))} is no moment: 2026-11-03T09:00:00, with at most three digits of a second"


def _day(text: str) -> str | None:
    if forms.is_day(text):
        return None
    if "T" in text:
        return f"a day stands here, without the hour: {text[:10]}"
    return f"{_shown(text)} is no day of the calendar: 2026-11-03"


def _kind(text: str) -> str | None:
    if text in KINDS:
        return None
    usual = {"gebouw": "pand", "huis": "pand", "weg": "wegdeel", "water": "waterdeel", "terrein": "onbegroeid_terreindeel",
             "brug": "overbruggingsdeel", "tunnel": "tunneldeel"}
    near = usual.get(text.lower()) or next(iter(difflib.get_close_matches(text.lower(), KINDS, 1, 0.6)), None)
    return f"{_shown(text)} is no kind" + (f"; {near} is meant perhaps" if near else f"; the kinds are {', '.join(KINDS)}")


def _level(text: str) -> str | None:
    return None if forms.LEVEL.match(text) else f"{_shown(text)} is no level: a whole number, 0 for the ground"


def _attributes(fields: list[str]) -> str | None:
    names = [field.partition("=")[0] for field in fields]
    for field, name in zip(fields, names):
        if "=" not in field:
            return f"{_shown(field)} is no attribute: name=code, without spaces in the code"
        if name not in ATTRIBUTES:
            near = difflib.get_close_matches(name, ATTRIBUTES, 1, 0.6)
            return f"{_shown(name)} is no attribute" + (f"; {near[0]} is meant perhaps" if near else f"; they are {', '.join(ATTRIBUTES)}")
        if not forms.CODE.match(field.partition("=")[2]):
            return f"the value of {name} is no code: 1 to 64 letters, digits, _ or -"
    if len(set(names)) < len(names):
        return "an attribute stands here twice"
    if names != sorted(names, key=ATTRIBUTES.index):
        return f"the attributes come in the order {', '.join(ATTRIBUTES)}"
    return None


def _numbers(fields: list[str]) -> str | None:
    """Faults of the coordinates of a ring."""
    for place, field in enumerate(fields):
        told = _number(field, place % 2)
        if told:
            return told
    if not fields:
        return "the ring has no corner"
    return "the last corner has no y: coordinates come in pairs" if len(fields) % 2 else None


def _number(field: str, axis: int) -> str | None:
    try:
        value = of_text(field)
    except ValueError:
        return _no_number(field)
    low, high = BOUNDS[axis]
    if low <= value <= high:
        return None
    swapped = BOUNDS[1 - axis][0] <= value <= BOUNDS[1 - axis][1]
    told = f"{'xy'[axis]} is {field}, and goes from {text_of(low)} to {text_of(high)}"
    if abs(value) < 200_000:
        return f"{told}: these are degrees perhaps, and the register is in metres of EPSG:28992"
    return f"{told}: x and y are in the wrong order perhaps" if swapped else told


def _no_number(field: str) -> str:
    if "," in field:
        return f"{_shown(field)} has a comma: a coordinate has a full stop before its decimals, and a space after it"
    if re.fullmatch(r"-?[0-9]+\.[0-9]{4,}", field):
        return f"{_shown(field)} has more than three decimals: the register holds whole millimetres"
    return f"{_shown(field)} is no coordinate: metres, with at most three decimals"
