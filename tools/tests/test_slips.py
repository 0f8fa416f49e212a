"""The slips of an ordinary day: each gets the reply of the rules, and a sentence that names the repair.

Each slip is one change of the example street, with the replies that the rules give it, written by hand from docs/FORMATS.md.
"""
from dataclasses import dataclass
from typing import Callable

import pytest

from conftest import TOP, bgt, needs_bgt

STREET = (TOP / "examples" / "street.txt").read_text()
LINES = STREET.split("\n")[:-1]
ID = "G0307." + "0" * 30
OK = ["1 OK", "2 OK", "3 OK"]
ALL_LOST = ["2 E9 UNKNOWN 1 -", "3 E9 UNKNOWN 1 -"]
THIRD_LOST = ["3 E9 UNKNOWN 1 -"]


@dataclass
class Slip:
    """A slip: the stream with it, the replies, and what has to be told."""

    name: str
    stream: bytes
    replies: list[str]
    told: list[str]


def line(number: int, change: Callable[[str], str]) -> bytes:
    """The street with a line changed, from 1."""
    lines = LINES.copy()
    lines[number - 1] = change(lines[number - 1])
    return ("\n".join(lines) + "\n").encode()


def written(number: int, text: str) -> bytes:
    return line(number, lambda _: text)


def without(number: int) -> bytes:
    return ("\n".join(LINES[:number - 1] + LINES[number:]) + "\n").encode()


def put(number: int, old: str, new: str) -> bytes:
    assert LINES[number - 1].count(old) == 1
    return line(number, lambda it: it.replace(old, new))


def turned(number: int) -> bytes:
    def turn(text: str) -> str:
        word, *fields = text.split(" ")
        pairs = [" ".join(fields[k:k + 2]) for k in range(0, len(fields), 2)]
        return " ".join([word, *reversed(pairs)])
    return line(number, turn)


def added(*lines: str) -> bytes:
    """The street and a fourth message with these lines."""
    return (STREET + "\n".join(["BERICHT G0307 2026-11-05T09:00:00", *lines, "EINDE", ""])).encode()


SQUARE = "RING 155002 463002 155008 463002 155008 463006 155002 463006"
SLIPS = [
    Slip("area as a plain rectangle", written(3, "RING 155000 463000 155040 463000 155040 463030 155000 463030"),
         ["1 E19 NODE 155000.000 463008.000 155000.000 463000.000 155000.000 463030.000", *ALL_LOST],
         ["in line 3 write 155000.000 463008.000 between 155000.000 463030.000 and 155000.000 463000.000", "8 corners are missing",
          "message 1 would have added it and was refused: repair that one first"]),
    Slip("clockwise ring", turned(5), ["1 E15 SHAPE 1 wound", *ALL_LOST], ["line 5: the outer ring runs clockwise: write its corners in the other"]),
    Slip("counter-clockwise hole", turned(14), ["1 E15 SHAPE 5 wound", *ALL_LOST], ["line 14: the hole runs counter-clockwise"]),
    Slip("no hole under the building", without(14),
         ["1 E20 TILED 155010.000 463020.000 155020.000 463020.000", *ALL_LOST],
         [f"{ID}06 (pand, line 14) stands on {ID}05 (onbegroeid_terreindeel, line 12), which has no hole there: "
          "give it the line `GAT 155010.000 463020.000 155010.000 463028.000 155020.000 463028.000 155020.000 463020.000`"]),
    Slip("annexe without its corners in the yard's hole", written(23, "GAT 155010 463020 155010 463028 155025 463028 155025 463020"),
         ["1 OK", "2 E19 NODE 155020.000 463020.000 155025.000 463020.000 155010.000 463020.000", *THIRD_LOST],
         ["in line 23 write 155020.000 463020.000 between 155025.000 463020.000 and 155010.000 463020.000"]),
    Slip("annexe on the yard", written(23, LINES[13]), ["1 OK", "2 E20 TILED 155020.000 463020.000 155025.000 463020.000", *THIRD_LOST],
         [f"{ID}07 (pand, line 24) stands on {ID}05 (onbegroeid_terreindeel, line 21): let the hole of the latter in line 23 go round it too"]),
    Slip("a yard that is not there", ("\n".join(LINES[:9] + LINES[11:17]) + "\n").encode(),
         ["1 E20 TILED 155000.000 463000.000 155000.000 463008.000"],
         ["is a gap: this land is in the area, and no object lies there; add an object"]),
    Slip("a yard that reaches out of the area", written(11, "RING 155000 463000 155040 463000 155040 463008 155000 463008 154990 463004"),
         ["1 E20 TILED 154990.000 463004.000 155000.000 463000.000", *ALL_LOST],
         [f"{ID}04 (onbegroeid_terreindeel, line 10) lies outside the area: make the area larger"]),
    Slip("carriage returns", STREET.replace("\n", "\r\n").encode(), ["TAIL 2272"], ["carriage returns (CRLF): save it with Unix line ends"]),
    Slip("a blank line at the end", STREET.encode() + b"\n", [*OK, "TAIL 1"], ["a blank line stands after the last message: take it out"]),
    Slip("a comment at the end", STREET.encode() + b"# the end\n", [*OK, "TAIL 10"], ["a comment stands after the last message: take it out"]),
    Slip("no last line feed", STREET.encode()[:-1], ["1 OK", "2 OK", "TAIL 349"],
         ["the last line has no line feed: add one after EINDE"]),
    Slip("UTF-16", STREET.encode("utf-16"), [f"TAIL {2 + 2 * len(STREET)}"], ["UTF-16: save it as ASCII"]),
    Slip("byte order mark", b"\xef\xbb\xbf" + STREET.encode(), ["1 E2 SYNTAX 1", *ALL_LOST], ["byte order mark: save it as UTF-8 without one"]),
    Slip("a space at the end of a line", line(3, lambda it: it + " "), ["1 E2 SYNTAX 3", *ALL_LOST], ["a space at its beginning or end: take it out"]),
    Slip("two spaces", line(3, lambda it: it.replace(" ", "  ", 1)), ["1 E2 SYNTAX 3", *ALL_LOST], ["two spaces stand together"]),
    Slip("a zone", put(1, "09:00:00", "09:00:00Z"), ["1 E2 SYNTAX 1", *ALL_LOST], ["a moment has no zone: take it out"]),
    Slip("a space for T", put(1, "T09", " 09"), ["1 E2 SYNTAX 1", *ALL_LOST], ["write T between the day and the hour, and no space: 2026-11-02T09:00:00"]),
    Slip("a comma", put(5, "RING 155000 463010", "RING 155000,0 463010"), ["1 E2 SYNTAX 5", *ALL_LOST], ["has a comma: a coordinate has a full stop"]),
    Slip("four decimals", put(5, "RING 155000 463010", "RING 155000.0005 463010"), ["1 E2 SYNTAX 5", *ALL_LOST], ["more than three decimals"]),
    Slip("x and y the other way", put(5, "RING 155000 463010", "RING 463010 155000"), ["1 E2 SYNTAX 5", *ALL_LOST], ["in the wrong order perhaps"]),
    Slip("degrees", put(5, "RING 155000 463010", "RING 5.387 52.156"), ["1 E2 SYNTAX 5", *ALL_LOST], ["these are degrees perhaps"]),
    Slip("attributes in another order", written(4, f"T {ID}01 wegdeel 0 2026-11-01 fysiekVoorkomen=gesloten_verharding functie=rijbaan_lokale_weg"),
         ["1 E2 SYNTAX 4", *ALL_LOST], ["the attributes come in the order functie, fysiekVoorkomen, type, bagpnd"]),
    Slip("a kind that is none", put(15, "pand 0", "gebouw 0"), ["1 E2 SYNTAX 15", *ALL_LOST], ["'gebouw' is no kind; pand is meant perhaps"]),
    Slip("a forgotten EINDE", without(17), ["1 E2 SYNTAX 17", "2 E9 UNKNOWN 1 -"],
         ["a new message begins before the last one ended: write the line EINDE before it", "message 1 would have added it"]),
    Slip("another word", put(28, "V ", "D "), ["1 OK", "2 OK", "3 E2 SYNTAX 2"], ["line 28: D G0307", "no line begins with 'D'"]),
    Slip("a forgotten shape", without(5), ["1 E2 SYNTAX 5", *ALL_LOST], ["the shape of the object is missing: a RING line comes after the T line"]),
    Slip("an arc", put(5, "RING", "RINGBOOG"), ["1 E3 ARC 5", *ALL_LOST], ["arcs are not taken: draw the arc as sides"]),
    Slip("a corner twice", put(5, "155040 463010 ", "155040 463010 155040 463010 "), ["1 E15 SHAPE 1 repeat 0 2", *ALL_LOST],
         ["line 5: the ring comes to its corner 155040.000 463010.000 a second time"]),
    Slip("a ring that crosses itself", written(5, "RING 155000 463010 155040 463016 155040 463010 155000 463016"),
         ["1 E15 SHAPE 1 meets 0 0 2", *ALL_LOST], ["line 5: the ring crosses or touches itself", "meet near 155020.000 463013.000"]),
    Slip("two corners", written(5, "RING 155000 463010 155040 463010"), ["1 E15 SHAPE 1 few 0", *ALL_LOST], ["fewer than three corners"]),
    Slip("a hole on the ring", written(14, "GAT 155000 463020 155000 463028 155020 463028 155020 463020"),
         ["1 E15 SHAPE 5 rings 0 1", *ALL_LOST], ["line 13 and line 14: the two rings may meet in corners of both only"]),
    Slip("a corner twice in the area's second shape",
         added("GEBIED", LINES[2], "RING 155050 463000 155060 463000 155060 463010 155055 463010 155060 463000"),
         [*OK, "4 E17 AREA shape 1 repeat 0 4"], ["line 36: the ring comes to its corner 155060.000 463000.000 a second time"]),
    Slip("two area shapes that overlap", added("GEBIED", LINES[2], SQUARE), [*OK, "4 E17 AREA own 0 1"],
         ["line 35 and line 36: these two shapes of the area overlap", "join them into one ring"]),
    Slip("another holder's land", STREET.encode() + f"BERICHT G0001 2026-11-05T09:00:00\nGEBIED\n{SQUARE}\nEINDE\n".encode(),
         [*OK, "4 E17 AREA meets G0307"], ["the area overlaps that of G0307 (line 3): the two holders have to agree on their border"]),
    Slip("a code that is none", put(4, "rijbaan_lokale_weg", "straat"), ["1 E13 ITEM 1 code functie", *ALL_LOST],
         ["straat is no functie of a wegdeel: one of rijbaan_autosnelweg, rijbaan_autoweg, rijbaan_regionale_weg, rijbaan_lokale_weg"]),
    Slip("an attribute of another kind", put(15, "bagpnd", "type=muur bagpnd"), ["1 E13 ITEM 6 code type", *ALL_LOST], ["a pand has no type: take it out"]),
    Slip("a missing attribute", put(4, " fysiekVoorkomen=gesloten_verharding", ""), ["1 E13 ITEM 1 missing fysiekVoorkomen", *ALL_LOST],
         ["a wegdeel has to have fysiekVoorkomen: one of gesloten_verharding"]),
    Slip("a short bagpnd", put(15, "0307100000000001", "123"), ["1 E13 ITEM 6 bagpnd", *ALL_LOST], ["bagpnd is a number of 16 digits"]),
    Slip("a level that is none", put(4, "wegdeel 0", "wegdeel 100"), ["1 E13 ITEM 1 level", *ALL_LOST], ["goes from -99 to 99"]),
    Slip("a day in the future", put(24, "2026-11-03", "2026-11-04"), ["1 OK", "2 E14 DAYS 3", *THIRD_LOST],
         ["line 24", "the begin day 2026-11-04 is after the day of the message, 2026-11-03"]),
    Slip("another moment of the version", put(19, "2026-11-02T09:00:00", "2026-11-02T10:00:00"), ["1 OK", "2 E11 WAS 1 2026-11-02T09:00:00", *THIRD_LOST],
         ["registered at 2026-11-02T09:00:00: write that moment in place of 2026-11-02T10:00:00"]),
    Slip("an identification in use", put(24, f"{ID}07", f"{ID}06"), ["1 OK", "2 E8 KNOWN 3", *THIRD_LOST],
         ["the identification is in use: write W for a change, with the moment 2026-11-02T09:00:00"]),
    Slip("an identification of an object that ended", added(f"T {ID}07 pand 0 2026-11-05", SQUARE), [*OK, "4 E8 KNOWN 1"],
         ["was used before, and its object ended: take a new one"]),
    Slip("an object that never was", put(28, f"{ID}07", f"{ID}09"), ["1 OK", "2 OK", "3 E9 UNKNOWN 1 -"],
         ["there was never such an object: add it by T, or mend the identification"]),
    Slip("an object that ended", added(f"V {ID}07 2026-11-03T09:00:00 2026-11-05"), [*OK, "4 E9 UNKNOWN 1 2026-11-04T09:00:00"],
         ["the object ended at 2026-11-04T09:00:00: add it by T under a new identification"]),
    Slip("the same message again", STREET.encode() + ("\n".join(LINES[:17]) + "\n").encode(), [*OK, "4 E5 STALE 2026-11-04T09:00:00"],
         ["give this one a later moment, or leave it out if it was sent before"]),
    Slip("an area earlier than another holder's", STREET.encode() + b"BERICHT G0001 2026-11-01T09:00:00\nGEBIED\nEINDE\n",
         [*OK, "4 E5 STALE 2026-11-02T09:00:00"], ["the last accepted area block, of any holder, has the moment 2026-11-02T09:00:00"]),
    Slip("one object twice", written(24, f"W {ID}03 2026-11-02T09:00:00 wegdeel 0 2026-11-01 functie=fietspad fysiekVoorkomen=gesloten_verharding"),
         ["1 OK", "2 E6 TWICE 3", *THIRD_LOST], ["line 19 has the same identification: one message changes an object once"]),
    Slip("another holder's identification", put(24, "G0307", "G0308"), ["1 OK", "2 E7 PREFIX 3", *THIRD_LOST], ["begins with G0307."]),
    Slip("another holder's object", STREET.encode() + f"BERICHT G0001 2026-11-05T09:00:00\nV {ID}06 2026-11-02T09:00:00 2026-11-05\nEINDE\n".encode(),
         [*OK, "4 E10 OWNER 1 G0307"], ["the object is one of G0307: that holder has to send the change"]),
    Slip("another kind", put(19, "wegdeel 0 2026-11-01 functie=fietspad", "ondersteunend_wegdeel 0 2026-11-01 functie=berm"),
         ["1 OK", "2 E12 KIND 1 wegdeel", *THIRD_LOST], ["an object keeps its kind: end it by V, and add the other by T"]),
    Slip("two roads above each other", added(*(it for k in "89" for it in (f"T {ID}0{k} wegdeel 1 2026-11-05 functie=fietspad "
         "fysiekVoorkomen=gesloten_verharding", SQUARE))), [*OK, f"4 E18 LEVELS {ID}08 {ID}09"],
         [f"{ID}08 (wegdeel, line 34) and {ID}09 (wegdeel, line 36) share ground at level 1"]),
]


@pytest.mark.parametrize("slip", SLIPS, ids=lambda it: it.name)
def test_each_slip_is_explained(geo, tmp_path, slip):
    (tmp_path / "s.txt").write_bytes(slip.stream)
    (tmp_path / "r.txt").write_text("\n".join(slip.replies) + "\n")
    ran = geo("why", "s.txt", "r.txt", "--geojson", "s.geojson")
    assert (ran.status, ran.err) == (0, "")
    for sentence in slip.told:
        assert sentence in ran.out


@needs_bgt
@pytest.mark.parametrize("slip", SLIPS, ids=lambda it: it.name)
def test_each_slip_has_these_replies(slip):
    ran = bgt("check", messages=slip.stream)
    assert ran.out.split("\n")[:-1] == slip.replies and ran.status == 1


@needs_bgt
def test_a_bridge_beside_the_area_is_no_slip():
    assert bgt("check", messages=added(f"T {ID}08 overbruggingsdeel 1 2026-11-05 type=dek", "RING 154000 463000 154010 463000 154010 463010")
               ).out.endswith("4 OK\n")
