"""From features of a GIS to objects and areas of a message. What is not right is told by feature, and nothing is mended in silence."""
from dataclasses import dataclass, field
from typing import NamedTuple

from . import forms, mapping
from .catalogue import AREA, ATTRIBUTES, KINDS
from .forms import day_of
from .millimetres import is_within, nearest, of_double, point_text
from .ogr_layers import Feature, Source
from .output import counted, tell
from .problem import Problem, many
from .progress import steps
from .rings import crossing_point, directed, first_meeting, first_repeat, first_ring_meeting
from .text import Item, Point, Ring, Shape, edges
from .wkb import Doubles, Polygon


class Drawn(NamedTuple):
    """An object as it was drawn: its item, the feature that it is from, and the fields that the feature leaves open."""

    ident: str
    item: Item
    where: str
    open_fields: frozenset[str]


@dataclass
class Reader:
    """Reads features, and keeps what is to be told of them."""

    holder: str
    moment: str
    may_round: bool = False
    is_rd: bool = False
    faults: list[str] = field(default_factory=list)
    turned_outer: int = 0
    turned_holes: int = 0
    rounded: int = 0
    farthest: float = 0.0
    others: int = 0
    layers: int = 0
    not_named: list[str] = field(default_factory=list)

    def objects(self, sources: list[str], rules: mapping.Mapping) -> list[Drawn]:
        """The objects of all layers, by rising identification."""
        drawn: dict[str, Drawn] = {}
        for source in (Source(text, self.is_rd) for text in sources):
            for layer in source.names():
                for it in self._layer(source, layer, rules):
                    if it.ident in drawn:
                        self.faults.append(f"{it.where} has the identification {it.ident}, as {drawn[it.ident].where} has")
                    drawn[it.ident] = it
        self._end()
        if not drawn:
            raise Problem(f"{' and '.join(sources)} {'has' if len(sources) == 1 else 'have'} no object of {self.holder}")
        return [drawn[ident] for ident in sorted(drawn)]

    def area(self, text: str) -> tuple[Shape, ...]:
        """The shapes of the holder's area: all polygons of the layer, or those that are of the kind `gebied` where it has kinds."""
        source = Source(text, self.is_rd)
        names = source.names()
        if len(names) > 1:
            if AREA not in names:
                raise Problem(f"{text} has the layers {', '.join(names)}: name that of the area, as {text}|layername={names[0]}")
            names = [AREA]
        shapes = []
        for each in source.features(names[0]):
            if self._is_other(each) or each.columns.get("kind") not in (None, AREA):
                continue
            if each.fault:
                self.faults.append(f"{each.where()} {each.fault}")
            shapes += [self._shape(polygon, each.where()) for polygon in each.polygons]
        self._end()
        if not shapes:
            raise Problem(f"{text} has no area of {self.holder}")
        return tuple(shapes)

    def _end(self) -> None:
        if self.faults:
            raise many(self.faults)

    def _is_other(self, each: Feature) -> bool:
        return each.columns.get("holder") not in (None, "", self.holder)

    def _layer(self, source: Source, name: str, every: mapping.Mapping) -> list[Drawn]:
        rules = every.of(name)
        if rules is None:
            self.not_named += [name] if name != AREA else []
            return []
        if source.count(name) == 0 and source.wanted:
            raise Problem(f"layer {name} of {source.path} is empty")
        self._check_columns(source, name, rules)
        self.layers += 1
        found = []
        for each in steps(source.features(name), source.count(name), name):
            if each.columns.get("kind") == AREA:
                continue
            if self._is_other(each):
                self.others += 1
                continue
            drawn = self._object(each, rules)
            if drawn is not None:
                found.append(drawn)
        return found

    def _check_columns(self, source: Source, name: str, rules: mapping.LayerRules) -> None:
        """Without a column for it no feature has an identification, so one sentence is enough."""
        columns = source.columns(name) + ["fid"]
        without = rules.without_column(columns)
        for wanted in ("identification", "kind"):
            if wanted in without:
                has = f"it has {', '.join(columns[:-1])}" if len(columns) > 1 else "it has no columns"
                raise Problem(f"layer {name} of {source.path} has no column {rules.rules[wanted].column} for the {wanted}, {has}: name one by "
                              "--mapping")

    def _object(self, each: Feature, rules: mapping.LayerRules) -> Drawn | None:
        """The object of a feature, or None where something is told of it."""
        told = len(self.faults)
        if each.fault:
            self.faults.append(f"{each.where()} {each.fault}")
            return None
        if len(each.polygons) != 1:
            self.faults.append(f"{each.where()} has {len(each.polygons)} parts, and an object has one outer ring: make a feature of each part")
            return None
        columns = {"fid": str(each.fid), **each.columns}
        fields = rules.fields(columns)
        item, open_fields = self._item(fields, each.where())
        open_fields |= rules.without_column(list(columns)) & set(ATTRIBUTES)
        ident = self._ident(fields["identification"], rules.rules["identification"].pad, each.where())
        shape = self._shape(each.polygons[0], each.where())
        if len(self.faults) > told:
            return None
        return Drawn(ident, item._replace(shape=shape), each.where(), open_fields)

    def _ident(self, text: str | None, may_pad: bool, where: str) -> str:
        if text and forms.IDENTIFICATION.match(text):
            if not text.startswith(self.holder):
                self.faults.append(f"{where} has the identification {text}, and the message is one of {self.holder}")
            return text
        local = (text or "").rjust(32, "0") if may_pad and text else text or ""
        whole = f"{self.holder}.{local}"
        if not forms.IDENTIFICATION.match(whole):
            self.faults.append(f"{where} has the identification {text or 'of no bytes'}: it is to be {self.holder}. and 32 letters or digits, or "
                               "`pad = true` in the mapping puts zeros before a shorter one")
        return whole

    def _item(self, fields: dict[str, str | None], where: str) -> tuple[Item, frozenset[str]]:
        """The fields of an item, and which of them the feature leaves open: level 0 and the day of the moment stand there."""
        kind, level, begin = fields["kind"] or "", fields["level"], fields["begin"]
        if kind not in KINDS:
            self.faults.append(f"{where} has the kind {kind or 'of no bytes'}, which is none: translate it by `values` in the mapping")
        if level is not None and not forms.LEVEL.match(level):
            self.faults.append(f"{where} has the level {level}, which is no whole number of at most three digits")
            level = None
        if begin is not None:
            if not forms.is_day(begin[:10]) or begin[10:11] not in ("", "T", " "):
                self.faults.append(f"{where} has the begin day {begin}, which is no day as 2026-11-03")
            begin = begin[:10]
        for name in ATTRIBUTES:
            if fields[name] and not forms.CODE.match(fields[name]):
                self.faults.append(f"{where} has the {name} {fields[name]!r}, which is no code of letters, digits, _ and -: translate it by "
                                   "`values` in the mapping")
        attributes = tuple((name, fields[name]) for name in ATTRIBUTES if fields[name])
        item = Item(kind, int(level or 0), begin or day_of(self.moment), attributes, ())
        return item, frozenset(name for name, value in (("level", level), ("begin", begin)) if value is None)

    def _shape(self, polygon: Polygon, where: str) -> Shape:
        """The shape of a polygon, its rings in the register's directions."""
        rings = []
        for number, doubles in enumerate(polygon):
            corners = self._corners(doubles[:-1] if len(doubles) > 1 and doubles[0] == doubles[-1] else doubles, where)
            if corners is None:
                return ()
            points = tuple(corners)
            if not self._is_simple(points, where, number):
                return ()
            points, was_turned = directed(points, number == 0)
            self.turned_outer += was_turned and number == 0
            self.turned_holes += was_turned and number > 0
            rings.append(Ring(points))
        met = first_ring_meeting(tuple(rings)) if len(rings) > 1 else None
        if met is not None:
            self.faults.append(f"{where}: its rings {met[0]} and {met[1]} meet near {point_text(crossing_point(*met[2:]))} otherwise than in "
                               "corners of both")
        return tuple(rings)

    def _corners(self, doubles: Doubles, where: str) -> list[Point] | None:
        """The corners in whole millimetres, or None where something is told of one."""
        points = []
        for x, y in doubles:
            point = (of_double(x), of_double(y))
            if None in point:
                point = self._rounded(x, y, where)
                if point is None:
                    return None
            points.append(point)
        outside = next((point for point in points if not is_within(point)), None)
        if outside is not None:
            swapped = ": x and y are in the wrong order perhaps" if is_within(outside[::-1]) else ""
            self.faults.append(f"{where} has a corner {point_text(outside)} outside of the grid's bounds{swapped}")
            return None
        return points

    def _rounded(self, x: float, y: float, where: str) -> Point | None:
        if x != x or y != y or abs(x) > 1e9 or abs(y) > 1e9:
            self.faults.append(f"{where} has a coordinate that is no number of metres: {x} {y}")
            return None
        if not self.may_round:
            self.faults.append(f"{where} has a corner that is not on the millimetre: {x!r} {y!r}; --round rounds such corners, and tells how far")
            return None
        point = (nearest(x), nearest(y))
        self.rounded += 1
        self.farthest = max(self.farthest, abs(point[0] / 1000 - x), abs(point[1] / 1000 - y))
        return point

    def _is_simple(self, points: tuple[Point, ...], where: str, number: int) -> bool:
        """Whether the ring has corners enough, each of them once, and does not cross itself."""
        ring = "its outer ring" if number == 0 else f"its hole {number}"
        if len(points) < 3:
            self.faults.append(f"{where}: {ring} has fewer than three corners")
            return False
        again = first_repeat(points)
        if again is not None:
            self.faults.append(f"{where}: {ring} comes to {point_text(points[again])} twice")
            return False
        met = first_meeting(points)
        if met is None:
            return True
        sides = list(edges(points))
        near = point_text(crossing_point(sides[met[0]], sides[met[1]]))
        self.faults.append(f"{where}: {ring} crosses or touches itself near {near}")
        return False

    def tell(self, objects: list[Drawn]) -> None:
        """Says what was read, and what was changed in it."""
        tell(f"{counted(len(objects), 'object')} of {counted(self.layers, 'layer')}")
        if self.not_named:
            tell(f"left out: {counted(len(self.not_named), 'layer')} that the mapping does not name: {', '.join(self.not_named)}")
        if self.others:
            tell(f"left out: {counted(self.others, 'feature')} of other holders")
        if self.turned_outer or self.turned_holes:
            tell(f"turned: {counted(self.turned_outer, 'outer ring')} to run counter-clockwise, {counted(self.turned_holes, 'hole')} clockwise")
        if self.rounded:
            tell(f"rounded: {counted(self.rounded, 'corner')}, by {self.farthest * 1000:.6f} mm at most")


def tell_defaults(objects: list[Drawn], moment: str) -> None:
    """Says for how many objects a field was not given."""
    for name, value in (("level", "0"), ("begin", f"the day of the moment, {day_of(moment)}")):
        count = sum(name in it.open_fields for it in objects)
        if count:
            tell(f"not given: {name} of {counted(count, 'object')}; taken is {value}")
