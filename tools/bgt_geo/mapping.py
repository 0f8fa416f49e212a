"""Which columns and values of a layer become which fields of a message, by a TOML file."""
import tomllib
from dataclasses import dataclass, field

from .catalogue import AREA, ATTRIBUTES, KINDS
from .problem import USAGE, Problem

FIELDS = ("identification", "kind", "level", "begin", *ATTRIBUTES)
_RULE_WORDS = {"column": str, "value": (str, int), "values": dict, "missing": (str, int), "pad": bool}


@dataclass
class Rule:
    """How a field is made: from a column, its values by a table, or always one value; `missing` stands where the column is empty."""

    column: str | None = None
    value: str | None = None
    values: dict[str, str] = field(default_factory=dict)
    missing: str | None = None
    pad: bool = False

    def of(self, columns: dict[str, str | None]) -> str | None:
        """The field of a feature with these columns."""
        if self.value is not None:
            return self.value
        found = columns.get(self.column) if self.column in columns else _cut_name(self.column or "", columns)
        if found is None or found == "":
            return self.missing
        return self.values.get(found, found)


def _cut_name(name: str, columns: dict[str, str | None]) -> str | None:
    """A shapefile keeps ten letters of a column's name."""
    return columns.get(name[:10]) if len(name) > 10 else None


@dataclass
class LayerRules:
    """The rules of one layer, by field."""

    rules: dict[str, Rule]

    def fields(self, columns: dict[str, str | None]) -> dict[str, str | None]:
        """The fields of a feature."""
        return {name: rule.of(columns) for name, rule in self.rules.items()}

    def without_column(self, columns: list[str]) -> set[str]:
        """The fields of which a layer with these columns says nothing at all."""
        return {name for name, rule in self.rules.items()
                if rule.value is None and rule.missing is None and rule.column not in columns and (rule.column or "")[:10] not in columns}


class Mapping:
    """The rules of each layer. Without a file a field is the column of its name."""

    def __init__(self, layers: dict[str, dict[str, Rule]], only_listed: bool):
        self.layers = layers
        self.only_listed = only_listed

    def of(self, layer: str) -> LayerRules | None:
        """The rules of a layer, or None where the file leaves it out. A layer that has a kind's name is of that kind, if nothing else says so."""
        if layer == AREA and AREA not in self.layers:
            return None
        own = self.layers.get(layer, self.layers.get("*"))
        if own is None and self.only_listed:
            return None
        rules = {name: Rule(column=name) for name in FIELDS}
        if layer in KINDS:
            rules["kind"] = Rule(column="kind", missing=layer)
        rules.update(own or {})
        return LayerRules(rules)


def read(path: str | None) -> Mapping:
    """The mapping of a file."""
    if path is None:
        return Mapping({}, False)
    try:
        with open(path, "rb") as it:
            table = tomllib.load(it)
    except OSError as fault:
        raise Problem(f"{path} cannot be read: {fault.strerror}", USAGE) from fault
    except (tomllib.TOMLDecodeError, UnicodeDecodeError) as fault:
        raise Problem(f"{path} is no TOML: {fault}", USAGE) from fault
    layers = table.get("layer", {})
    strange = set(table) - {"layer"}
    if strange or not isinstance(layers, dict) or not layers:
        raise Problem(f"{path} is to have tables [layer.NAME], where * is every other layer" + (f", and no {strange.pop()}" if strange else ""), USAGE)
    return Mapping({name: _layer(path, name, fields) for name, fields in layers.items()}, True)


def _layer(path: str, layer: str, fields: object) -> dict[str, Rule]:
    if not isinstance(fields, dict):
        raise Problem(f"{path}: layer.{layer} is to be a table of fields", USAGE)
    for name in fields:
        if name not in FIELDS:
            raise Problem(f"{path}: layer.{layer} has {name}, and the fields are {', '.join(FIELDS)}", USAGE)
    return {name: _rule(f"{path}: layer.{layer}.{name}", rule) for name, rule in fields.items()}


def _rule(where: str, rule: object) -> Rule:
    """A rule; a text alone is a column's name."""
    if isinstance(rule, str):
        return Rule(column=rule)
    if not isinstance(rule, dict):
        raise Problem(f"{where} is to be a column's name, or a table with column, values, missing, pad or value", USAGE)
    for word, value in rule.items():
        if word not in _RULE_WORDS or not isinstance(value, _RULE_WORDS[word]):
            raise Problem(f"{where}: {word} is not understood; the words are column, values, missing, pad and value", USAGE)
    if ("column" in rule) == ("value" in rule):
        raise Problem(f"{where} is to name a column or a value, and one of the two", USAGE)
    texts = {word: str(rule[word]) for word in ("column", "value", "missing") if word in rule}
    return Rule(values={str(a): str(b) for a, b in rule.get("values", {}).items()}, pad=rule.get("pad", False), **texts)
