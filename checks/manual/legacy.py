"""Legacy filters, legacy functions and token texts, by the manual's chapter on legacy forms.

What they give is evaluated here as that chapter says, and not by their expressions. These are made only for what may fail in them.
"""

import dataclasses
import re

import meaning
import properties
import trees
import values
from millionths import ONE
from trees import Number

GROUPS = ("all", "any", "none")
MOST_GROUPS = 24
SHAPES = ("Point", "LineString", "Polygon")
ORDERS = {"<": lambda a, b: a < b, "<=": lambda a, b: a <= b, ">": lambda a, b: a > b, ">=": lambda a, b: a >= b}
TOKEN = re.compile(r"\{([^{}]+)\}")


# Filters.


def is_legacy(tree):
    """Whether a filter is legacy; else it is an expression."""
    if isinstance(tree, bool):
        return False
    if not isinstance(tree, list) or not tree:
        return True
    name, *elements = tree
    if name == "has":
        return not elements or elements[0] in ("$id", "$type")
    if name == "in":
        return len(elements) < 2 or (trees.is_text(elements[0]) and not isinstance(elements[1], list))
    if name in ("!in", "!has", "none"):
        return True
    if name in ("==", "!=") or name in list(ORDERS):
        return len(elements) == 2 and not any(isinstance(one, list) for one in elements)
    return name in ("all", "any") and any(map(is_legacy, elements))


def filter_fault(tree, path=(), groups=0):
    """The path of the first ill-formed part of a legacy filter, or None."""
    if isinstance(tree, list) and tree and tree[0] in GROUPS:
        if groups == MOST_GROUPS:
            return path
        found = (filter_fault(part, (*path, place), groups + 1) for place, part in enumerate(tree[1:], 1))
        return next((fault for fault in found if fault is not None), None)
    return None if isinstance(tree, bool) or is_test(tree) else path


def is_test(tree):
    """Whether a tree is a well-formed test of one key."""
    if not isinstance(tree, list) or len(tree) < 2 or not trees.is_text(tree[0]) or not trees.is_text(tree[1]):
        return False
    name, key, *given = tree
    if name in ("has", "!has"):
        return not given
    if not all(is_filter_value(key, one) for one in given):
        return False
    if name in ("in", "!in"):
        return True
    return len(given) == 1 and (name in ("==", "!=") or (name in ORDERS and key != "$type"))


def is_filter_value(key, tree):
    if key == "$type":
        return trees.is_text(tree) and tree in SHAPES
    return trees.is_text(tree) or isinstance(tree, bool) or trees.number(tree) is not None


def passes(tree, world):
    """Whether a feature passes a legacy filter."""
    if isinstance(tree, bool):
        return tree
    name = tree[0]
    if name in GROUPS:
        passed = [passes(part, world) for part in tree[1:]]
        return {"all": all(passed), "any": any(passed), "none": not any(passed)}[name]
    found = value_of_key(tree[1], world)
    given = [trees.value(one) for one in tree[2:]]
    if name in ("has", "!has"):
        return bool(found) is (name == "has")
    if name in ORDERS:
        return bool(found) and is_ordered(ORDERS[name], found[0], given[0])
    is_equal = bool(found) and any(values.equal(found[0], one) for one in given)
    return is_equal is (name in ("==", "in"))


def reads_feature(tree):
    """Whether the expression of a legacy filter reads the feature."""
    if isinstance(tree, bool):
        return False
    if tree[0] in GROUPS:
        return any(map(reads_feature, tree[1:]))
    is_known = tree[0] in ("has", "!has") and tree[1] == "$type" or tree[0] in ORDERS and isinstance(tree[2], bool)
    return not is_known


def value_of_key(key, world):
    """The value of a key in a list, which is empty where it is missing."""
    if key == "$type":
        return [world.shape]
    if key == "$id":
        return [] if world.identifier is None else [world.identifier]
    return [world.properties[key]] if key in world.properties else []


def is_ordered(order, a, b):
    return type(a) is type(b) and type(a) in (int, str) and order(a, b)


# Token texts.


def has_token(tree):
    return trees.is_text(tree) and TOKEN.search(tree) is not None


def token_text(text, world):
    return TOKEN.sub(lambda token: values.text_of(world.properties.get(token[1])), text)


def token_expression(text):
    """A token text as an expression; the pieces at odd places are names of properties."""
    pieces = TOKEN.split(text)
    return ["concat", *(["get", piece] if place % 2 else piece for place, piece in enumerate(pieces) if piece)]


# Functions.


@dataclasses.dataclass
class Function:
    """A well-formed legacy function of a row. Stops are pairs of trees; with zooms there is a list of them for each zoom."""

    row: properties.Row
    kind: str
    base: str
    key: str | None
    default: object
    stops: list
    zooms: list
    is_outside: bool

    def value(self, world):
        """What the function gives, fitted to the row."""
        if not self.zooms:
            return self.value_of_stops(self.stops, world)
        outputs = [lambda stops=stops: self.value_of_stops(stops, world) for _, stops in self.zooms]
        return self.ramp(world.zoom, [zoom for zoom, _ in self.zooms], outputs, self.row.ramps())

    def ramp(self, x, inputs, outputs, is_linear, base=None):
        """What lies between outputs, or the output of the greatest input that is not above x, below all the first."""
        if is_linear:
            return meaning.ramp(x, base, inputs, outputs)
        return outputs[max(0, sum(1 for least in inputs if least <= x) - 1)]()

    def value_of_stops(self, stops, world):
        if self.kind == "identity":
            return self.identity(world)
        x = [world.zoom] if self.key is None else value_of_property(self.key, world)
        if self.kind == "categorical":
            return self.categorical(x, stops, world)
        if not x or type(x[0]) is not int:
            return self.otherwise(world)
        outputs = [lambda output=output: self.output(output, world) for _, output in stops]
        base = trees.number(self.base)
        inputs = [trees.number(one) for one, _ in stops]
        return self.ramp(x[0], inputs, outputs, self.kind == "exponential", None if base == ONE else base)

    def categorical(self, x, stops, world):
        for one, output in stops:
            if x and values.equal(x[0], trees.value(one)):
                return self.output(output, world)
        return self.otherwise(world)

    def identity(self, world):
        """The property, where it has the form of the row."""
        found = value_of_property(self.key, world)
        if found and (self.row.kind == "text" or values.form(found[0]) == form_of_row(self.row)):
            return values.fitted(found[0], self.row.wanted())
        return self.otherwise(world)

    def output(self, tree, world):
        value = token_text(tree, world) if self.row.takes_tokens() and has_token(tree) else trees.value(tree)
        return values.fitted(value, self.row.wanted())

    def otherwise(self, world):
        return self.output(self.default, world)

    # The expression of the function.

    def expression(self):
        if not self.zooms:
            return self.expression_of(self.stops)
        outputs = [[Number(values.printed(zoom)), self.expression_of(stops)] for zoom, stops in self.zooms]
        return ramp_expression(["zoom"], outputs, self.row.ramps(), ["linear"])

    def expression_of(self, stops):
        given = ["get", self.key] if self.key is not None else ["zoom"]
        default = self.spelled(self.default)
        if self.kind == "identity" and self.row.kind == "text":
            return ["coalesce", given, default]
        if self.kind == "identity":
            return ["case", ["==", ["typeof", given], form_of_row(self.row)], given, default]
        spelled = [[one, self.spelled(output)] for one, output in stops]
        if self.kind == "categorical":
            return ["case", *(part for one, output in spelled for part in (["==", given, one], output)), default]
        curve = ["linear"] if trees.number(self.base) == ONE else ["exponential", self.base]
        made = ramp_expression(given, spelled, self.kind == "exponential", curve)
        return made if self.key is None else ["case", ["==", ["typeof", given], "number"], made, default]

    def spelled(self, tree):
        """An output or default as an expression."""
        if self.row.takes_tokens() and has_token(tree):
            return token_expression(tree)
        return ["literal", tree] if isinstance(tree, list) else tree


def ramp_expression(given, stops, is_linear, curve):
    pairs = [part for pair in stops for part in pair]
    if is_linear:
        return ["interpolate", curve, given, *pairs]
    return ["step", given, *pairs[1:]] if len(stops) > 1 else pairs[1]


def value_of_property(key, world):
    return [world.properties[key]] if key in world.properties else []


def form_of_row(row):
    """The form that a property has to have for an identity function."""
    if row.kind in ("nums", "nums2", "nums4", "fonts", "enums"):
        return "array"
    return {"num": "number", "bool": "boolean"}.get(row.kind, "string")


MEMBERS = ("type", "base", "property", "stops", "default", "colorSpace")


def read_function(row, tree):
    """The legacy function of an object, or None where it is ill-formed."""
    members = dict(tree)
    kind = members.get("type", "exponential" if row.ramps() else "interval")
    if any(name not in MEMBERS for name in members) or kind not in ("exponential", "interval", "categorical", "identity"):
        return None
    if kind == "exponential" and not row.ramps() or not has_scalar_members(row, members):
        return None
    key = members.get("property")
    base = members.get("base", Number("1"))
    if (kind in ("categorical", "identity") and key is None) or (kind == "identity") is ("stops" in members):
        return None
    function = Function(row, kind, base, key, members.get("default", row.default), [], [], "colorSpace" in members)
    if kind != "identity" and not put_stops(function, members["stops"]):
        return None
    curved = kind == "exponential" and trees.number(base) != ONE
    function.is_outside = function.is_outside or (curved and (trees.number(base) <= 0 or function.zooms != []))
    return function


def has_scalar_members(row, members):
    """Whether base, property and default are of their form, where they are there."""
    if "base" in members and trees.number(members["base"]) is None:
        return False
    if "property" in members and not trees.is_text(members["property"]):
        return False
    return "default" not in members or properties.is_literal(row, members["default"])


def put_stops(function, tree):
    """Puts the stops of a tree into a function; gives whether they have their form."""
    if not isinstance(tree, list) or not tree or not all(isinstance(stop, list) and len(stop) == 2 for stop in tree):
        return False
    if not all(properties.is_literal(function.row, output) for _, output in tree):
        return False
    inputs = [one for one, _ in tree]
    if any(map(trees.is_object, inputs)):
        return function.key is not None and put_zooms(function, tree)
    function.stops = tree
    if not are_inputs(function, inputs):
        return False
    function.stops = without_repeats(tree)
    return True


def put_zooms(function, tree):
    if not all(trees.is_object(one) and {name for name, _ in one} == {"zoom", "value"} for one, _ in tree):
        return False
    zooms = [trees.number(trees.member(one, "zoom")) for one, _ in tree]
    if None in zooms or zooms != sorted(zooms):
        return False
    for zoom in dict.fromkeys(zooms):
        stops = [[trees.member(one, "value"), output] for (one, output), at in zip(tree, zooms) if at == zoom]
        if not are_inputs(function, [one for one, _ in stops]):
            return False
        function.zooms.append((zoom, without_repeats(stops)))
    return True


def are_inputs(function, inputs):
    """Whether inputs are of their form and in their order."""
    is_free = function.kind == "categorical"
    is_input = lambda one: trees.number(one) is not None or (is_free and (trees.is_text(one) or isinstance(one, bool)))
    if not all(map(is_input, inputs)):
        return False
    numbers = [trees.number(one) for one in inputs if isinstance(one, Number)]
    given = [trees.value(one) for one in inputs]
    is_repeated = is_free and any(values.equal(a, b) for place, a in enumerate(given) for b in given[:place])
    return numbers == sorted(numbers) and not is_repeated


def without_repeats(stops):
    """The stops without those whose number is that of the stop before."""
    kept = stops[:1]
    for before, stop in zip(stops, stops[1:]):
        number = trees.number(stop[0])
        if number is None or number != trees.number(before[0]):
            kept.append(stop)
    return kept
