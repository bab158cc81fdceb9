"""What `validate` prints of a style, by the manual's chapter on rules."""

import dataclasses

import expressions
import kinds
import legacy
import properties
import trees
from millionths import ONE
from properties import ROWS, TYPES, UNREAD, UNREAD_TYPES
from values import BOOLEAN

SOURCE_TYPES = ("vector", "raster", "raster-dem", "geojson", "image", "video")
MOST_LAYERS = 65536


@dataclasses.dataclass
class Checked:
    """What is found of one value or filter: a finding as (path, rule), whether it is outside, what may fail, and what it is.

    What it is has one of the forms literal, expression, function, tokens and legacy; of what has a finding or is outside it is missing.
    """

    finding: tuple | None = None
    is_outside: bool = False
    may: list = dataclasses.field(default_factory=list)
    meant: object = None


class Report:
    """Findings, and what else is found, in the order of the text."""

    def __init__(self, style):
        self.style = style
        self.findings = []
        self.notes = []
        self.may = []
        self.whole(style)

    def lines(self):
        if self.findings:
            return [f"finding {trees.pointer(path)} V{rule}" for path, rule in self.findings] + ["invalid"]
        notes = [f"note {trees.pointer(path)} outside" for path in self.notes]
        return notes + [f"may {trees.pointer(path)} {' '.join(faults)}" for path, faults in self.may] + ["valid"]

    def found(self, path, rule):
        self.findings.append((path, rule))

    def whole(self, style):
        if not trees.is_object(style):
            return self.found((), 1)
        if not all(trees.has_member(style, name) for name in ("version", "sources", "layers")):
            return self.found((), 2)
        for name, tree in style:
            if name == "version" and trees.number(tree) != 8 * ONE:
                self.found((name,), 3)
            if name == "sources":
                self.members(name, tree, 4, is_source)
            if name == "layers":
                self.layers(tree)
            if name == "state":
                self.members(name, tree, 22, is_state)
        return None

    def members(self, name, tree, rule, holds):
        if not trees.is_object(tree):
            return self.found((name,), rule)
        for key, member in tree:
            if not holds(member):
                self.found((name, key), rule)
        return None

    def layers(self, tree):
        if not isinstance(tree, list) or len(tree) > MOST_LAYERS:
            return self.found(("layers",), 5)
        earlier = set()
        for place, layer in enumerate(tree):
            if not trees.is_object(layer):
                self.found(("layers", place), 6)
                continue
            self.layer(("layers", place), layer, earlier)
            if trees.is_text(trees.member(layer, "id")):
                earlier.add(trees.member(layer, "id"))
        return None

    def layer(self, path, layer, earlier):
        context = Context(self.style, layer)
        rules = context.rules_of_layer()
        if rules:
            return self.found(path, rules[0])
        for name, tree in layer:
            if name in ("layout", "paint"):
                self.properties((*path, name), context, tree)
            elif name == "filter":
                self.checked((*path, name), checked_filter(tree))
            else:
                rule = context.rule_of_member(name, tree, earlier)
                if rule:
                    self.found((*path, name), rule)
        return None

    def properties(self, path, context, tree):
        if not context.keeps_9 or context.type in UNREAD_TYPES:
            return None
        if not trees.is_object(tree):
            return self.found(path, 14)
        for name, value in tree:
            row = ROWS.get((context.type, path[-1], name))
            if row:
                self.checked((*path, name), checked_value(row, value))
            elif is_transition(context.type, path[-1], name):
                if not trees.is_object(value):
                    self.found((*path, name), 21)
            elif (context.type, path[-1], name) not in UNREAD:
                self.found((*path, name), 14)
        return None

    def checked(self, path, checked):
        if checked.finding:
            inner, rule = checked.finding
            self.found((*path, *inner), rule)
        if checked.is_outside:
            self.notes.append(path)
        if checked.may:
            self.may.append((path, checked.may))


def is_source(tree):
    return trees.is_object(tree) and trees.is_text(trees.member(tree, "type")) and trees.member(tree, "type") in SOURCE_TYPES


def is_state(tree):
    return trees.is_object(tree) and trees.has_member(tree, "default") and trees.is_within_bound(trees.member(tree, "default"))


def is_transition(kind, place, name):
    return place == "paint" and name.endswith("-transition") and (kind, place, name.removesuffix("-transition")) in ROWS


class Context:
    """What the rules of a layer depend on."""

    def __init__(self, style, layer):
        self.layer = layer
        kind = trees.member(layer, "type")
        self.type = kind if trees.is_text(kind) and kind in TYPES else None
        self.keeps_9 = self.type is not None and not trees.has_member(layer, "ref")
        sources = trees.member(style, "sources")
        self.needs_source = self.keeps_9 and trees.is_object(sources) and self.type != "background"
        name = trees.member(layer, "source")
        self.keeps_10 = self.needs_source and trees.is_text(name) and trees.has_member(sources, name)
        source = trees.member(sources, name) if self.keeps_10 else None
        self.source_type = trees.member(source, "type") if self.keeps_10 and is_source(source) else None

    def rules_of_layer(self):
        """The rules whose place is the layer itself."""
        has = lambda name: trees.has_member(self.layer, name)
        broken = [
            (7, not has("id")),
            (9, not has("type") or has("ref")),
            (10, self.needs_source and not has("source")),
            (12, self.source_type == "vector" and not has("source-layer")),
        ]
        return [rule for rule, is_broken in broken if is_broken]

    def rule_of_member(self, name, tree, earlier):
        """The rule that a member breaks, or None."""
        if name == "id":
            return 7 if not trees.is_text(tree) else 8 if tree in earlier else None
        if name == "type":
            return 9 if self.type is None else None
        if name == "source" and self.needs_source:
            return 10 if not self.keeps_10 else 11 if self.source_type and not self.suits() else None
        if name == "source-layer" and self.source_type == "vector":
            return None if trees.is_text(tree) else 12
        if name in ("minzoom", "maxzoom"):
            number = trees.number(tree)
            return None if number is not None and 0 <= number <= 24 * ONE else 13
        return None

    def suits(self):
        if self.type == "raster":
            return self.source_type in ("raster", "image", "video")
        return self.source_type in (("raster-dem",) if self.type in UNREAD_TYPES else ("vector", "geojson"))


def checked_filter(tree):
    if legacy.is_legacy(tree):
        fault = legacy.filter_fault(tree)
        return Checked(finding=None if fault is None else (fault, 20), meant=("legacy", tree))
    return checked_expression(tree, BOOLEAN, "zf", True)


def checked_value(row, tree):
    """What is found of the value of a property, and what it is."""
    if row.name != "visibility":
        if expressions.begins_with_operator(tree):
            return checked_expression(tree, row.wanted(), row.inputs, False)
        if trees.is_object(tree):
            return checked_function(row, tree)
        if row.takes_tokens() and legacy.has_token(tree):
            return Checked(meant=("tokens", tree))
    if not properties.is_literal(row, tree):
        return Checked(finding=((), 15))
    return Checked(meant=("literal", tree))


def checked_expression(tree, wanted, inputs, is_filter):
    try:
        node = expressions.read(tree)
        may = kinds.checked(node, wanted)
    except expressions.Refused as refused:
        return Checked(is_outside=True) if refused.args[0] == "Outside" else Checked(finding=(refused.args[1], 16))
    nodes = list(expressions.nodes(node))
    forbidden = [one.path for one in nodes if not may_read(one, inputs)]
    if forbidden:
        return Checked(finding=(forbidden[0], 17))
    misplaced = [] if is_filter else misplaced_zooms(node)
    if misplaced:
        return Checked(finding=(misplaced[0], 18))
    return Checked(may=may, meant=("expression", node))


def may_read(node, inputs):
    """Whether a node reads only what is in these inputs."""
    if node.operator == "zoom":
        return "z" in inputs
    if node.operator == "feature-state":
        return "s" in inputs
    return "f" in inputs or not expressions.reads_feature(node)


def misplaced_zooms(root):
    """The paths of `zoom` nodes that are at a wrong place, or that are not the first."""
    places = [id(one) for one in zoom_places(root)]
    zooms = [one for one in expressions.nodes(root) if one.operator == "zoom"]
    return [one.path for place, one in enumerate(zooms) if place > 0 or id(one) not in places]


def zoom_places(node):
    """The nodes at the places where a `zoom` may be."""
    if node.operator in ("step", "interpolate"):
        yield node.arguments[0]
    reached = {"let": node.arguments[-1:], "coalesce": node.arguments}.get(node.operator, [])
    for one in reached:
        yield from zoom_places(one)


def checked_function(row, tree):
    function = legacy.read_function(row, tree)
    if function is None:
        return Checked(finding=((), 19))
    if function.is_outside:
        return Checked(is_outside=True)
    node = expressions.read(function.expression())
    if expressions.mentions_feature(node) and "f" not in row.inputs:
        return Checked(finding=((), 17))
    return Checked(may=kinds.checked(node, row.wanted()), meant=("function", (function, node)))
