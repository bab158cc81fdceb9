"""Which JSON is an expression, by the manual's chapter on expressions.

It gives the nodes, or that the expression is outside, or the code and path of its first fault.
"""

import dataclasses
import re

import trees

ZERO = ["geometry-type", "id", "properties", "zoom"]
ONE = [
    "!", "abs", "ceil", "feature-state", "floor", "global-state", "image", "is-supported-script", "length",
    "literal", "round", "to-boolean", "to-rgba", "to-string", "typeof", "var",
]  # fmt: skip
TWO = ["==", "!=", "<", "<=", ">", ">=", "/", "%", "at", "in"]
MANY = ["boolean", "coalesce", "format", "max", "min", "number", "object", "string", "to-color", "to-number"]
OUTSIDE = set(
    "^ sqrt ln log10 log2 sin cos tan asin acos atan e pi ln2 upcase downcase collator resolved-locale number-format within distance "
    "interpolate-hcl interpolate-lab heatmap-density line-progress accumulated".split()
)
# Whether an operator takes this number of elements.
TAKES = {
    **{name: lambda n: n == 0 for name in ZERO},
    **{name: lambda n: n == 1 for name in ONE},
    **{name: lambda n: n in (1, 2) for name in ["-", "get", "has"]},
    **{name: lambda n: n == 2 for name in TWO},
    **{name: lambda n: n in (2, 3) for name in ["index-of", "slice"]},
    **{name: lambda n: n in (3, 4) for name in ["rgb", "rgba"]},
    **{name: lambda n: True for name in ["+", "*", "all", "any", "concat"]},
    **{name: lambda n: n >= 1 for name in MANY},
    **{name: lambda n: n >= 3 and n % 2 == 1 for name in ["case", "let"]},
    **{name: lambda n: n >= 4 and n % 2 == 0 for name in ["interpolate", "match", "step"]},
    "array": lambda n: 1 <= n <= 3,
}
NAMES = set(TAKES) | OUTSIDE
OPTIONS = ["font-scale", "text-font", "text-color"]
CODES = ["NoOperator", "UnknownOperator", "Arity", "Part", "BareObject", "NumberRange", "UnknownVar"]
MOST_LENGTH = 4294967295


class Refused(Exception):
    """The code and path of the first fault, or Outside."""


@dataclasses.dataclass
class Node:
    """A node: its operator, path, arguments in the order of the text, and parts by name. A bare literal is a `literal`."""

    operator: str
    path: tuple
    arguments: list = dataclasses.field(default_factory=list)
    parts: dict = dataclasses.field(default_factory=dict)


def read(tree):
    """The root node of an expression."""
    reader = Reader()
    node = reader.element(tree, (), frozenset(), True)
    if reader.is_outside:
        raise Refused("Outside")
    if reader.faults:
        code, path = reader.faults[0]
        raise Refused(code, path)
    return node


def begins_with_operator(tree):
    return isinstance(tree, list) and tree and trees.is_text(tree[0]) and tree[0] in NAMES


class Reader:
    """Reads elements in document order, and keeps their faults."""

    def __init__(self):
        self.is_outside = False
        self.faults = []

    def fault(self, code, path):
        self.faults.append((code, path))

    def element(self, tree, path, names, takes_format):
        """The node of an argument or of the whole expression."""
        if isinstance(tree, list):
            return self.node(tree, path, names, takes_format)
        if trees.is_object(tree):
            return self.fault("BareObject", path)
        if not trees.is_within_bound(tree):
            return self.fault("NumberRange", path)
        return Node("literal", path, [], {"value": trees.value(tree), "bare": True})

    def node(self, tree, path, names, takes_format):
        if not tree or not trees.is_text(tree[0]):
            return self.fault("NoOperator", path)
        operator, count = tree[0], len(tree) - 1
        if operator in OUTSIDE or (operator == "format" and not takes_format) or has_outside_curve(tree):
            self.is_outside = True
        elif operator not in TAKES:
            self.fault("UnknownOperator", path)
        elif not TAKES[operator](count):
            self.fault("Arity", path)
        else:
            return self.known(tree, path, names, takes_format)
        return None

    def known(self, tree, path, names, takes_format):
        """The node of a known operator with a right number of elements."""
        operator = tree[0]
        node = Node(operator, path)
        fault = PARTS[operator](node, tree, names) if operator in PARTS else None
        if fault:
            self.fault(fault, path)
        if operator == "format":
            self.sections(node, tree, path, names)
        else:
            self.arguments(node, tree, path, names, takes_format)
        return node

    def arguments(self, node, tree, path, names, takes_format):
        for place in argument_places(tree):
            inner = names
            if node.operator == "let" and place == len(tree) - 1:
                inner = names | {name for name in tree[1:-1:2] if trees.is_text(name)}
            takes = takes_format and is_output(tree, place)
            node.arguments.append(self.element(tree[place], (*path, place), inner, takes))

    def sections(self, node, tree, path, names):
        """The contents and options of a `format`."""
        sections = node.parts["sections"] = []
        for place in range(1, len(tree)):
            part = tree[place]
            if trees.is_object(part) and place > 1 and not trees.is_object(tree[place - 1]):
                for name, option in part:
                    self.is_outside = self.is_outside or name not in OPTIONS
                    made = self.element(option, (*path, place, name), names, False)
                    sections[-1][1].append((name, made))
                    node.arguments.append(made)
                continue
            if isinstance(part, list) and part[:1] == ["image"]:
                self.is_outside = True
            made = self.element(part, (*path, place), names, False)
            sections.append((made, []))
            node.arguments.append(made)


def argument_places(tree):
    """The places of the elements that are expressions."""
    operator, last = tree[0], len(tree) - 1
    if operator in ("literal", "var", "global-state"):
        return []
    if operator == "array":
        return [last]
    if operator == "let":
        return [*range(2, last, 2), last]
    if operator == "match":
        return [1, *range(3, last, 2), last]
    if operator == "step":
        return [1, *range(2, last + 1, 2)]
    if operator == "interpolate":
        return [2, *range(4, last + 1, 2)]
    return range(1, last + 1)


def is_output(tree, place):
    """Whether the value of the node may be that of the element at this place, so that it may be a `format`."""
    operator, last = tree[0], len(tree) - 1
    if operator == "case":
        return place == last or place % 2 == 0
    if operator in ("match", "step"):
        return place > 1
    return operator == "coalesce" or (operator == "let" and place == last)


def literal_parts(node, tree, names):
    if not trees.is_within_bound(tree[1]):
        return "NumberRange"
    node.parts.update(value=trees.value(tree[1]), bare=False)
    return None


def array_parts(node, tree, names):
    node.parts.update(type=None, length=None)
    if len(tree) > 2:
        if not trees.is_text(tree[1]) or tree[1] not in ("boolean", "number", "string"):
            return "Part"
        node.parts["type"] = tree[1]
    if len(tree) > 3:
        length = trees.number(tree[2])
        if length is None or length % 10**6 or not 0 <= length <= MOST_LENGTH * 10**6:
            return "Part"
        node.parts["length"] = length // 10**6
    return None


def match_parts(node, tree, names):
    groups = [label if isinstance(label, list) else [label] for label in tree[2:-1:2]]
    labels = [label for group in groups for label in group]
    known = [trees.value(label) for label in labels if trees.is_within_bound(label)]
    node.parts["labels"] = [[trees.value(label) for label in group] for group in groups]
    are_texts = all(map(trees.is_text, labels))
    are_numbers = all(isinstance(label, trees.Number) for label in labels)
    if [] in groups or not (are_texts or are_numbers) or len(set(known)) < len(known):
        return "Part"
    if are_numbers and any(label % 10**6 for label in known):
        return "Part"
    return "NumberRange" if len(known) < len(labels) else None


def ascending_inputs(node, inputs):
    """The fault of the inputs of a ramp, each of which has to be above the one before it."""
    if not all(isinstance(one, trees.Number) for one in inputs):
        return "Part"
    known = [trees.number(one) for one in inputs]
    node.parts["inputs"] = known
    if any(a is not None and b is not None and a >= b for a, b in zip(known, known[1:])):
        return "Part"
    return "NumberRange" if None in known else None


def step_parts(node, tree, names):
    return ascending_inputs(node, tree[3::2])


def interpolate_parts(node, tree, names):
    curve = tree[1]
    is_exponential = isinstance(curve, list) and curve[:1] == ["exponential"]
    node.parts["base"] = trees.number(curve[1]) if is_exponential else None
    return ascending_inputs(node, tree[3::2]) if is_exponential or curve == ["linear"] else "Part"


def has_outside_curve(tree):
    """Whether it is an `interpolate` along a curve that is not evaluated."""
    if tree[0] != "interpolate" or len(tree) < 2 or not isinstance(tree[1], list):
        return False
    curve = tree[1]
    if curve[:1] == ["exponential"]:
        base = trees.number(curve[1]) if len(curve) == 2 else None
        return base is None or base <= 0
    return curve[:1] == ["cubic-bezier"]


def let_parts(node, tree, names):
    node.parts["names"] = tree[1:-1:2]
    return None if all(trees.is_text(name) and re.fullmatch("[A-Za-z0-9_]+", name) for name in tree[1:-1:2]) else "Part"


def var_parts(node, tree, names):
    node.parts["name"] = tree[1]
    if not trees.is_text(tree[1]):
        return "Part"
    return None if tree[1] in names else "UnknownVar"


def global_parts(node, tree, names):
    node.parts["name"] = tree[1]
    return None if trees.is_text(tree[1]) else "Part"


# What reads the parts of an operator into its node, and gives their fault.
PARTS = {
    "literal": literal_parts,
    "array": array_parts,
    "match": match_parts,
    "step": step_parts,
    "interpolate": interpolate_parts,
    "let": let_parts,
    "var": var_parts,
    "global-state": global_parts,
}


def nodes(node):
    """All nodes, each before its arguments."""
    yield node
    for argument in node.arguments:
        yield from nodes(argument)


def reads_feature(node):
    """Whether this one node reads the feature."""
    if node.operator in ("get", "has"):
        return len(node.arguments) == 1
    return node.operator in ("properties", "id", "geometry-type")


def mentions_feature(node):
    """Whether an expression reads the feature or its state."""
    return any(reads_feature(one) or one.operator == "feature-state" for one in nodes(node))
