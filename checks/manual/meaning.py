"""Evaluates expressions by the manual's sections on how an expression is evaluated and on each operator."""

import dataclasses

import millionths
import values
from millionths import ONE, Fault
from values import ANY, BOOLEAN, COLOR, NUMBER, OBJECT, SEQUENCE, STRING, TEXT, Color, fitted, listed


@dataclasses.dataclass
class World:
    """What an expression can read."""

    zoom: int = 0
    properties: dict = dataclasses.field(default_factory=dict)
    identifier: int | None = None
    shape: str = "Unknown"
    state: dict = dataclasses.field(default_factory=dict)
    globals: dict = dataclasses.field(default_factory=dict)
    images: frozenset = frozenset()


class Binding:
    """A binding of a `let`, evaluated where it is asked for, and at most once."""

    def __init__(self, node, scope):
        self.node, self.scope, self.answer = node, scope, None

    def value(self, world):
        if self.answer is None:
            try:
                self.answer = (evaluated(self.node, ANY, world, self.scope), None)
            except Fault as fault:
                self.answer = (None, fault)
        value, fault = self.answer
        if fault:
            raise fault
        return value


def evaluated(node, wanted, world, scope=None):
    """The value of a node, as what is wanted of it."""
    scope = scope or {}
    if node.operator in CHOICES:
        return CHOICES[node.operator](node, wanted, world, scope)
    if node.operator in LAZY:
        return fitted(LAZY[node.operator](node, world, scope), wanted)
    forms, operation = EAGER[node.operator]
    arguments = [
        evaluated(argument, forms[min(place, len(forms) - 1)], world, scope) for place, argument in enumerate(node.arguments)
    ]
    return fitted(operation(*arguments), wanted)


# Choices, whose outputs are wanted as their node is.


def case(node, wanted, world, scope):
    *pairs, last = node.arguments
    for condition, output in zip(pairs[::2], pairs[1::2]):
        if evaluated(condition, BOOLEAN, world, scope):
            return evaluated(output, wanted, world, scope)
    return evaluated(last, wanted, world, scope)


def match(node, wanted, world, scope):
    key = evaluated(node.arguments[0], ANY, world, scope)
    for labels, output in zip(node.parts["labels"], node.arguments[1:]):
        if any(values.equal(key, label) for label in labels):
            return evaluated(output, wanted, world, scope)
    return evaluated(node.arguments[-1], wanted, world, scope)


def step(node, wanted, world, scope):
    x = evaluated(node.arguments[0], NUMBER, world, scope)
    passed = sum(1 for least in node.parts["inputs"] if least <= x)
    return evaluated(node.arguments[1 + passed], wanted, world, scope)


def interpolate(node, wanted, world, scope):
    if wanted == TEXT:
        return values.text_of(interpolate(node, ANY, world, scope))
    x = evaluated(node.arguments[0], NUMBER, world, scope)
    outputs = [lambda one=one: evaluated(one, wanted, world, scope) for one in node.arguments[1:]]
    return ramp(x, node.parts["base"], node.parts["inputs"], outputs)


def ramp(x, base, inputs, outputs):
    """What lies at x between outputs, each of which is evaluated by a call. Along a curve x is moved before."""
    if base is not None and inputs[0] < x < inputs[-1] and x not in inputs:
        above = next(place for place, one in enumerate(inputs) if one > x)
        x = millionths.moved(base, x, inputs[above - 1], inputs[above])
    if x <= inputs[0]:
        return outputs[0]()
    if x >= inputs[-1]:
        return outputs[-1]()
    above = next(place for place, one in enumerate(inputs) if one > x)
    low, high = outputs[above - 1](), outputs[above]()
    return mixed(low, high, x, inputs[above - 1], inputs[above])


def mixed(low, high, x, x0, x1):
    """The value between two outputs."""
    if type(low) is int and type(high) is int:
        return millionths.between(low, high, x, x0, x1)
    if isinstance(low, Color) and isinstance(high, Color):
        return Color(*(millionths.between(a, b, x, x0, x1) for a, b in zip(low.parts(), high.parts())))
    if values.fits(low, listed("number")) and values.fits(high, listed("number", len(low))):
        return [millionths.between(a, b, x, x0, x1) for a, b in zip(low, high)]
    raise Fault("WrongType")


def let(node, wanted, world, scope):
    inner = dict(scope)
    for name, bound in zip(node.parts["names"], node.arguments):
        inner[name] = Binding(bound, scope)
    return evaluated(node.arguments[-1], wanted, world, inner)


CHOICES = {"case": case, "match": match, "step": step, "interpolate": interpolate, "let": let}


# Operators that read parts or the world, or that stop at an argument.


def stopping(decides, otherwise):
    """An operator that stops at the first argument that decides, and gives what it decides in a list."""

    def operator(node, world, scope):
        for argument in node.arguments:
            found = decides(evaluated(argument, ANY, world, scope))
            if found:
                return found[0]
        raise Fault(otherwise)

    return operator


def truth(deciding):
    """`all` or `any`, which stops at this truth value."""

    def operator(node, world, scope):
        for argument in node.arguments:
            if evaluated(argument, BOOLEAN, world, scope) is deciding:
                return deciding
        return not deciding

    return operator


def of_form(name):
    return stopping(lambda value: [value] if values.form(value) == name else [], "WrongType")


def as_number(value):
    """The number that a value is read as, in a list."""
    if value is None or isinstance(value, bool):
        return [ONE if value else 0]
    if type(value) is int:
        return [value]
    return spelled(value.strip(" \t\n\r")) if isinstance(value, str) else []


def spelled(text):
    """The number that a text without white space around it spells, in a list."""
    if text == "":
        return [0]
    text = text[1:] if text.startswith("+") and not text.startswith("+-") else text
    number = millionths.read(text) if millionths.is_number_text(text) else None
    return [] if number is None else [number]


def as_color(value):
    """The color that a value is read as, in a list."""
    color = None
    if isinstance(value, Color):
        color = value
    elif isinstance(value, str):
        color = values.color_of(value)
    elif values.fits(value, listed("number")) and len(value) in (3, 4):
        color = values.color_of_numbers(value)
    return [] if color is None else [color]


def coalesce(node, world, scope):
    for argument in node.arguments:
        value = evaluated(argument, ANY, world, scope)
        if value is not None:
            return value
    return None


def array(node, world, scope):
    return fitted(evaluated(node.arguments[0], ANY, world, scope), listed(node.parts["type"], node.parts["length"]))


def looked_up(has):
    """`get` or `has`, in the feature or in an object."""

    def operator(node, world, scope):
        key = evaluated(node.arguments[0], STRING, world, scope)
        at = world.properties if len(node.arguments) == 1 else evaluated(node.arguments[1], OBJECT, world, scope)
        return key in at if has else at.get(key)

    return operator


def image(node, world, scope):
    name = evaluated(node.arguments[0], STRING, world, scope)
    return name if name in world.images else None


def formatted(node, world, scope):
    sections = []
    for content, options in node.parts["sections"]:
        text = evaluated(content, TEXT, world, scope)
        found = {name: evaluated(option, OPTIONS[name], world, scope) for name, option in options}
        sections.append([text, {name: found[name] for name in OPTIONS if name in found}])
    return sections


OPTIONS = {"font-scale": NUMBER, "text-font": listed("string"), "text-color": COLOR}

LAZY = {
    "literal": lambda node, world, scope: node.parts["value"],
    "array": array,
    "boolean": of_form("boolean"),
    "number": of_form("number"),
    "string": of_form("string"),
    "object": of_form("object"),
    "to-number": stopping(as_number, "NotNumberText"),
    "to-color": stopping(as_color, "NotColor"),
    "coalesce": coalesce,
    "all": truth(False),
    "any": truth(True),
    "get": looked_up(False),
    "has": looked_up(True),
    "properties": lambda node, world, scope: world.properties,
    "id": lambda node, world, scope: world.identifier,
    "geometry-type": lambda node, world, scope: world.shape,
    "feature-state": lambda node, world, scope: world.state.get(evaluated(node.arguments[0], STRING, world, scope)),
    "global-state": lambda node, world, scope: world.globals.get(node.parts["name"]),
    "zoom": lambda node, world, scope: world.zoom,
    "image": image,
    "var": lambda node, world, scope: scope[node.parts["name"]].value(world),
    "format": formatted,
}


# Operators that work after all their arguments.


def total(*numbers):
    result = 0
    for number in numbers:
        result = millionths.bounded(result + number)
    return result


def product(*numbers):
    result = ONE
    for number in numbers:
        result = millionths.product(result, number)
    return result


def difference(first, *second):
    return millionths.bounded(first - second[0] if second else -first)


def ordered(holds):
    def operator(a, b):
        both_numbers, both_texts = type(a) is int and type(b) is int, isinstance(a, str) and isinstance(b, str)
        if not (both_numbers or both_texts):
            raise Fault("NotOrdered")
        return holds(a, b)

    return operator


def whole(index):
    if not millionths.is_whole(index):
        raise Fault("IndexNotWhole")
    return index // ONE


def at(index, items):
    place = whole(index)
    if not 0 <= place < len(items):
        raise Fault("IndexOutside")
    return items[place]


def contains(sought, sequence):
    return position(sought, sequence, 0) >= 0


def position(sought, sequence, start):
    """The least position from `start` on, or -1."""
    if isinstance(sequence, str):
        return sequence.find(sought, start) if isinstance(sought, str) else -1
    found = [place for place in range(min(start, len(sequence)), len(sequence)) if values.equal(sequence[place], sought)]
    return found[0] if found else -1


def index_of(sought, sequence, start=0):
    start = whole(start)
    if start < 0:
        raise Fault("IndexOutside")
    return ONE * position(sought, sequence, start)


def cut(sequence, *positions):
    places = [whole(one) for one in positions]
    places = [min(max(one + len(sequence) if one < 0 else one, 0), len(sequence)) for one in places]
    return sequence[places[0] : places[1] if len(places) > 1 else len(sequence)]


def color(*numbers):
    made = values.color_of_numbers(list(numbers))
    if made is None:
        raise Fault("ColorRange")
    return made


def is_supported(text):
    return not any(0x590 <= ord(c) <= 0x8FF for c in text)


# What is wanted of the arguments, the last of it for all that follow, and what is done with them.
EAGER = {
    "+": ([NUMBER], total),
    "*": ([NUMBER], product),
    "-": ([NUMBER], difference),
    "/": ([NUMBER], millionths.quotient),
    "%": ([NUMBER], millionths.remainder),
    "abs": ([NUMBER], abs),
    "floor": ([NUMBER], millionths.floor),
    "ceil": ([NUMBER], lambda number: -millionths.floor(-number)),
    "round": ([NUMBER], millionths.nearest),
    "min": ([NUMBER], lambda *numbers: min(numbers)),
    "max": ([NUMBER], lambda *numbers: max(numbers)),
    "==": ([ANY], values.equal),
    "!=": ([ANY], lambda a, b: not values.equal(a, b)),
    "<": ([ANY], ordered(lambda a, b: a < b)),
    "<=": ([ANY], ordered(lambda a, b: a <= b)),
    ">": ([ANY], ordered(lambda a, b: a > b)),
    ">=": ([ANY], ordered(lambda a, b: a >= b)),
    "!": ([BOOLEAN], lambda a: not a),
    "concat": ([TEXT], lambda *texts: "".join(texts)),
    "to-string": ([TEXT], lambda text: text),
    "to-boolean": ([ANY], values.is_true),
    "typeof": ([ANY], values.form),
    "is-supported-script": ([STRING], is_supported),
    "at": ([NUMBER, listed()], at),
    "in": ([ANY, SEQUENCE], contains),
    "index-of": ([ANY, SEQUENCE, NUMBER], index_of),
    "length": ([SEQUENCE], lambda sequence: ONE * len(sequence)),
    "slice": ([SEQUENCE, NUMBER], cut),
    "rgb": ([NUMBER], color),
    "rgba": ([NUMBER], color),
    "to-rgba": ([COLOR], lambda made: made.parts()),
}
