"""Gives kinds to the nodes of an expression, by the manual's section on types of expressions, and lists what may fail.

A kind is a form of values with what is known of them: ("any",), ("boolean",), ("number",), ("string",), ("color",), ("object",), ("image",)
or ("array", item, length). Its names are those of what is wanted (values.py).
"""

import meaning
import millionths
import values
from expressions import Refused
from values import ANY, BOOLEAN, COLOR, IMAGE, NUMBER, OBJECT, SEQUENCE, STRING, TEXT, listed

FAULTS = [
    "WrongType", "NotColor", "NotNumberText", "IndexOutside", "IndexNotWhole", "DivideByZero", "Overflow", "ColorRange", "NotOrdered", "NotInEnum",
]  # fmt: skip


def checked(node, wanted):
    """The faults that the evaluation of an expression may give, in their order; a Refused where it is not well typed."""
    typer = Typer()
    typer.kind(node, wanted, {})
    return [fault for fault in FAULTS if fault in typer.may]


def kind_of_value(value):
    """The kind of a literal."""
    if value is None:
        return ANY
    if not isinstance(value, list):
        return (values.form(value),)
    forms = {values.form(item) for item in value}
    item = forms.pop() if len(forms) == 1 else None
    return listed(item if item in ("boolean", "number", "string") else None, len(value))


def joined(kinds):
    """What is known of all values of some kinds: the kind that all have, if there is one."""
    return kinds[0] if all(kind == kinds[0] for kind in kinds) else ANY


def fit(kind, wanted):
    """Whether a kind fits what is wanted: "always", "maybe" or "never"."""
    if kind == wanted or wanted in (ANY, TEXT) or (kind, wanted) == (STRING, IMAGE):
        return "always"
    if kind == ANY:
        return "maybe"
    name = wanted[0]
    if kind[0] == "array" and name == "array":
        return list_fit(kind, wanted)
    if wanted == SEQUENCE:
        return "always" if kind == STRING or kind[0] == "array" else "never"
    if kind == IMAGE:
        return "maybe" if wanted in (STRING, COLOR) or name == "enum" else "never"
    if kind == STRING:
        return "maybe" if wanted == COLOR or name == "enum" else "never"
    if kind[0] == "array" and name == "enums":
        return "maybe" if kind[1] in (None, "string") else "never"
    return "never"


def list_fit(kind, wanted):
    known = list(zip(kind[1:], wanted[1:]))
    if any(has is not None and want is not None and has != want for has, want in known):
        return "never"
    return "always" if all(want is None or has == want for has, want in known) else "maybe"


def faults_of_maybe(kind, wanted):
    """What a fit that is maybe may give."""
    special = {"color": ["NotColor"], "enum": ["NotInEnum"], "enums": ["NotInEnum"]}.get(wanted[0], [])
    is_text = kind == STRING or (wanted[0] == "enums" and kind[1:2] == ("string",))
    return special if special and is_text else [*special, "WrongType"]


class Typer:
    """Gives kinds, and collects what may fail."""

    def __init__(self):
        self.may = set()

    def kind(self, node, wanted, names):
        """The kind of a node as what is wanted of it; a fit that fails is reported before the node's own code."""
        if node.operator == "literal":
            return self.literal(node, wanted)
        if node.operator in OUTPUTS:
            # Outputs are wanted as the node is, but for a text or list, and for the text of what is interpolated.
            as_it_is = wanted == SEQUENCE or (wanted == TEXT and node.operator == "interpolate")
            typed = {"let": self.let, "interpolate": self.interpolate}.get(node.operator, self.choice)
            kind, code = typed(node, ANY if as_it_is else wanted, names)
            made = self.fitted(node, kind, wanted) if as_it_is else kind
        else:
            kind, code = OWN_KINDS[node.operator](self, node, names)
            made = self.fitted(node, kind, wanted)
        if code:
            raise Refused(code, node.path)
        return made

    def literal(self, node, wanted):
        """The kind of a literal; one that is a color, or a text or texts of the set that is wanted, never fails."""
        kind = kind_of_value(node.parts["value"])
        if wanted[0] in ("color", "enum", "enums") and fit(kind, wanted) == "maybe":
            try:
                values.fitted(node.parts["value"], wanted)
                return as_wanted(kind, wanted)
            except millionths.Fault:
                pass
        return self.fitted(node, kind, wanted)

    def fitted(self, node, kind, wanted):
        how = fit(kind, wanted)
        if how == "never":
            raise Refused("Kind", node.path)
        if how == "maybe":
            self.may.update(faults_of_maybe(kind, wanted))
        return as_wanted(kind, wanted)

    def arguments(self, node, names, forms):
        """The kinds of the arguments; the last form is wanted of all that follow."""
        return [self.kind(one, forms[min(place, len(forms) - 1)], names) for place, one in enumerate(node.arguments)]

    def choice(self, node, wanted, names):
        """The kind of a node whose outputs are wanted as it is, and its own code. Such a node keeps no kind of a list."""
        form = {"case": BOOLEAN, "match": ANY}.get(node.operator, NUMBER)
        kinds = [self.kind(one, wanted if is_output(node, place) else form, names) for place, one in enumerate(node.arguments)]
        outputs = [kind for place, kind in enumerate(kinds) if is_output(node, place)]
        is_bad = node.operator == "match" and not may_match(kinds[0], node.parts["labels"])
        return joined(outputs) if wanted == ANY else as_wanted(ANY, wanted), "NotComparable" if is_bad else None

    def interpolate(self, node, wanted, names):
        kind, _ = self.choice(node, wanted, names)
        if not is_interpolable(kind, wanted):
            return kind, "NotInterpolable"
        self.may.update(["Overflow"] if may_overflow(node, kind) else [])
        return kind, None

    def let(self, node, wanted, names):
        bound = [self.kind(one, ANY, names) for one in node.arguments[:-1]]
        kind = self.kind(node.arguments[-1], wanted, {**names, **dict(zip(node.parts["names"], bound))})
        return kind if wanted == ANY else as_wanted(ANY, wanted), None


def as_wanted(kind, wanted):
    """The kind that a node has where it fits: what is wanted of it, but for a list of anything, where a list keeps its own kind."""
    if wanted == ANY or wanted == SEQUENCE or (wanted == listed() and kind[0] == "array"):
        return kind
    if wanted == TEXT or wanted[0] == "enum":
        return STRING
    return listed("string") if wanted[0] == "enums" else wanted


OUTPUTS = ["case", "match", "step", "interpolate", "let"]


def is_output(node, place):
    if node.operator == "case":
        return place % 2 == 1 or place == len(node.arguments) - 1
    return place > 0


def may_match(kind, labels):
    text = isinstance(labels[0][0], str)
    return kind in (ANY, IMAGE, STRING if text else NUMBER)


def is_interpolable(kind, wanted):
    if wanted != ANY:
        kind = wanted
    return kind in (NUMBER, COLOR) or (kind[0] == "array" and kind[1] == "number" and kind[2] is not None)


def may_overflow(node, kind):
    """Whether a ramp may be past a limit: not where it goes linearly between colors, or between literals that keep within it."""
    if node.parts["base"] is not None:
        return True
    if kind == COLOR:
        return False
    outputs, inputs = node.arguments[1:], node.parts["inputs"]
    if any(one.operator != "literal" or not values.fits(one.parts["value"], kind) for one in outputs):
        return True
    given = [one.parts["value"] if kind != NUMBER else [one.parts["value"]] for one in outputs]
    neighbours = zip(inputs, inputs[1:], given, given[1:])
    steps = [abs(b - a) * (x1 - x0) for x0, x1, low, high in neighbours for a, b in zip(low, high)]
    return any(step > millionths.STEP_LIMIT for step in steps)


# The kind of each other operator, and its own code.


def fixed(kind, *forms, faults=()):
    """An operator whose arguments are wanted so, with these faults."""

    def own(typer, node, names):
        typer.arguments(node, names, forms)
        typer.may.update(faults)
        return kind, None

    return own


def divided(faults):
    def own(typer, node, names):
        typer.arguments(node, names, [NUMBER])
        divisor = node.arguments[1]
        is_known = divisor.operator == "literal" and divisor.parts["value"] != 0
        typer.may.update(faults if is_known else ["DivideByZero", *faults])
        return NUMBER, None

    return own


def difference(typer, node, names):
    typer.arguments(node, names, [NUMBER])
    typer.may.update(["Overflow"] if len(node.arguments) == 2 else [])
    return NUMBER, None


def first_of(wanted):
    """`boolean`, `number`, `string` or `object`."""

    def own(typer, node, names):
        kinds = typer.arguments(node, names, [ANY])
        typer.may.update([] if wanted in kinds else ["WrongType"])
        return wanted, None

    return own


def to_number(typer, node, names):
    kinds = typer.arguments(node, names, [ANY])
    typer.may.update([] if NUMBER in kinds or BOOLEAN in kinds else ["NotNumberText"])
    return NUMBER, None


def to_color(typer, node, names):
    kinds = typer.arguments(node, names, [ANY])
    literals = [one.parts["value"] for one in node.arguments if one.operator == "literal"]
    is_color = any(isinstance(value, str) and values.color_of(value) for value in literals)
    typer.may.update([] if COLOR in kinds or is_color else ["NotColor"])
    return COLOR, None


def equality(typer, node, names):
    kinds = typer.arguments(node, names, [ANY])
    scalars = {kind for kind in kinds if kind in (BOOLEAN, NUMBER, STRING)}
    bad = any(kind in (COLOR, OBJECT) or kind[0] == "array" for kind in kinds) or len(scalars) > 1
    return BOOLEAN, "NotComparable" if bad else None


def order(typer, node, names):
    kinds = typer.arguments(node, names, [ANY])
    bad = any(kind not in (NUMBER, STRING, ANY, IMAGE) for kind in kinds) or set(kinds) == {NUMBER, STRING}
    typer.may.update([] if kinds in ([NUMBER, NUMBER], [STRING, STRING]) else ["NotOrdered"])
    return BOOLEAN, "NotComparable" if bad else None


def sought(kind, faults):
    """`in` or `index-of`."""

    def own(typer, node, names):
        kinds = typer.arguments(node, names, [ANY, SEQUENCE, NUMBER])
        typer.may.update(faults if len(kinds) == 3 else [])
        bad = kinds[0] in (COLOR, OBJECT) or kinds[0][0] == "array"
        return kind, "NotComparable" if bad else None

    return own


def item_at(typer, node, names):
    _, items = typer.arguments(node, names, [NUMBER, listed()])
    typer.may.update(["IndexOutside", "IndexNotWhole"])
    return (items[1],) if items[1] else ANY, None


def cut(typer, node, names):
    kind = typer.arguments(node, names, [SEQUENCE, NUMBER])[0]
    typer.may.add("IndexNotWhole")
    return listed(kind[1]) if kind[0] == "array" else STRING if kind == STRING else ANY, None


def array(typer, node, names):
    wanted = listed(node.parts["type"], node.parts["length"])
    given = typer.arguments(node, names, [ANY])[0]
    typer.may.update([] if fit(given, wanted) == "always" else ["WrongType"])
    return wanted, None


def coalesce(typer, node, names):
    return joined(typer.arguments(node, names, [ANY])), None


def formatted(typer, node, names):
    for content, options in node.parts["sections"]:
        typer.kind(content, TEXT, names)
        for name, option in options:
            typer.kind(option, meaning.OPTIONS[name], names)
    return listed(), None


OWN_KINDS = {
    "array": array,
    "coalesce": coalesce,
    "format": formatted,
    "var": lambda typer, node, names: (names[node.parts["name"]], None),
    "at": item_at,
    "slice": cut,
    "in": sought(BOOLEAN, []),
    "index-of": sought(NUMBER, ["IndexOutside", "IndexNotWhole"]),
    "==": equality,
    "!=": equality,
    **{name: order for name in ["<", "<=", ">", ">="]},
    "boolean": first_of(BOOLEAN),
    "number": first_of(NUMBER),
    "string": first_of(STRING),
    "object": first_of(OBJECT),
    "to-number": to_number,
    "to-color": to_color,
    "/": divided(["Overflow"]),
    "%": divided([]),
    **{name: fixed(NUMBER, NUMBER, faults=["Overflow"]) for name in ["+", "*"]},
    "-": difference,
    **{name: fixed(NUMBER, NUMBER) for name in ["abs", "floor", "ceil", "round", "min", "max"]},
    **{name: fixed(BOOLEAN, BOOLEAN) for name in ["!", "all", "any"]},
    **{name: fixed(COLOR, NUMBER, faults=["ColorRange"]) for name in ["rgb", "rgba"]},
    "get": fixed(ANY, STRING, OBJECT),
    "has": fixed(BOOLEAN, STRING, OBJECT),
    "properties": fixed(OBJECT, ANY),
    "id": fixed(ANY, ANY),
    "geometry-type": fixed(STRING, ANY),
    "feature-state": fixed(ANY, STRING),
    "global-state": fixed(ANY, ANY),
    "zoom": fixed(NUMBER, ANY),
    "image": fixed(IMAGE, STRING),
    "is-supported-script": fixed(BOOLEAN, STRING),
    "concat": fixed(STRING, TEXT),
    "to-string": fixed(STRING, TEXT),
    "to-boolean": fixed(BOOLEAN, ANY),
    "typeof": fixed(STRING, ANY),
    "to-rgba": fixed(listed("number", 4), COLOR),
    "length": fixed(NUMBER, SEQUENCE),
}
