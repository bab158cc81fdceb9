"""Makes random expressions, steered so that most are well typed, and each part is wrong with a small chance."""

import pathlib
import sys

sys.path.append(str(pathlib.Path(__file__).resolve().parents[1] / "shared"))

import making
import millionths
from expressions import NAMES, OUTSIDE
from trees import Number

WHOLE = ["0", "1", "2", "3", "5", "7", "10", "-1", "-2", "100", "255", "4", "12", "24", "6"]
BROKEN = ["0.5", "1.50", "2.25", "-0.5", "0.1", "0.333333", "-0", "1e2", "1E-1", "0.0000005", "-0.0000004", "3.0", "254.999999"]
LARGE = ["1e20", "-1e20", "99999999999999999999", "100000000000000000000.0000004", "1e13", "5e19", "123456789012.123456"]
TOO_LARGE = ["1e21", "100000000000000000000.0000005", "-1e30", "1e999"]
TEXTS = [
    "", "a", "b", "abc", "x", "Göteborg", "😀b😀", "abcb", '"\\\n', "1", " 12.5 ", "+3", "1e3", "0x10", "-7", "عد", "map", "Point", "number",
    "\u007f\u0001",
]  # fmt: skip
NUMBER_TEXTS = [
    "1", " 12.5 ", "+3", "-7", "1e3", "1E-7", "0x10", "+-3", "-+3", "- 3", "01", ".5", "5.", "\t\n7\r ", "1e20", "1e21", "+", "-", "", "  ", "Infinity", "1e400",
    "0.00000050000000000000000000000000000000000000000000000000000000000000000000001", "\u00a05", "१",
]  # fmt: skip
COLORS = ["red", " Blue ", "#0f0", "#12345678", "rgb(1,2,3)", "rgba(10%, 20%, 30%, .5)", "hsl(205, 56%, 73%)", "transparent", "RebeccaPurple"]
KEYS = ["r", "q", "s", "class", "k", "t"]
BOUND = ["a", "b", "x1", "_"]
FORMS = ["boolean", "number", "string", "color", "array", "object", "any"]
SCALARS = ["boolean", "number", "string"]


class Maker(making.Maker):
    """Makes expressions of a form, in which each part is wrong with the chance `wrong`.

    `inputs` is what they read: f the feature, s its state. `zoom` is the share of `zoom` among inputs of ramps, and `large` that of
    large numbers.
    """

    def __init__(self, rng, wrong, inputs="fs", zoom=0.3, large=0.05):
        super().__init__(rng, wrong)
        self.inputs = inputs
        self.zoom_share = zoom
        self.large = large

    def may_read(self, what):
        return what in self.inputs or self.slips(0.1)

    def one(self, items):
        return self.rng.choice(items)

    def some(self, least, most):
        return range(self.rng.randint(least, most))

    # Literals.

    def number_text(self):
        if self.slips(0.3):
            return Number(self.one(TOO_LARGE))
        if self.rng.random() < self.large:
            return Number(self.one(LARGE))
        return Number(self.one(WHOLE if self.rng.random() < 0.67 else BROKEN))

    def literal(self, form):
        """A bare literal, or one in `literal`."""
        if form == "array":
            return ["literal", self.items()]
        if form == "object":
            return ["literal", self.map()]
        if form == "color":
            return self.one(TEXTS if self.slips() else COLORS)
        if form == "unknown":
            return None
        if form == "any":
            return self.one([None, self.literal(self.one(FORMS[:-1]))])
        made = self.one([True, False]) if form == "boolean" else self.scalar(form)
        return ["literal", made] if self.rng.random() < 0.05 else made

    def items(self):
        form = self.one(["number", "number", "string", "boolean", "mixed", "number2", "nested"])
        if form == "number2":
            return [self.number_text() for _ in range(2)]
        if form == "nested":
            return [[self.number_text() for _ in self.some(0, 2)] for _ in self.some(0, 2)]
        return [self.scalar(self.one(SCALARS) if form == "mixed" else form) for _ in self.some(0, 4)]

    def scalar(self, form):
        if form == "number":
            return self.number_text()
        return self.one([True, False, None] if form == "boolean" else TEXTS)

    def map(self):
        keys = self.rng.sample(KEYS, self.rng.randint(0, 4))
        return tuple((key, self.one([self.items, lambda: self.scalar(self.one(SCALARS))])()) for key in keys)

    # Expressions.

    def expression(self, form, levels, names=()):
        """An expression of a form, with at most so many levels of operators."""
        if self.slips(0.5):
            form = self.one(FORMS)
        if self.slips(0.3):
            return self.odd(levels)
        if levels <= 0 or self.rng.random() < 0.12:
            if names and self.rng.random() < 0.4:
                return ["var", self.one(names)]
            return self.literal(form)
        if form in ("number", "string", "boolean", "object") and self.rng.random() < 0.15:
            tried = [self.expression(self.one([form, "any"]), levels - 2, names) for _ in self.some(1, 2)]
            return [form, *tried, self.literal(form)]
        made = getattr(self, "of_" + form) if self.rng.random() < 0.7 else self.choice
        node = made(form, levels - 1, names)
        return self.broken(node) if isinstance(node, list) and self.slips(0.5) else node

    def odd(self, levels):
        """Something that is no expression, or one that is not evaluated."""
        return self.one(
            [
                (("a", Number("1")),),
                [],
                [Number("1"), Number("2")],
                ["foo", ["sqrt", Number("4")]],
                [self.one(sorted(OUTSIDE)), Number("4")],
                ["var", self.one(BOUND)],
                ["format", self.one(TEXTS)],
                Number(self.one(TOO_LARGE)),
                [self.one(sorted(NAMES)), *(self.expression(self.one(FORMS), levels - 3) for _ in self.some(0, 3))],
            ]
        )

    def broken(self, node):
        """A node with an element less, more, or changed."""
        if len(node) < 2:
            return node + [Number("1")]
        place = self.rng.randrange(1, len(node))
        large = Number("1e25")
        changed = self.one([None, "a", Number("1.5"), Number("0"), [], ["a", "a"], True, (("x", True),), large, [large, large]])
        before, after = node[:place], node[place + 1 :]
        return self.one([before + after, node + [self.literal("any")], before + [changed] + after])

    def call(self, name, forms, levels, names):
        return [name, *(self.expression(form, levels, names) for form in forms)]

    def choice(self, form, levels, names):
        """A node that chooses among outputs of a form."""
        ramps = ["interpolate"] * (3 if form in ("number", "color", "array") else 1)
        kind = self.one(["case", "match", "step", *ramps, "let", "coalesce", "at", "var", "get"])
        out = lambda: self.expression(form, levels, names)
        if kind == "case":
            pairs = [part for _ in self.some(1, 2) for part in (self.expression("boolean", levels, names), out())]
            return ["case", *pairs, out()]
        if kind == "match":
            return self.match(out, levels, names)
        if kind == "step":
            inputs = self.stop_inputs(1, 3)
            return ["step", self.input(levels, names), out(), *(part for x in inputs for part in (x, out()))]
        if kind == "interpolate":
            if form not in ("number", "color", "array") and not self.slips():
                return out()
            outputs = (lambda: self.numbers(2, levels, names)) if form == "array" else out
            return self.interpolate(outputs, levels, names)
        if kind == "let":
            bound = [self.one(BOUND) for _ in self.some(1, 2)]
            if self.slips(0.2):
                bound[0] = self.one(["a-b", "", "é", Number("1")])
            values = [self.expression(self.one([form, "any", "number"]), levels, names) for _ in bound]
            body = self.expression(form, levels, [*names, *(name for name in bound if type(name) is str)])
            return ["let", *(part for pair in zip(bound, values) for part in pair), body]
        if kind == "coalesce":
            return ["coalesce", *(self.expression(self.one([form, form, "any"]), levels, names) for _ in self.some(0, 2)), out()]
        if kind == "at" and (self.rng.random() < 0.1 or self.slips()):
            return ["at", self.index(levels, names), self.expression("array", levels, names)]
        if kind == "at":
            return ["at", self.index(levels, names), ["literal", [self.literal_item(form) for _ in self.some(1, 3)]]]
        if kind == "get":
            return self.get(levels, names)
        return ["var", self.one(names)] if names else out()

    def index(self, levels, names):
        """A number that is mostly the place of an item."""
        if self.rng.random() < 0.8:
            return Number(self.one(["0", "0", "0", "1", "1", "2", "3.0", "-1", "-2", "0.5" if self.rng.random() < 0.2 else "1"]))
        return self.expression("number", levels - 1, names)

    def literal_item(self, form):
        if form in ("array", "any"):
            return self.items()
        return self.map() if form == "object" else self.scalar(form if form in SCALARS else "string")

    def get(self, levels, names):
        key = self.one(KEYS) if self.rng.random() < 0.9 else self.expression("string", levels - 2, names)
        if self.rng.random() < 0.5 and self.may_read("f"):
            return ["get", key]
        return ["get", key, self.expression("object", levels - 1, names)]

    def match(self, out, levels, names):
        texts = self.rng.random() < 0.5
        labels = self.rng.sample(TEXTS if texts else [Number(str(n)) for n in range(8)], self.rng.randint(1, 4))
        if self.slips(0.4):
            labels.append(self.one([labels[0], Number("1.0"), Number("2.5"), Number("1e30"), "a", True]))
        groups = []
        while labels:
            count = self.rng.randint(1, 2)
            taken, labels = labels[:count], labels[count:]
            groups.append(taken if count > 1 or self.rng.random() < 0.3 else taken[0])
        given = self.expression("any" if self.slips() else self.one(["string" if texts else "number", "unknown"]), levels, names)
        return ["match", given, *(part for group in groups for part in (group, out())), out()]

    def stop_inputs(self, least, most):
        """Ascending inputs of a ramp."""
        count = self.rng.randint(least, most)
        large = ["1e10", "1e20"] if self.rng.random() < 0.05 else []
        pool = ["-3", "-0.5", "0", "0.5", "1", "2", "2.5", "3", "5", "9", "10", "16", "24", "255", *large]
        inputs = sorted(self.rng.sample(pool, count), key=float)
        if self.slips(0.3):
            inputs.append(self.one([*inputs, "1e30", "-9"]))
        return [Number(x) for x in inputs]

    def input(self, levels, names):
        return ["zoom"] if self.rng.random() < self.zoom_share else self.expression("number", levels, names)

    def interpolate(self, out, levels, names):
        base = Number(self.one(["1", "2", "1.5", "0.5", "10", "1.2", "0.000001", "3.141593"]))
        curve = ["linear"] if self.rng.random() < 0.6 else ["exponential", base]
        if self.slips(0.5):
            bezier = ["cubic-bezier", *map(Number, "0011")]
            curve = self.one([bezier, ["exponential", Number("0")], ["exponential"], "linear", ["linear", Number("1")], []])
        inputs = self.stop_inputs(1, 4)
        return ["interpolate", curve, self.input(levels, names), *(part for x in inputs for part in (x, out()))]

    def numbers(self, count, levels, names):
        """A list of so many numbers."""
        literal = ["literal", [self.number_text() for _ in range(count)]]
        if levels <= 0 or self.rng.random() < 0.5:
            return literal
        return ["array", "number", Number(str(count)), self.expression("any", levels - 2, names) if self.slips() else literal]

    def like(self, form):
        """A form that can be compared with a form."""
        return "any" if self.slips() else self.one([form, form, "unknown"])

    def of_any(self, form, levels, names):
        if self.rng.random() < 0.4:
            return self.of_unknown(form, levels, names)
        return self.expression(self.one(FORMS[:-1]), levels, names)

    def of_unknown(self, form, levels, names):
        """An expression of which no kind is known, or an image."""
        if self.rng.random() < 0.4:
            return self.get(levels, names)
        others = [["global-state", self.one(KEYS)], ["image", self.one(TEXTS)], ["coalesce", None, self.expression("any", levels, names)]]
        others += [["id"], ["get", self.one(KEYS)]] if self.may_read("f") else []
        return self.one(others + ([["feature-state", self.one(KEYS)]] * 4 if self.may_read("s") else []))

    def of_number(self, form, levels, names):
        names_of_all = ["+", "*", "-", "/", "%", "abs", "floor", "ceil", "round", "min", "max", "to-number", "index-of", "length", "number", "zoom"]
        name = self.one(names_of_all)
        if name in ("+", "*"):
            return self.call(name, ["number" for _ in self.some(0, 3)], levels, names)
        if name in ("min", "max"):
            return self.call(name, ["number" for _ in self.some(1, 3)], levels, names)
        if name == "-":
            return self.call(name, ["number" for _ in self.some(1, 2)], levels, names)
        if name in ("/", "%"):
            return self.call(name, ["number", "number"], levels, names)
        if name == "to-number" and self.rng.random() < 0.5:
            return [name, *(self.one(NUMBER_TEXTS) for _ in self.some(1, 2))]
        if name in ("to-number", "number"):
            return self.call(name, [self.one(["any", "number", "string", "boolean"]) for _ in self.some(1, 2)], levels, names)
        if name == "index-of":
            return [name, *self.sought(levels, names), *([self.index(levels, names)] if self.rng.random() < 0.5 else [])]
        if name == "length":
            return self.call(name, [self.one(["string", "array"])], levels, names)
        if name == "zoom":
            return ["zoom"] if self.rng.random() < self.zoom_share else self.number_text()
        return self.call(name, ["number"], levels, names)

    def sought(self, levels, names):
        """A value, and a text or list in which it may be."""
        if self.rng.random() < 0.5:
            return [self.expression(self.one(["string", "string", "unknown"]), levels, names), self.expression("string", levels, names)]
        return [self.expression(self.one([*SCALARS, "unknown"]), levels, names), self.expression("array", levels, names)]

    def of_boolean(self, form, levels, names):
        name = self.one(["==", "!=", "<", "<=", ">", ">=", "!", "all", "any", "has", "in", "to-boolean", "is-supported-script", "boolean"])
        if name in ("==", "!="):
            form = self.one(SCALARS)
            return self.call(name, [form, self.like(form)], levels, names)
        if name in ("<", "<=", ">", ">="):
            form = self.one(["number", "string"])
            return self.call(name, [form, self.like(form)], levels, names)
        if name in ("all", "any"):
            return self.call(name, ["boolean" for _ in self.some(0, 3)], levels, names)
        if name == "has":
            return ["has", *self.get(levels, names)[1:]]
        if name == "in":
            return [name, *self.sought(levels, names)]
        if name == "boolean":
            return self.call(name, ["any" for _ in self.some(1, 2)], levels, names)
        return self.call(name, [{"!": "boolean", "to-boolean": "any", "is-supported-script": "string"}[name]], levels, names)

    def of_string(self, form, levels, names):
        name = self.one(["concat", "to-string", "typeof", "slice", "string", "geometry-type", "image"])
        if name == "concat":
            return self.call(name, [self.one(FORMS) for _ in self.some(0, 3)], levels, names)
        if name == "slice":
            return [name, self.expression("string", levels, names), *(self.index(levels, names) for _ in self.some(1, 2))]
        if name == "geometry-type":
            return [name] if self.may_read("f") else self.one(TEXTS)
        if name == "image":
            return ["coalesce", ["image", self.expression("string", levels - 1, names)], self.one(TEXTS)]
        return self.call(name, ["any" for _ in (self.some(1, 2) if name == "string" else range(1))], levels, names)

    def of_color(self, form, levels, names):
        name = self.one(["rgb", "rgba", "to-color", "to-color"])
        if name == "to-color":
            return self.call(name, [self.one(["string", "any", "color", "array"]) for _ in self.some(0, 1)] + ["color"], levels, names)
        parts = [Number(self.one(["0", "255", "127.5", "12", "255.000001" if self.slips() else "1"])) for _ in range(3)]
        if levels > 0 and self.rng.random() < 0.3:
            parts[0] = self.expression("number", levels, names)
        if self.rng.random() < 0.5:
            parts.append(Number(self.one(["0", "1", "0.5", "0.25", "1.000001" if self.slips() else "1"])))
        return [name, *parts]

    def of_array(self, form, levels, names):
        name = self.one(["array", "slice", "to-rgba", "literal", "numbers"])
        if name == "slice":
            return [name, self.expression("array", levels, names), *(self.index(levels, names) for _ in self.some(1, 2))]
        if name == "to-rgba":
            return self.call(name, ["color"], levels, names)
        if name == "array":
            kind = [self.one(["number", "string", "boolean"])] if self.rng.random() < 0.6 else []
            length = [Number(self.one(["0", "1", "2", "4"]))] if kind and self.rng.random() < 0.4 else []
            if self.slips():
                kind = self.one([["array"], ["number", Number("1.5")], ["number", Number("4294967296")], [Number("2")]])
                length = []
            return [name, *kind, *length, self.expression(self.one(["array", "array", "any"]), levels, names)]
        return self.numbers(2, levels, names) if name == "numbers" else self.literal("array")

    def of_object(self, form, levels, names):
        if self.rng.random() < 0.3 and self.may_read("f"):
            return ["properties"]
        return self.call("object", ["any", "object"], levels, names) if self.rng.random() < 0.5 else self.literal("object")

    def format(self, levels):
        """A `format`, with options after some contents."""
        made = ["format"]
        for _ in self.some(1, 3):
            made.append(self.expression(self.one(["string", "any", "number"]), levels))
            if self.rng.random() < 0.5:
                made.append(self.options(levels))
        return made

    def options(self, levels):
        forms = {"font-scale": "number", "text-font": "array", "text-color": "color"}
        names = self.rng.sample(list(forms), self.rng.randint(0, 3))
        options = [(name, self.expression(forms[name], levels)) for name in names]
        if not self.slips():
            options = [(name, ["literal", [self.one(TEXTS)]] if name == "text-font" else made) for name, made in options]
        return (*options, ("vertical-align", "top")) if self.slips(0.3) else tuple(options)

    def digits(self, least=1, most=26):
        """A number of some digits, often with a half at its end."""
        most = 10 ** self.rng.randint(least, most)
        number = self.rng.randint(-most, most)
        return Number(millionths.written(number // millionths.ONE * millionths.ONE + 500000 if self.rng.random() < 0.2 else number))

    def exact(self):
        """An operation on numbers of many digits, or a ramp between such."""
        name = self.one(["+", "-", "*", "/", "%", "round", "floor", "ceil", "interpolate", "interpolate", "interpolate"])
        if name in ("round", "floor", "ceil"):
            return [name, self.digits()]
        if name != "interpolate":
            return [name, self.digits(), self.digits()]
        most = 10 ** self.one([7, 7, 7, 8, 8, 13, 26])
        inputs = sorted({self.rng.randrange(most) for _ in self.some(2, 4)})
        x = Number(millionths.written(self.rng.randint(inputs[0], inputs[-1])))
        if self.rng.random() < 0.3:
            # In the middle, where the exact result often has half a millionth.
            inputs, x = [0, 2 * millionths.ONE], Number("1")
        base = Number(millionths.written(self.rng.randint(1, 3 * millionths.ONE)))
        curve = self.one([["linear"], ["exponential", base]])
        color = lambda: ["rgb", *map(Number, self.rng.sample(["0", "1", "0.000001", "254.5", "255"], 3))]
        output = self.one([lambda: self.digits(1, 8), self.digits, color])
        return ["interpolate", curve, x, *(part for one in inputs for part in (Number(millionths.written(one)), output()))]

    def root(self, form, levels):
        """A whole expression; some are a `format`, or choose among such."""
        if self.rng.random() < 0.05:
            made = self.format(levels - 1)
            around = self.one(["", "case", "coalesce", "let", "step"])
            if around == "case":
                return ["case", self.expression("boolean", 1), made, self.format(1)]
            if around == "coalesce":
                return ["coalesce", self.one([None, self.expression("any", 1)]), made]
            if around == "let":
                return ["let", "a", self.expression("any", 1), made]
            return ["step", ["zoom"], made, Number("1"), "x"] if around == "step" else made
        return self.expression(form, levels)
