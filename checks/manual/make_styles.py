"""Makes random styles, tiles for them and scripts over them; each part is wrong with a small chance."""

import pathlib
import sys

sys.path.append(str(pathlib.Path(__file__).resolve().parents[1] / "shared"))

import loading
import make_expressions
import making
from make_expressions import COLORS, KEYS, TEXTS
from properties import ROWS, TYPES
from trees import Number

tiles_makes = loading.module("tiles/makes.py")
bytes_field, number_field, varint = tiles_makes.bytes_field, tiles_makes.number_field, tiles_makes.varint

FILTER_KEYS = [*KEYS, "$type", "$id"]
TOKENS = ["{r}", "{r} ({q})", "a{class}b", "{", "{}", "{{k}", "}{s}{", "{no such}", "plain"]
ZOOMS = ["0", "0.5", "3", "5.5", "9.999999", "10", "1e1", "12.25", "16", "23.5", "24"]
TILE_TEXTS = [*TEXTS, *COLORS, "center", "left", "none", "uppercase", "viewport", "round"]
SOURCES = {"t": "vector", "u": "vector", "g": "geojson", "r": "raster", "i": "image", "d": "raster-dem"}
FORMS = {"num": "number", "bool": "boolean", "color": "color", "text": "any", "image": "string"}


class Maker(making.Maker):
    """Makes styles; expressions in them go at most `levels` deep."""

    def __init__(self, rng, wrong, levels=2):
        super().__init__(rng, wrong)
        self.levels = levels

    def one(self, items):
        return self.rng.choice(items)

    def chance(self, share):
        return self.rng.random() < share

    def odd(self):
        """A tree that is rarely of a right form."""
        numbers = [Number("5"), Number("-1"), Number("1e25")]
        return self.one([None, *numbers, "x", "visible", [], (), True, ["get"], [Number("1")], (("a", Number("1")),)])

    def expressions(self, inputs, zoom=0.0):
        return make_expressions.Maker(self.rng, self.wrong, inputs, zoom, 0.02)

    # Styles.

    def style(self):
        """A style: its members in some order, some of them missing or wrong."""
        if self.slips(0.05):
            return self.odd()
        members = [("version", self.odd() if self.slips(0.3) else Number(self.one(["8", "8.0", "80e-1"])))]
        members.append(("sources", self.sources()))
        layers = [self.layer(place) for place in range(self.rng.randint(1, 4))]
        if self.slips(0.1):
            layers = [True] * 65537 if self.slips() else self.odd()
        members.append(("layers", layers))
        if self.chance(0.4):
            members.append(("state", self.odd() if self.slips(0.5) else self.state()))
        if self.slips(0.2):
            members.pop(self.rng.randrange(len(members)))
        self.rng.shuffle(members)
        return tuple(members + [("name", "a")])

    def sources(self):
        if self.slips(0.2):
            return self.odd()
        made = [(name, (("type", self.odd() if self.slips(0.3) else kind), ("url", "u"))) for name, kind in SOURCES.items()]
        return tuple((name, self.odd()) if self.slips(0.1) else (name, source) for name, source in made)

    def state(self):
        value = lambda: self.one([Number("2"), "red", True, None, [Number("1")], (("r", Number("1.50")),), Number("1e25") if self.slips() else "b"])
        keys = self.rng.sample(KEYS, self.rng.randint(0, 3))
        return tuple((key, self.odd() if self.slips(0.3) else (("default", value()),)) for key in keys)

    def layer(self, place):
        if self.slips(0.1):
            return self.odd()
        kind = self.one(TYPES) if self.chance(0.4) else self.one(["circle", "symbol", "symbol", "line", "fill", "heatmap", "fill-extrusion"])
        members = [("id", f"layer/{place}~"), ("type", kind)]
        if self.slips(0.5):
            members[0] = ("id", self.one([self.odd(), "layer/0~"]))
        if self.slips(0.3):
            members[1] = ("type", self.odd())
        members += self.source_members(kind)
        members += [(name, self.zoom_limit()) for name in ("minzoom", "maxzoom") if self.chance(0.08)]
        if self.chance(0.5):
            members.append(("filter", self.filter()))
        for where in ("layout", "paint"):
            members.append((where, self.odd() if self.slips(0.2) else self.properties(kind, where)))
        if self.slips(0.1):
            members.append(("ref", "x"))
        if self.slips(0.4):
            members.pop(self.rng.randrange(len(members)))
        self.rng.shuffle(members)
        return tuple(members)

    def zoom_limit(self):
        return self.one([self.odd(), Number("24.000001"), Number("-0.5")]) if self.slips() else Number(self.one(ZOOMS))

    def source_members(self, kind):
        if kind == "background":
            return []
        suited = {"raster": ["r", "i"], "hillshade": ["d"], "color-relief": ["d"]}.get(kind, ["t", "t", "t", "t", "t", "u", "g"])
        source = self.one([self.odd(), *SOURCES]) if self.slips() else self.one(suited)
        layer = self.odd() if self.slips(0.3) else self.one(["p", "p", "p", "p", "p", "q", "z"])
        return [("source", source), ("source-layer", layer)] if source in ("t", "u") or self.chance(0.1) else [("source", source)]

    def properties(self, kind, place):
        rows = [row for row in ROWS.values() if (row.layer, row.place) == (kind, place)]
        chosen = self.rng.sample(rows, min(len(rows), self.rng.randint(0, 4)))
        chosen += [row for row in rows if (row.takes_tokens() or row.name.endswith("sort-key")) and self.chance(0.3)]
        members = [(row.name, self.value(row)) for row in chosen]
        if place == "paint" and rows and self.chance(0.1):
            members.append((self.one(rows).name + "-transition", self.odd() if self.slips(2) else (("duration", Number("1")),)))
        if self.slips(0.5) or self.chance(0.02):
            unread = ["heatmap-color", "line-gradient", "icon-padding", "text-variable-anchor-offset"]
            members.append((self.one(["foo", "circle-radius", *unread]), Number("1")))
        self.rng.shuffle(members)
        return tuple(dict(members).items())

    # Values of properties.

    def value(self, row):
        if self.slips(0.3):
            return self.odd()
        if row.name == "visibility":
            return self.one(["visible"] * 8 + ["none", ["get", "r"] if self.slips() else "visible"])
        if row.takes_tokens() and self.chance(0.3):
            return self.one(TOKENS)
        if self.chance(0.03):
            return self.one([["sqrt", Number("4")], ["upcase", ["get", "r"]], ["step", ["zoom"], Number("1"), Number("2"), ["ln", ["id"]]]])
        form = self.rng.random()
        return self.literal(row) if form < 0.25 else self.expression(row) if form < 0.7 else self.function(row)

    def literal(self, row):
        """A literal of the row."""
        large, small = self.slips() or row.most is None, self.slips() or row.least is None
        number = lambda: Number(self.one(["0", "1", "0.5", "0.25", "1.0", "2.5" if large else "1", "-1" if small else "1"]))
        text = lambda: self.one(TEXTS if self.slips(0.5) else row.texts)
        kind = row.kind
        if kind.startswith("nums"):
            return [number() for _ in range(int(kind[4:] or self.rng.randint(0, 3)) + self.slips(0.3))]
        if kind == "num":
            # A symbol-spacing or heatmap-radius is at least 1.
            return Number(self.one(["1", "3", "1.50"])) if row.least == 10**6 and not self.slips() else number()
        if kind == "enums":
            return [text() for _ in range(self.rng.randint(0, 2))]
        if kind == "fonts":
            return [self.one(["Noto Sans", "get", "x"])] + [self.one(TEXTS) for _ in range(self.rng.randint(0, 1))]
        made = {"bool": lambda: self.one([True, False]), "color": lambda: self.one(TEXTS if self.slips() else COLORS), "enum": text}
        return made.get(kind, lambda: self.one([*TEXTS, *TOKENS]))()

    def expression(self, row):
        """An expression for the row; about half are a ramp or steps over the zoom."""
        maker = self.expressions("fs" if self.slips(0.3) else row.inputs, 0.3 if self.slips() else 0.0)
        out = lambda: self.output(row, maker)
        form = self.rng.random()
        if form < 0.2 and (row.kind in ("num", "color", "nums2", "nums4") or self.slips()):
            made = maker.interpolate(out, 1, ())
            return [*made[:2], ["zoom"], *made[3:]]
        if form < 0.4:
            made = ["step", ["zoom"], out(), *(part for x in maker.stop_inputs(1, 2) for part in (x, out()))]
            return self.one([made, ["let", "a", maker.expression("any", 1), made], ["coalesce", made, out()]])
        return out()

    def output(self, row, maker):
        kind, levels = row.kind, self.levels
        if self.chance(0.1):
            if self.chance(0.5):
                return ["coalesce", maker.expression("unknown", 1), self.constant(row)]
            return maker.expression("any" if self.slips() else "unknown", levels)
        if kind in ("nums2", "nums4"):
            return maker.numbers(int(kind[4]), levels, ())
        if kind in ("enum", "enums", "fonts", "nums") or self.chance(0.1):
            out = lambda: self.constant(row)
            free = "string" if kind in ("enum", "text", "image") else "unknown"
            case = lambda: ["case", maker.expression("boolean", levels), out(), out()]
            return self.one([lambda: maker.match(out, 1, ()), case, out, lambda: maker.expression(free, 1), lambda: self.odd_list(row, maker)])()
        if kind == "text" and self.chance(0.4):
            return maker.root("any", levels)
        if kind == "image" and self.chance(0.5):
            return ["image", maker.expression("string", levels)]
        return maker.expression(FORMS[kind], levels)

    def constant(self, row):
        """A literal of the row as an expression."""
        made = self.literal(row)
        return ["literal", made] if isinstance(made, list) else made

    def odd_list(self, row, maker):
        """A list that is perhaps none of the row's, or a text."""
        if not (row.kind.startswith("nums") or row.kind in ("enums", "fonts")):
            return self.one(TEXTS)
        items = [self.one([self.one(row.texts or TEXTS), self.one(TEXTS), maker.scalar("boolean")]) for _ in range(self.rng.randint(0, 2))]
        return ["literal", self.one([items, items, maker.items()])]

    # Legacy forms.

    def function(self, row):
        """A legacy function of the row."""
        kind = self.one([None, "interval", "categorical", "identity", *(["exponential"] * row.ramps())])
        if self.slips(0.3):
            kind = self.one(["exponential", "linear", Number("1")])
        members = [("type", kind)] if kind is not None else []
        by_feature = kind in ("categorical", "identity") or self.chance(0.4)
        if (by_feature and "f" in row.inputs) or (by_feature and self.slips()):
            members.append(("property", self.odd() if self.slips(0.1) else self.one(KEYS)))
        elif kind in ("categorical", "identity") and not self.slips():
            members = []
        has_property = any(name == "property" for name, _ in members)
        if kind != "identity" or len(members) < 2 or self.slips(0.3):
            members.append(("stops", self.stops(row, members, has_property)))
        if self.chance(0.3):
            members.append(("default", self.output_of_function(row)))
        if self.chance(0.25):
            base = Number(self.one(["1", "2", "1.50", "0.5", "10", "0" if self.chance(0.1) else "3"]))
            members.append(("base", self.odd() if self.slips(0.5) else base))
        if self.chance(0.02):
            members.append(("colorSpace", self.one(["lab", "rgb"])))
        if self.slips(0.2):
            members.append(("stop", Number("1")))
        self.rng.shuffle(members)
        return tuple(members)

    def output_of_function(self, row):
        return self.odd() if self.slips(0.3) else self.one(TOKENS) if row.takes_tokens() and self.chance(0.3) else self.literal(row)

    def stops(self, row, members, has_property):
        if self.slips(0.2):
            return self.one([self.odd(), [[Number("1")]], [Number("0"), Number("1")]])
        is_categorical = ("type", "categorical") in members
        inputs = self.function_inputs(is_categorical)
        if has_property and self.chance(0.35) or self.slips(0.1):
            zooms = sorted(self.rng.sample(range(25), self.rng.randint(1, 3)))
            if self.slips(0.3):
                zooms.reverse()
            inputs = [(("zoom", Number(str(zoom))), ("value", one)) for zoom in zooms for one in self.function_inputs(is_categorical)]
            if self.slips(0.3):
                inputs[0] = self.one([Number("0"), (("zoom", Number("0")),), (("zoom", "a"), ("value", Number("1")))])
        return [[one, self.output_of_function(row)] for one in inputs]

    def function_inputs(self, is_categorical):
        numbers = sorted(self.rng.choices(["-1", "0", "0.5", "1", "2", "3.0", "5", "10", "24"], k=self.rng.randint(1, 4)), key=float)
        if self.slips(0.5):
            numbers.append(self.one(["-7", "1e25"]))
        if is_categorical and self.chance(0.7):
            inputs = self.rng.sample([*TEXTS[:8], True, False, Number("1"), Number("12")], self.rng.randint(1, 4))
            return inputs + (["a", "a"] if self.slips(0.3) else [])
        if is_categorical and not self.slips():
            numbers = list(dict.fromkeys(numbers))
        return [Number(one) for one in numbers] + (["a"] if self.slips(0.2) else [])

    def filter(self):
        if self.slips(0.2):
            return self.odd()
        if self.chance(0.03):
            return self.one([["within", ()], ["all", ["==", ["sqrt", Number("4")], Number("2")]]])
        if self.chance(0.5):
            return self.expressions("f" if not self.slips() else "fs", 0.1).expression("boolean", self.levels)
        return self.legacy_filter(3)

    def legacy_filter(self, levels):
        form = self.rng.random()
        if levels and form < 0.4:
            return [self.one(["all", "any", "none"]), *(self.legacy_filter(levels - 1) for _ in range(self.rng.randint(0, 3)))]
        if self.slips(0.3):
            expression = ["==", ["get", "r"], Number("1")]
            return self.one([self.odd(), ["has"], ["has", "$type", "x"], ["==", "a", None], ["in"], ["<", "$type", "Point"], expression])
        if self.chance(0.05):
            return self.one([True, False])
        key = self.one(FILTER_KEYS)
        name = self.one(["has", "!has", "in", "!in", "==", "!=", "<", "<=", ">", ">="])
        if name in ("has", "!has"):
            return [name, key]
        if name in ("in", "!in"):
            return [name, key, *(self.filter_value(key) for _ in range(self.rng.randint(0, 3)))]
        if name in ("<", "<=", ">", ">=") and key == "$type":
            key = "$id"
        return [name, key, self.filter_value(key)]

    def filter_value(self, key):
        if key == "$type" and not self.slips(0.3):
            return self.one(["Point", "LineString", "Polygon"])
        return self.one([Number(self.one(["0", "1", "2", "3.0", "5", "12"])), self.one(TEXTS), self.one([True, False])])

    # Tiles and scripts.

    def tile(self):
        return b"".join(self.tile_layer(name) for name in self.one([["p"], ["p", "q"], ["q", "p"], ["p"]]))

    def tile_layer(self, name):
        values = [number_field(6, self.one([0, 1, 2, 3, 4, 6, 10, 20, 24, 48, 510])) for _ in range(6)]
        values += [number_field(4, self.one([(1 << 64) - 3, 7, (1 << 63) - 1])), number_field(5, self.one([(1 << 64) - 1, 3, 12]))]
        values += [bytes_field(1, self.one(TILE_TEXTS).encode()) for _ in range(8)] + [number_field(7, 0), number_field(7, 1)]
        parts = [bytes_field(1, name.encode()), number_field(15, 2)]
        parts += [bytes_field(3, key.encode()) for key in KEYS] + [bytes_field(4, value) for value in values]
        return bytes_field(3, b"".join(parts + [self.feature(len(values)) for _ in range(self.rng.randint(0, 6))]))

    def feature(self, values):
        tags = [varint(key) + varint(self.rng.randrange(values)) for key in range(len(KEYS)) if self.chance(0.6)]
        parts = [bytes_field(2, b"".join(tags)), number_field(3, self.rng.randint(0, 3))]
        parts += [number_field(1, self.one([0, 1, 2, 3, 7, (1 << 64) - 1]))] if self.chance(0.7) else []
        return bytes_field(2, b"".join(parts))

    def script(self):
        """Lines that are all accepted, with a listing and the number of its evaluations at the end."""
        lines = [self.script_line() for _ in range(self.rng.randint(3, 12))]
        return [*lines, ["list"], ["stats"]]

    def script_line(self):
        name = self.one(["set-zoom", *["set-state"] * 4, "remove-state", "add-image", "remove-image", "set-global", "list", "list", "stats"])
        scalar = lambda: self.one([Number(self.one(["1", "0.5", "7"])), self.one(TEXTS + COLORS), True, None, [Number("1"), "a"]])
        identifier = Number(self.one(["0", "1", "2.0", "3", "7", "18446744073709551615"]))
        place = [self.one(["t", "t", "u"]), self.one(["p", "p", "q"]), identifier]
        if name == "set-zoom":
            return [name, Number(self.one(ZOOMS))]
        if name == "set-state":
            return [name, *place, tuple((key, scalar()) for key in self.rng.sample(KEYS, self.rng.randint(0, 3)))]
        if name == "remove-state":
            return [name, *place, self.one([None, *KEYS])]
        if name in ("add-image", "remove-image"):
            return [name, self.one(TEXTS + COLORS)]
        return [name] if name in ("list", "stats") else [name, self.one(KEYS), scalar()]
