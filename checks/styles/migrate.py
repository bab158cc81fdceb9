#!/usr/bin/env python3
"""Migrates random styles with legacy forms, and holds the result against what migration promises: it has no findings, migrating it
changes nothing, and at a random zoom it shows over random tiles what the style shows, byte by byte.

    python3 checks/styles/migrate.py [--program PROGRAM] [--seed N] [--count N]
"""

import argparse
import json
import pathlib
import random
import sys
import tempfile

TOP = pathlib.Path(__file__).resolve().parents[2]
sys.path += [str(TOP / "checks" / "shared"), str(TOP / "checks" / "tiles")]

from commands import ran, two_tiles
from makes import bytes_field, number_field, varint

KEYS = ["a", "class", "$type", "$id", "name with {brace", "rank"]
WORDS = ["", "x", "motorway", "{", "{a}", "{a} {b}", "Point", "none"]
COLORS = ["red", "#123", "rgba(1,2,3,0.5)", "hsl(205, 56%, 73%)"]


class Number(float):
    """A number with the digits of its text."""

    def __new__(cls, text):
        made = super().__new__(cls, text)
        made.text = text
        return made


def written(value):
    """JSON, numbers by their texts."""
    if isinstance(value, Number):
        return value.text
    if isinstance(value, dict):
        return "{" + ",".join(json.dumps(k) + ":" + written(v) for k, v in value.items()) + "}"
    if isinstance(value, list):
        return "[" + ",".join(map(written, value)) + "]"
    return json.dumps(value)


class Maker:
    def __init__(self, seed):
        self.random = random.Random(seed)

    def one(self, items):
        return self.random.choice(items)

    def number(self, least=0, most=24):
        return Number(self.one(["%d", "%d.0", "%d.50", "%de0"]) % self.random.randint(least, most))

    def scalar(self):
        return self.one([self.number(), self.one(WORDS), True, False])

    def filter(self, levels=3):
        kind = self.random.random()
        if levels and kind < 0.4:
            return [self.one(["all", "any", "none"])] + [self.filter(levels - 1) for _ in range(self.random.randint(0, 3))]
        key = self.one(KEYS)
        if kind < 0.55:
            return [self.one(["has", "!has"]), key]
        if kind < 0.75:
            return [self.one(["in", "!in"]), key] + [self.of_key(key) for _ in range(self.random.randint(0, 4))]
        if kind < 0.9:
            return [self.one(["==", "!="]), key, self.of_key(key)]
        return [self.one(["<", "<=", ">", ">="]), self.one(["a", "rank"]), self.one([self.number(), "x"])]

    def of_key(self, key):
        return self.one(["Point", "LineString", "Polygon"]) if key == "$type" else self.scalar()

    def function(self, output, ramps):
        inputs = sorted({self.random.randint(0, 24) for _ in range(self.random.randint(1, 5))})
        form = self.random.random()
        made = {}
        if form < 0.3:
            made["type"] = self.one(["interval"] + (["exponential"] if ramps else []))
            stops = [[Number(str(i)), output()] for i in inputs]
        elif form < 0.5:
            made = {"type": "categorical", "property": "class"}
            stops = [[word, output()] for word in self.random.sample(["x", "y", "z", "w"], self.random.randint(1, 4))]
        elif form < 0.7:
            made = {"property": "rank", "type": self.one(["interval"] + (["exponential"] if ramps else []))}
            stops = [[Number(str(i)), output()] for i in inputs]
        elif form < 0.85:
            made = {"property": "rank", "type": "interval"}
            stops = [[{"zoom": Number(str(z)), "value": Number(str(v))}, output()] for z in inputs[:3] for v in (0, 5)]
        else:
            return {"type": "identity", "property": "a", **({"default": output()} if self.random.random() < 0.5 else {})}
        if self.random.random() < 0.3:
            made["default"] = output()
        if made.get("type") == "exponential" and self.random.random() < 0.4:
            made["base"] = Number(self.one(["1.20", "2", "0.5", "1"]))
        if self.random.random() < 0.05:
            made["colorSpace"] = "lab"
        return {**made, "stops": stops}

    def layer(self, number):
        kind = self.one(["circle", "line", "symbol", "fill"])
        made = {"id": f"layer-{number}", "type": kind, "source": "t", "source-layer": "p", "metadata": {"n": Number("1.50")}}
        if self.random.random() < 0.7:
            made["filter"] = self.filter()
        numbers, colors = (lambda: self.number(0, 9)), (lambda: self.one(COLORS))
        rows = {
            "circle": [("paint", "circle-radius", numbers, True), ("paint", "circle-color", colors, True)],
            "line": [("layout", "line-join", lambda: self.one(["round", "bevel", "miter"]), False), ("paint", "line-width", numbers, True)],
            "symbol": [
                ("layout", "text-field", lambda: self.one(WORDS), False),
                ("layout", "icon-image", lambda: self.one(WORDS), False),
                ("layout", "text-size", numbers, True),
                ("layout", "text-font", lambda: [self.one(["Noto Sans", "get"])], False),
                ("layout", "text-offset", lambda: [self.number(), self.number()], True),
            ],
            "fill": [("paint", "fill-color", colors, True), ("paint", "fill-outline-color", colors, True)],
        }
        for place, name, output, ramps in rows[kind]:
            if self.random.random() < 0.8:
                value = output() if self.random.random() < 0.2 else self.function(output, ramps)
                made.setdefault(place, {})[name] = value
        return made

    def style(self):
        layers = [self.layer(i) for i in range(self.random.randint(1, 8))]
        return {"version": Number("8.0"), "name": "a", "sources": {"t": {"type": "vector"}}, "layers": layers}


    def tile(self):
        """A tile with a layer p of some features, of which each has some of the keys."""
        keys, values = self.keys(), self.values()
        parts = [bytes_field(1, b"p"), number_field(15, 2)]
        parts += [bytes_field(3, key.encode()) for key in keys] + [bytes_field(4, value) for value in values]
        parts += [self.feature(len(keys), len(values)) for _ in range(self.random.randint(0, 12))]
        return bytes_field(3, b"".join(parts))

    def keys(self):
        return [key for key in KEYS if not key.startswith("$")]

    def values(self):
        """Whole numbers around the inputs of functions, texts, and both truth values."""
        numbers = [number_field(6, 2 * number) for number in range(25)] + [number_field(6, 1)]
        return numbers + [bytes_field(1, word.encode()) for word in WORDS + ["y", "w"]] + [number_field(7, 0), number_field(7, 1)]

    def feature(self, keys, values):
        tags = [varint(key) + varint(self.random.randrange(values)) for key in range(keys) if self.random.random() < 0.7]
        parts = [bytes_field(2, b"".join(tags)), number_field(3, self.random.randint(0, 3))]
        parts += [number_field(1, self.random.randint(0, 20))] if self.random.random() < 0.7 else []
        return bytes_field(2, b"".join(parts))

    def zoom(self):
        return "%d%s" % (self.random.randint(0, 23), self.one(["", ".5", ".123456"]))


def shows_the_same(program, maker, old, new, folder):
    """Whether two styles have one listing over two tiles of their source."""
    words = [maker.zoom(), *two_tiles(folder, maker)]
    status, listing = ran(program, folder, "eval", old, *words)
    return status == 0 and ran(program, folder, "eval", new, *words) == (0, listing)


def main():
    words = argparse.ArgumentParser()
    words.add_argument("--program", default=str(TOP / "pirgesh"))
    words.add_argument("--seed", type=int, default=1)
    words.add_argument("--count", type=int, default=300)
    given = words.parse_args()
    failed = broken = changed = 0
    with tempfile.TemporaryDirectory() as folder:
        for number in range(given.count):
            maker = Maker(given.seed * 1_000_000 + number)
            text = written(maker.style())
            status, out = ran(given.program, folder, "validate", text)
            if status == 1:
                broken += 1
                faults = ran(given.program, folder, "migrate", text) != (1, out)
            else:
                code, once = ran(given.program, folder, "migrate", text)
                faults = code != 0 or ran(given.program, folder, "migrate", once) != (0, once)
                faults = faults or ran(given.program, folder, "validate", once)[0] != 0
                faults = faults or not shows_the_same(given.program, maker, text, once, folder)
                changed += once.rstrip("\n") != text
            if faults:
                failed += 1
                print("migrate: differs:", text)
    print(f"styles: {given.count - failed} passed, {failed} failed; {changed} changed, {broken} had findings")
    return 1 if failed else 0


if __name__ == "__main__":
    sys.exit(main())
