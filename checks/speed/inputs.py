"""The inputs of checks/peers: JSON texts and tiles, each made anew in the same way."""

import json
import random


def style(size=4_000_000):
    """A style as people keep one: an object indented by two spaces, arrays that fit on one line, short keys and texts, numbers of one to six digits."""
    rng = random.Random(7)
    layers = []
    length = 0
    while length < size:
        layers.append(indented(layer(rng, len(layers)), 2))
        length += len(layers[-1].encode()) + 6
    head = '{\n  "version": 8,\n  "name": "Streets",\n  "sources": {"omt": {"type": "vector", "url": "https://tiles.example/t.json"}},\n'
    return (head + '  "layers": [\n    ' + ",\n    ".join(layers) + "\n  ]\n}\n").encode()


def compact(text):
    """The same JSON text without white space."""
    return json.dumps(json.loads(text), separators=(",", ":"), ensure_ascii=False).encode()


def indented(part, depth):
    """JSON text in which objects of more than a few members stand on lines of their own, and everything else on one."""
    line = json.dumps(part, ensure_ascii=False)
    if not isinstance(part, dict) or len(line) < 60:
        return line
    blanks = "  " * (depth + 1)
    members = [f"{blanks}{json.dumps(key)}: {indented(value, depth + 1)}" for key, value in part.items()]
    return "{\n" + ",\n".join(members) + "\n" + "  " * depth + "}"


def layer(rng, number):
    kind = rng.choice(["fill", "line", "symbol", "circle"])
    made = {
        "id": f"{rng.choice(['road', 'water', 'landuse', 'place', 'building', 'poi'])}-{kind}-{number}",
        "type": kind,
        "source": "omt",
        "source-layer": rng.choice(["transportation", "water", "landuse", "place", "poi", "building"]),
        "minzoom": rng.randrange(15),
    }
    if rng.random() < 0.3:
        made["maxzoom"] = rng.randrange(15, 24)
    made["filter"] = filter_of(rng)
    made["layout"] = symbols(rng) if kind == "symbol" else {"visibility": rng.choice(["visible", "none"])}
    made["paint"] = paint(rng, kind)
    if rng.random() < 0.2:
        made["metadata"] = {"mapbox:group": "%06d.%06d" % (rng.randrange(10**6), rng.randrange(10**6))}
    return made


def filter_of(rng):
    tests = [
        ["==", ["get", "brunnel"], rng.choice(["bridge", "tunnel"])],
        ["in", ["get", "class"], ["literal", rng.sample(CLASSES, rng.randrange(2, 5))]],
        [">=", ["get", "rank"], rng.randrange(30)],
        ["==", "$type", rng.choice(["Polygon", "LineString", "Point"])],
        ["!", ["has", "oneway"]],
    ]
    return ["all", *rng.sample(tests, rng.randrange(1, 4))]


def symbols(rng):
    return {
        "text-field": ["coalesce", ["get", "name:en"], ["get", "name"], "Straße"],
        "text-font": [rng.choice(["Noto Sans Regular", "Noto Sans Bold", "Noto Sans Italic"])],
        "text-size": by_zoom(rng, 3, 24),
        "text-offset": [0, round(rng.uniform(-2, 2), 1)],
        "symbol-placement": rng.choice(["line", "point"]),
    }


def paint(rng, kind):
    made = {f"{kind if kind != 'symbol' else 'text'}-color": rng.choice([color(rng), by_class(rng), color(rng)])}
    made[f"{kind if kind != 'symbol' else 'text'}-opacity"] = rng.choice([by_zoom(rng, 2, 1), round(rng.random(), 2)])
    if kind == "line":
        made["line-width"] = by_zoom(rng, 4, 20)
        made["line-dasharray"] = [rng.randrange(1, 9), round(rng.uniform(0, 4), 2)]
    if kind == "circle":
        made["circle-radius"] = by_zoom(rng, 3, 12)
    if kind == "symbol":
        made["text-halo-color"] = color(rng)
        made["text-halo-width"] = round(rng.uniform(0, 2), 1)
    return made


def color(rng):
    return rng.choice(["#%06x" % rng.randrange(1 << 24), f"hsl({rng.randrange(360)}, {rng.randrange(100)}%, {rng.randrange(100)}%)", "rgba(0,0,0,0.12)"])


def by_class(rng):
    pairs = [part for name in rng.sample(CLASSES, 4) for part in (name, color(rng))]
    return ["match", ["get", "class"], *pairs, "#cccccc"]


def by_zoom(rng, stops, top):
    pairs = [part for stop in range(stops) for part in (4 + 4 * stop, round(rng.uniform(0, top), rng.choice([0, 1, 2, 4])))]
    return ["interpolate", ["exponential", rng.choice([1, 1.2, 1.55])], ["zoom"], *pairs]


CLASSES = ["motorway", "trunk", "primary", "secondary", "tertiary", "minor", "service", "path", "park", "wood"]


def numbers(size=2_000_000):
    """Arrays of two numbers of 15 digits, as the coordinates of a shape."""
    rng = random.Random(5)
    pairs = ["[%.12f,%.13f]" % (rng.uniform(-179, -100), rng.uniform(10, 89)) for _ in range(size // 36)]
    return ("[" + ",".join(pairs) + "]").encode()


def keys(shuffled=False):
    """An object of 400,000 keys of six digits, in order or not."""
    order = list(range(400_000))
    if shuffled:
        random.Random(3).shuffle(order)
    return ("{" + ",".join('"%06d":0' % key for key in order) + "}").encode()


def text(size=4_000_000):
    """One text of letters."""
    return b'"' + b"abcdefghijklmnopqrstuvwxyz " * (size // 27) + b'"'


def varint(number):
    low, rest = number & 127, number >> 7
    return bytes([low | 128]) + varint(rest) if rest else bytes([low])


def field(number, content):
    """A field of wire type 2."""
    return varint(number * 8 + 2) + varint(len(content)) + content


def tile_layer(features, keys, values):
    head = b"\x78\x02" + field(1, b"roads")
    return field(3, head + features + b"".join(field(3, key) for key in keys) + b"".join(field(4, value) for value in values))


def usual_tile():
    """40,000 features of six properties over shared values, with an id and a geometry, in 2 MB."""
    rng = random.Random(11)
    names = [field(1, b"name of street %d" % number) for number in range(3000)]
    classes = [field(1, name.encode()) for name in CLASSES]
    whole = [b"\x28" + varint(number) for number in range(200)]
    truths = [b"\x38\x00", b"\x38\x01"]
    values = names + classes + whole + truths
    starts = [0, len(names), len(names) + len(classes), len(names) + len(classes) + len(whole)]

    def feature(number):
        picked = [rng.randrange(3000), starts[1] + rng.randrange(10), starts[1] + rng.randrange(10)]
        picked += [starts[2] + rng.randrange(200), starts[2] + rng.randrange(200), starts[3] + rng.randrange(2)]
        tags = b"".join(varint(key) + varint(value) for key, value in enumerate(picked))
        geometry = bytes(rng.randrange(128) for _ in range(18))
        return field(2, b"\x08" + varint(1_000_000 + number) + field(2, tags) + b"\x18\x02" + field(4, geometry))

    features = b"".join(feature(number) for number in range(40_000))
    return tile_layer(features, [b"name", b"class", b"subclass", b"rank", b"layer", b"oneway"], values)


def many_features():
    """2,000,000 features of one property and no geometry, in 16 MB."""
    features = b"".join(b"\x12\x06\x12\x02\x00" + bytes([number % 100]) + b"\x18\x01" for number in range(2_000_000))
    return tile_layer(features, [b"rank"], [b"\x28" + varint(number) for number in range(100)])


TEXTS = {
    "style, 4 MB": style,
    "the same without white space": lambda: compact(style()),
    "numbers of 15 digits, 2 MB": numbers,
    "400,000 keys in order": keys,
    "400,000 keys shuffled": lambda: keys(True),
    "one text of 4 MB": text,
}

TILES = {
    "40,000 features of six properties, 2 MB": usual_tile,
    "2,000,000 features of one property, 16 MB": many_features,
}
