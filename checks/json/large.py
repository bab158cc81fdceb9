"""Large JSON texts: a style such as maps have, and hostile ones."""

import json
import random

SIZE = 4_000_000


def style(layers=100):
    """A style of some hundred layers with filters and expressions, indented as people keep it."""
    rng = random.Random(7)
    root = {"version": 8, "name": "Streets", "sources": {"omt": {"type": "vector", "url": "https://tiles.example/t.json"}}}
    root["layers"] = [layer(rng, number) for number in range(layers)]
    return json.dumps(root, indent=2, ensure_ascii=False).encode()


def layer(rng, number):
    kind = rng.choice(["fill", "line", "symbol", "circle"])
    classes = ["motorway", "trunk", "primary", "secondary", "tertiary", "minor", "service", "path"]
    paint = {f"{kind}-color": by_class(rng, classes), f"{kind}-opacity": by_zoom(rng, 2)}
    if kind == "line":
        paint["line-width"] = by_zoom(rng, 5)
    layout = {"text-field": ["coalesce", ["get", "name:en"], ["get", "name"], "Straße"], "text-size": by_zoom(rng, 4)}
    return {
        "id": f"layer-{number}",
        "type": kind,
        "source": "omt",
        "source-layer": rng.choice(["transportation", "water", "landuse", "place", "poi"]),
        "minzoom": number % 12,
        "filter": ["all", ["==", ["get", "brunnel"], "bridge"], ["in", ["get", "class"], ["literal", rng.sample(classes, 4)]]],
        "layout": layout if kind == "symbol" else {"visibility": "visible"},
        "paint": paint,
    }


def by_class(rng, classes):
    pairs = [part for name in classes for part in (name, f"hsl({rng.randrange(360)}, {rng.randrange(100)}%, 53%)")]
    return ["match", ["get", "class"], *pairs, "#cccccc"]


def by_zoom(rng, stops):
    pairs = [part for stop in range(stops) for part in (4 + 3 * stop, ["case", [">", ["get", "rank"], 3], round(rng.uniform(0, 9), 2), 1.5])]
    return ["interpolate", ["exponential", 1.4], ["zoom"], *pairs]


def fill(part):
    """A part as often as it fits."""
    return part * (SIZE // len(part))


def listed(part):
    return b"[" + fill(part + b",") + part + b"]"


def keys(count, form):
    return b"{" + b",".join(b'"%s":0' % (form % key) for key in range(count)) + b"}"


def shuffled(count, form):
    order = list(range(count))
    random.Random(3).shuffle(order)
    return b"{" + b",".join(b'"%s":0' % (form % key) for key in order) + b"}"


KINDS = {
    "a style of 100 layers": style,
    "a style of 1,500 layers": lambda: style(1500),
    "one object of 400,000 keys": lambda: keys(400_000, b"%06d"),
    "the same in another order": lambda: shuffled(400_000, b"%06d"),
    "4,000 keys of 1,000 bytes that end differently": lambda: keys(4_000, b"k" * 994 + b"%06d"),
    "40 keys of 100,000 bytes that end differently": lambda: keys(40, b"k" * 99_994 + b"%06d"),
    "objects of one key": lambda: listed(b'{"a":0}'),
    "64 arrays in one another, again and again": lambda: listed(b"[" * 63 + b"]" * 63),
    "empty arrays": lambda: listed(b"[]"),
    "one text of letters": lambda: b'"' + fill(b"a") + b'"',
    "one text of escapes \\n": lambda: b'"' + fill(b"\\n") + b'"',
    "one text of escapes \\u0061": lambda: b'"' + fill(b"\\u0061") + b'"',
    "one text of pairs of surrogates": lambda: b'"' + fill(b"\\ud83d\\ude00") + b'"',
    "one text of characters of three bytes": lambda: b'"' + fill("€".encode()) + b'"',
    "numbers of 64 bytes": lambda: listed(b"1" * 64),
    "numbers of one byte": lambda: listed(b"1"),
    "empty texts": lambda: listed(b'""'),
    "white space": lambda: fill(b" ") + b"1",
    "open arrays alone": lambda: fill(b"["),
    "equal keys at the end": lambda: keys(400_000, b"%06d")[:-1] + b',"000000":1}',
}
