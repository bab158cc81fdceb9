#!/usr/bin/env python3
"""Makes the tile of the example town, examples/town/tile.mvt.

    python3 checks/tiles/town.py [--check]

With --check nothing is written, and the status says whether the file is this tile.
"""

import pathlib
import sys

sys.path.append(str(pathlib.Path(__file__).resolve().parents[1] / "shared"))

from makes import bytes_field, number_field, varint

TILE = pathlib.Path(__file__).resolve().parents[2] / "examples" / "town" / "tile.mvt"

POINT, LINE, POLYGON = 1, 2, 3

# Vector Tile 2.1, section 4.3: command numbers with a count of 1, 1 and 2 in three bits more.
MOVE_TO, LINE_TO, LINE_TO_TWICE, CLOSE_PATH = 9, 10, 18, 15

GEOMETRIES = {
    POINT: [MOVE_TO, 4096, 4096],
    LINE: [MOVE_TO, 200, 200, LINE_TO, 4000, 400],
    POLYGON: [MOVE_TO, 100, 100, LINE_TO_TWICE, 800, 0, 0, 800, CLOSE_PATH],
}

# Each layer with its features: an id or none, a shape, and properties.
LAYERS = {
    "water": [
        (1, POLYGON, {"class": "lake", "name": "Mirror Lake", "outline": "#7aa0c8"}),
        (2, POLYGON, {"class": "river", "outline": "none"}),
        (3, POLYGON, {"class": "river", "brunnel": "tunnel"}),
        (4, LINE, {"class": "stream"}),
        (5, POLYGON, {"class": "pond"}),
    ],
    "landuse": [
        (11, POLYGON, {"class": "residential"}),
        (12, POLYGON, {"class": "park", "name": "Green"}),
    ],
    "building": [
        (21, POLYGON, {"height": 12}),
        (22, POLYGON, {}),
    ],
    "road": [
        (31, LINE, {"class": "motorway", "rank": 1, "name": "Ring", "ref": "E6"}),
        (32, LINE, {"class": "primary", "rank": 2, "name": "High Street"}),
        (33, LINE, {"class": "service"}),
        (34, LINE, {"class": "path", "rank": 6, "name": "Mill Lane"}),
    ],
    "poi": [
        (51, POINT, {"class": "bus", "name": "Station", "rank": 5}),
        (52, POINT, {"class": "cafe", "name": "Café Nord", "rank": 3}),
        (53, POINT, {"class": "bank", "name": "Bank", "rank": 9}),
        (None, POINT, {"class": "tree"}),
    ],
    "place": [
        (41, POINT, {"class": "town", "name": "Millbrook", "rank": 2, "size": 6, "capital": True}),
        (42, POINT, {"class": "village", "name": "Åby", "rank": 4}),
        (43, POINT, {"class": "hamlet", "name": "Outer Farm", "rank": 7, "capital": "no"}),
    ],
}


def value(given):
    """A value: a text, a whole number from 0, or a truth value."""
    if isinstance(given, bool):
        return number_field(7, int(given))
    return number_field(5, given) if isinstance(given, int) else bytes_field(1, given.encode())


def feature(made, keys, values):
    """A feature of these parts, by the places of its keys and values."""
    identifier, shape, properties = made
    tags = [place for key, given in properties.items() for place in (keys.index(key), values.index(value(given)))]
    parts = [number_field(1, identifier)] if identifier is not None else []
    parts += [bytes_field(2, b"".join(map(varint, tags)))] if tags else []
    parts += [number_field(3, shape), bytes_field(4, b"".join(map(varint, GEOMETRIES[shape])))]
    return bytes_field(2, b"".join(parts))


def layer(name, features):
    keys = list(dict.fromkeys(key for _, _, properties in features for key in properties))
    values = list(dict.fromkeys(value(given) for _, _, properties in features for given in properties.values()))
    parts = [number_field(15, 2), bytes_field(1, name.encode())]
    parts += [feature(made, keys, values) for made in features]
    parts += [bytes_field(3, key.encode()) for key in keys] + [bytes_field(4, made) for made in values]
    return bytes_field(3, b"".join(parts) + number_field(5, 4096))


def main():
    tile = b"".join(layer(name, features) for name, features in LAYERS.items())
    if "--check" in sys.argv[1:]:
        same = TILE.exists() and TILE.read_bytes() == tile
        print(f"town: the tile {'is' if same else 'is not'} the one that is made")
        return 0 if same else 1
    TILE.write_bytes(tile)
    return 0


if __name__ == "__main__":
    sys.exit(main())
