"""Vector tiles as GDAL (Debian's gdal-bin) makes and reads them."""

import json
import pathlib
import shutil
import subprocess

import makes

WORDS = ["Oslo", "Ærø", "東京", "a\"b\\c", "x" * 200, ""]
SHAPES = {"Point": "Point", "LineString": "LineString", "Polygon": "Polygon"}


def tiles(folder, rng):
    """Tiles, each with the features of each layer as GDAL reads them; none where GDAL is missing."""
    if shutil.which("ogr2ogr") is None:
        print("gdal: skipped, since ogr2ogr is missing (Debian: gdal-bin)")
        return []
    made = made_by_gdal(folder, rng) + made_here(folder, rng)
    return [(path.read_bytes(), layers_by_gdal(path)) for path in made]


def printed(*words):
    """What a program prints."""
    return subprocess.run(list(map(str, words)), check=True, capture_output=True).stdout.decode("utf-8")


def ogr(*words):
    """What a call of ogr2ogr prints."""
    return printed("ogr2ogr", *words)


def made_by_gdal(folder, rng):
    """The tiles that GDAL makes of points, lines and areas, uncompressed."""
    whole = folder / "map.gpkg"
    for number, name in enumerate(["places", "roads", "areas"]):
        source = folder / f"{name}.geojson"
        features = [feature_of(rng, number) for _ in range(80)]
        source.write_text(json.dumps({"type": "FeatureCollection", "features": features}))
        ogr("-f", "GPKG", "-update", "-append", whole, source, "-nln", name) if number else ogr("-f", "GPKG", whole, source, "-nln", name)
    out = folder / "tiles"
    ogr("-f", "MVT", out, whole, "-dsco", "COMPRESS=NO", "-dsco", "FORMAT=DIRECTORY", "-dsco", "MAXZOOM=3")
    return sorted(out.rglob("*.pbf"))


def feature_of(rng, number):
    """A point, a line or an area with properties, some of them missing."""
    x, y = rng.uniform(-170, 160), rng.uniform(-75, 70)
    line = [[x, y], [x + 9, y + 4], [x + 3, y + 8]]
    geometry = [
        {"type": "Point", "coordinates": [x, y]},
        {"type": "LineString", "coordinates": line},
        {"type": "Polygon", "coordinates": [line + line[:1]]},
    ][number]
    properties = {
        "name": rng.choice(WORDS),
        "rank": rng.choice([0, 1, -1, 5, -70000, 1 << 31, 1 << 50, -(1 << 50)]),
        "open": rng.random() < 0.5,
    }
    for key in ["rank", "open", "name"]:
        if rng.random() < 0.2:
            properties[key] = None
    return {"type": "Feature", "properties": properties, "geometry": geometry}


def made_here(folder, rng):
    """Tiles with ids and with numbers in their three forms, one form a key."""
    paths = []
    for number in range(20):
        path = folder / f"here{number}.pbf"
        names = rng.sample(["places", "vägar", "x"], rng.randrange(1, 4))
        path.write_bytes(b"".join(makes.bytes_field(3, layer(rng, name)) for name in names))
        paths.append(path)
    return paths


def layer(rng, name):
    """A layer of points with the keys word, flag, int, uint and sint, each with four values of its own."""
    number, content = makes.number_field, makes.bytes_field
    values = [content(1, word.encode()) for word in WORDS[:4]] + [number(7, flag) for flag in [0, 1, 2, 1]]
    values += [number(4, n % (1 << 64)) for n in [5, -1, -(1 << 40), 1 << 40]]
    values += [number(5, n) for n in [0, 7, 1 << 31, 1 << 52]] + [number(6, n) for n in [0, 1, 2, 1 << 40]]
    parts = content(1, name.encode()) + number(15, rng.choice([1, 2])) + number(5, 4096)
    parts += b"".join(content(3, key) for key in [b"word", b"flag", b"int", b"uint", b"sint"])
    parts += b"".join(content(4, value) for value in values)
    for _ in range(rng.randrange(1, 30)):
        tags = [tag for key in range(5) if rng.random() < 0.8 for tag in (key, 4 * key + rng.randrange(4))]
        feature = number(1, rng.randrange(1, 1 << 50)) if rng.random() < 0.8 else b""
        feature += content(2, bytes(tags)) + number(3, 1) + content(4, b"\x09\x32\x22")
        parts += content(2, feature)
    return parts


def layers_by_gdal(path):
    """The names of the layers, each with its features: id, shape and properties."""
    listed = [line for line in printed("ogrinfo", "-ro", "-q", path).splitlines() if ": " in line]
    names = [line.split(": ", 1)[1].rsplit(" (", 1)[0] for line in listed]
    return {name: features_by_gdal(path, name) for name in names}


def features_by_gdal(path, name):
    features = []
    lines = ogr("-f", "GeoJSONSeq", "/vsistdout/", path, name, "-oo", "CLIP=NO")
    for feature in map(json.loads, lines.splitlines()):
        properties = {key: value for key, value in feature["properties"].items() if value is not None}
        shape = feature["geometry"]["type"].removeprefix("Multi")
        features.append([properties.pop("mvt_id", None), shape, properties])
    return features


def features_of(layer):
    """The features of a layer that the reader printed, in the same form."""
    return [[id, shape, dict(zip(rest[::2], rest[1::2]))] for id, shape, *rest in layer[1:]]


def alike(ours, theirs):
    """Whether features are the same. GDAL gives a key whose numbers do not fit its integers as fractions."""
    return json.dumps(ours, sort_keys=True) == json.dumps(whole_numbers(theirs), sort_keys=True)


def whole_numbers(value):
    """The value with each fraction that is a whole number as that number."""
    if isinstance(value, float) and value.is_integer():
        return int(value)
    if isinstance(value, list):
        return [whole_numbers(item) for item in value]
    if isinstance(value, dict):
        return {key: whole_numbers(item) for key, item in value.items()}
    return value


def compare(mapped, lines):
    """Compares each tile with what GDAL says; gives how many differ."""
    differ = layers = features = 0
    for (tile, theirs), line in zip(mapped, lines, strict=True):
        ours = {layer[0]: features_of(layer) for layer in json.loads(line)} if line.startswith("[") else line
        layers += len(theirs)
        features += sum(map(len, theirs.values()))
        if not isinstance(ours, dict) or not alike(ours, theirs):
            differ += 1
            print(f"gdal: {tile.hex()}: reader {ours}, GDAL {theirs}")
    if mapped:
        print(f"gdal: {len(mapped)} tiles with {layers} layers and {features} features, {differ} differ")
    return differ
