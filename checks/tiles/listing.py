#!/usr/bin/env python3
"""What `tile` prints of a tile, by docs/REFERENCE.md: its sections on `tile TILE` and on tiles. Written from that page, apart from the
proved program.

    python3 checks/tiles/listing.py FILE                          prints the lines of a tile
    python3 checks/tiles/listing.py --compare PROGRAM [--count N] [--seed N]     compares random tiles, of which some have wrong parts
    python3 checks/tiles/listing.py --times PROGRAM               time and memory on a tile of 16 MB
"""

import argparse
import json
import pathlib
import random
import resource
import subprocess
import sys
import tempfile

sys.path.append(str(pathlib.Path(__file__).resolve().parent.parent / "shared"))

import by_rules
import large
import makes

DEFAULT_EXTENT = 4096


def listing(tile):
    """The lines of a tile; else a Fault."""
    lines = []
    for layer, extent in zip(by_rules.read_tile(tile), extents(tile), strict=True):
        lines.append(f"layer {text(layer[0])} extent {extent}")
        for place, feature in enumerate(layer[1:]):
            lines += feature_lines(place, feature)
    return "".join(line + "\n" for line in lines)


def extents(tile):
    """The extent of each layer: the last of its fields 5."""
    for number, _, _, bounds in by_rules.fields(tile, 0, len(tile)):
        if number == 3:
            said = [held for field, _, _, held in by_rules.fields(tile, *bounds) if field == 5]
            yield said[-1] if said else DEFAULT_EXTENT


def feature_lines(place, feature):
    """The line of a feature, and one for each of its properties."""
    id, shape = feature[:2]
    yield f"  feature {place} {shape}" + ("" if id is None else f" id {id}")
    for key, value in zip(feature[2::2], feature[3::2]):
        yield f"    {text(key)} {text(value)}"


def text(value):
    """A number, a truth value or a JSON string."""
    return json.dumps(value, ensure_ascii=False)


def answer(name, tile):
    """What the program writes to both streams, and its status."""
    try:
        return (listing(tile).encode(), b"", 0)
    except by_rules.Fault as fault:
        kind, at = str(fault).rsplit(" ", 1)
        kind = kind.removeprefix("Wire(").removesuffix(")")
        return (b"", f"refused tile {text(name)} {kind} {at}\n".encode(), 3)


def random_tile(rng):
    """A tile; where a layer says an extent, another number is in its place."""
    tile = makes.Maker(rng, rng.choice([0, 0, 0.02, 0.1])).tile()
    return tile.replace(b"\x28\x80\x20", b"\x28" + makes.varint(rng.choice([0, 1, 127, 512, 4097, 8192])))


def compare(program, count, seed):
    """How many of `count` random tiles differ."""
    rng = random.Random(seed)
    differ = whole = 0
    with tempfile.TemporaryDirectory() as folder:
        for _ in range(count):
            tile = random_tile(rng)
            pathlib.Path(folder, "t").write_bytes(tile)
            run = subprocess.run([program, "tile", "t"], cwd=folder, capture_output=True, timeout=60)
            wanted = answer("t", tile)
            whole += wanted[2] == 0
            if (run.stdout, run.stderr, run.returncode) != wanted:
                differ += 1
                print(f"{tile.hex()}: {run.stdout!r} {run.stderr!r} {run.returncode}, by the manual {wanted!r}")
    print(f"tile: {count} tiles, {whole} of them whole, {differ} differ")
    return differ


def measure(program):
    """Prints what the lines of a large tile take, and what reading it alone takes, by `eval` of a style without layers."""
    with tempfile.TemporaryDirectory() as folder:
        size = pathlib.Path(folder, "t").write_bytes(large.usual())
        pathlib.Path(folder, "s").write_text('{"version":8,"sources":{"t":{"type":"vector"}},"layers":[]}')
        for name, words in {"tile": ["tile", "t"], "read alone": ["eval", "s", "0", "t=t"]}.items():
            seconds = min(seconds_of([program, *words], folder) for _ in range(3))
            print(f"{name}, {size / 1e6:.1f} MB: {seconds:.2f} s")
        print(f"most memory: {resource.getrusage(resource.RUSAGE_CHILDREN).ru_maxrss // 1024} MB")


def seconds_of(words, folder):
    """The processor's time of a run, in which nothing of what it writes is kept."""
    before = resource.getrusage(resource.RUSAGE_CHILDREN)
    subprocess.run(words, cwd=folder, stdout=subprocess.DEVNULL, check=True, timeout=120)
    after = resource.getrusage(resource.RUSAGE_CHILDREN)
    return after.ru_utime + after.ru_stime - before.ru_utime - before.ru_stime


def main():
    words = argparse.ArgumentParser()
    words.add_argument("file", nargs="?")
    words.add_argument("--compare", metavar="PROGRAM")
    words.add_argument("--times", metavar="PROGRAM")
    words.add_argument("--count", type=int, default=2000)
    words.add_argument("--seed", type=int, default=1)
    asked = words.parse_args()
    if asked.compare:
        sys.exit(bool(compare(str(pathlib.Path(asked.compare).resolve()), asked.count, asked.seed)))
    if asked.times:
        measure(str(pathlib.Path(asked.times).resolve()))
        return
    sys.stdout.write(listing(pathlib.Path(asked.file).read_bytes()))


if __name__ == "__main__":
    main()
