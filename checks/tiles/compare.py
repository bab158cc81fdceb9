#!/usr/bin/env python3
"""Compares what the crate tile_reader says of tiles with what others say.

    python3 checks/tiles/compare.py [--random N] [--changed N] [--seed N]   three comparisons
    python3 checks/tiles/compare.py --times                                 time and memory on large tiles

1. Tiles that GDAL makes, and tiles made here, as GDAL reads them: layers, ids, shapes and properties.
2. Random tiles, in which parts are wrong, as by_rules.py reads them: the tile, or the first fault and its place.
3. The same for tiles with bytes changed.

It needs `rt` on the path. GDAL is Debian's gdal-bin; without it the first comparison is skipped.
The program that reads the tiles is made in a temporary folder, from a copy of crates/ and program.txt. `rt run` proves it and LLVM builds it,
which takes minutes where crates/*/out is empty.
"""

import collections
import json
import pathlib
import random
import re
import sys
import tempfile

sys.path.append(str(pathlib.Path(__file__).resolve().parent.parent / "shared"))

import by_gdal
import by_rules
import large
import makes
import scratch

PROGRAM = "tile_lines"


def reader_lines(folder, tiles):
    """What the reader says of each tile: one line of JSON, or a fault and its place."""
    batch = folder / "tiles"
    batch.write_bytes(b"")
    runner = scratch.build(made_program(folder), "lines", batch)
    batch.write_bytes(scratch.framed(tiles))
    return scratch.run(folder, runner, "lines", batch).decode("utf-8").split("\n")[: len(tiles)]


def line_by_rules(tile):
    """The same by by_rules.py."""
    try:
        return json.dumps(by_rules.read_tile(tile))
    except by_rules.Fault as fault:
        return str(fault)


def as_written_by_python(line):
    """A line of JSON as Python writes it; a fault as it is."""
    return json.dumps(json.loads(line)) if line.startswith("[") else line


def compare_with_rules(what, tiles, lines):
    """Compares each line with the rules, and counts what was met; gives how many differ."""
    met = collections.Counter()
    differ = 0
    for tile, line in zip(tiles, lines, strict=True):
        wanted = line_by_rules(tile)
        met[re.sub(r" \d+$", "", wanted) if not wanted.startswith("[") else "tile"] += 1
        if as_written_by_python(line) != wanted:
            differ += 1
            print(f"{what}: {tile.hex()}: reader {line}, rules {wanted}")
    counts = ", ".join(f"{kind} {count}" for kind, count in met.most_common())
    print(f"{what}: {len(tiles)} tiles, {differ} differ ({counts})")
    return differ


def random_tiles(rng, count):
    """Tiles in which a part is wrong with chances from none to often."""
    return [makes.Maker(rng, rng.choice([0, 0.02, 0.1, 0.3])).tile() for _ in range(count)]


def made_program(folder):
    """The program that reads tiles, in this folder."""
    return scratch.make_program(folder, PROGRAM, "tiles/program.txt", ["tile_reader", "prop_values", "decimal_json"])


def compare(folder, options):
    """All comparisons; gives how many tiles differ."""
    rng = random.Random(options.seed)
    whole = [makes.Maker(rng, 0).tile() for _ in range(500)]
    made = random_tiles(rng, options.random)
    bytes_changed = [makes.changed(rng, rng.choice(whole), whole) for _ in range(options.changed)]
    with tempfile.TemporaryDirectory() as maps:
        mapped = by_gdal.tiles(pathlib.Path(maps), rng)
        lines = reader_lines(folder, [tile for tile, _ in mapped] + made + bytes_changed)
    differ = by_gdal.compare(mapped, lines[: len(mapped)])
    differ += compare_with_rules("random", made, lines[len(mapped) : len(mapped) + len(made)])
    return differ + compare_with_rules("changed", bytes_changed, lines[len(mapped) + len(made) :])


def measure(folder):
    """Prints what reading each large tile takes."""
    path = folder / "large"
    path.write_bytes(b"")
    runner = scratch.build(made_program(folder), "count", path)
    for name, make in large.KINDS.items():
        size = path.write_bytes(make())
        print(f"{name}, {size / 1e6:.1f} MB: {scratch.run(folder, runner, 'count', path).decode().splitlines()[0]}", flush=True)


COUNTS = {
    "random": (30000, "how many random tiles"),
    "changed": (30000, "how many tiles with bytes changed"),
}

if __name__ == "__main__":
    sys.exit(scratch.status_of("Compares the tile reader with others.", COUNTS, compare, measure))
