#!/usr/bin/env python3
"""Simplifies random styles, and holds the result against what simplification promises: it has no findings, no expression has more
nodes, no feature passes a filter that is listed as `never`, and over random tiles, states and zooms each feature has the values and
marks that it has in the style. A value that reads no feature any more may be listed with its layer. How many evaluations a listing
takes is not compared: most often fewer, but such a value is evaluated also where the layer shows no feature.

    python3 checks/styles/simplify.py [--program PROGRAM] [--seed N] [--count N]
"""

import argparse
import json
import os
import pathlib
import random
import sys
import tempfile

TOP = pathlib.Path(__file__).resolve().parents[2]
sys.path += [str(TOP / "checks" / "shared"), str(TOP / "checks" / "manual")]

import make_styles
import trees
from commands import ran, two_tiles


def shown(listing):
    """A listing by features: the answers and the lines of layers and features in order, and the values of each feature. Values of a
    layer are values of each of its features, and are kept by themselves too."""
    lines, own, features, layers = [], {}, {}, {}
    layer = feature = ""
    for line in listing.splitlines():
        name, _, value = line.strip().partition(" ")
        if line.startswith("    "):
            features[layer, feature][name] = value
        elif line.startswith("  feature "):
            feature = line
            features[layer, feature] = dict(own)
            lines.append(line)
        elif line.startswith("  "):
            own[name] = value
            layers[layer, name] = value
        elif name == "stats":
            lines.append(name)
        else:
            layer, own = f"{len(lines)} {line}", {}
            lines.append(line)
    return lines, features, layers


def shows_the_same(old, new):
    """Whether two listings have the same features with the same values."""
    lines, features, layers = shown(old)
    new_lines, new_features, new_layers = shown(new)
    return lines == new_lines and features == new_features and all(new_layers.get(place) == value for place, value in layers.items())


def nodes(tree):
    """How many arrays a tree has: no rule makes one more."""
    if isinstance(tree, list):
        return 1 + sum(map(nodes, tree))
    return sum(map(nodes, tree.values())) if isinstance(tree, dict) else 0


def has_more_nodes(old, new):
    """Whether a property or filter of a layer has more nodes than it had."""
    for before, after in zip(json.loads(old).get("layers", []), json.loads(new).get("layers", [])):
        pairs = [(before.get("filter"), after.get("filter"))]
        for place in ("layout", "paint"):
            pairs += [(value, after[place][name]) for name, value in before.get(place, {}).items()]
        if any(nodes(a) < nodes(b) for a, b in pairs):
            return True
    return False


def passes_none(listing, paths):
    """Whether the layers of these filters list no feature."""
    blocks = listing.split("\nlayer ")[1:]
    return all("\n  feature " not in blocks[int(json.loads(path).split("/")[2])] for path in paths)


def faults(program, folder, maker, text):
    """Whether a style is simplified wrongly; what became of it."""
    report = ran(program, folder, "validate", text)
    code, out = ran(program, folder, "simplify", text)
    if report[0] == 1:
        return (code, out) != report, "broken"
    simplified, _, rest = out.partition("\n")
    never = [line.removeprefix("never ") for line in rest.splitlines()]
    wrong = code != 0 or ran(program, folder, "validate", simplified)[0] != 0 or has_more_nodes(text, simplified)
    words = [maker.one(make_styles.ZOOMS), *two_tiles(folder, maker)]
    script = os.path.join(folder, "script")
    with open(script, "w", encoding="utf-8") as file:
        file.writelines(trees.written(line) + "\n" for line in maker.script())
    for command, more in [("eval", words), ("replay", [script, *words])]:
        status, listing = ran(program, folder, command, text, *more)
        again, other = ran(program, folder, command, simplified, *more)
        wrong = wrong or status != 0 or again != 0 or not shows_the_same(listing, other)
        wrong = wrong or command == "eval" and not passes_none(listing, never)
    return wrong, "changed" if json.loads(simplified) != json.loads(text) else "same"


def main():
    words = argparse.ArgumentParser()
    words.add_argument("--program", default=str(TOP / "pirgesh"))
    words.add_argument("--seed", type=int, default=1)
    words.add_argument("--count", type=int, default=300)
    given = words.parse_args()
    failed, counts = 0, {"changed": 0, "same": 0, "broken": 0}
    with tempfile.TemporaryDirectory() as folder:
        for number in range(given.count):
            rng = random.Random(f"simplify {given.seed} {number}")
            maker = make_styles.Maker(rng, rng.choice([0, 0, 0, 0.005]), rng.choice([2, 3, 4]))
            text = trees.written(maker.style())
            wrong, what = faults(given.program, folder, maker, text)
            counts[what] += 1
            if wrong:
                failed += 1
                print("simplify: differs:", text)
    told = f"{counts['changed']} changed, {counts['broken']} had findings"
    print(f"styles: {given.count - failed} passed, {failed} failed; {told}")
    return 1 if failed else 0


if __name__ == "__main__":
    sys.exit(main())
