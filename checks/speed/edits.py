"""Time of each kind of edit under `replay`, by the number of layers.

    python3 checks/speed/edits.py PROGRAM [LAYERS..]

Styles of LAYERS circle layers (400, 4000 and 40000), each with a paint property, one of them also with a radius that reads the state
of a feature, over a tile of twenty features; and a script of 2000 edits of one kind on layers far apart. The
processor's time of an edit is that of the run with the script less that of the run without it, the least of five each; of the
larger styles also what it is above the first one's. `add-layer` and `remove-layer` move the layers after theirs. Then a style of
one layer, to which layers are added.
"""

import json
import os
import resource
import subprocess
import sys
import tempfile

EDITS = 2000
ADDED = (1000, 8000)


def layer(number):
    paint = {"circle-blur": 1}
    if number == 7:
        paint["circle-radius"] = ["case", ["boolean", ["feature-state", "on"], False], 9, 3]
    return {"id": f"l{number}", "type": "circle", "source": "t", "source-layer": "p", "paint": paint}


def style(count):
    return {"version": 8, "sources": {"t": {"type": "vector"}}, "layers": [layer(number) for number in range(count)]}


def named(count, number):
    return f"l{number * 37 % count}"


KINDS = {
    "set-paint": lambda count, n: ["set-paint", named(count, n), "circle-radius", ["+", 1, n]],
    "set-filter": lambda count, n: ["set-filter", named(count, n), ["==", ["get", "kind"], f"l{n}"]],
    "set-layout": lambda count, n: ["set-layout", named(count, n), "circle-sort-key", ["get", "rank"]],
    "set-range": lambda count, n: ["set-range", named(count, n), n % 20, 22],
    "set-state": lambda count, n: ["set-state", "t", "p", n % 20, {"on": n % 40 < 20}],
    "set-zoom": lambda count, n: ["set-zoom", n % 24],
    "move-layer": lambda count, n: ["move-layer", named(count, n), named(count, n + 1)],
    "add-layer": lambda count, n: ["add-layer", {**layer(n), "id": f"new-{n}"}, named(count, n)],
    "remove-layer": lambda count, n: ["remove-layer", f"l{n}"],
}


def number(value):
    out = []
    while value > 127:
        out.append(value & 127 | 128)
        value >>= 7
    return bytes([*out, value])


def field(tag, content):
    return number(tag << 3 | 2) + number(len(content)) + content


def tile(features):
    kinds = [f"k{it}" for it in range(7)]
    made = b"".join(field(2, number(1 << 3) + number(it) + field(2, bytes([0, it % 7])) + number(3 << 3) + number(1)) for it in range(features))
    values = b"".join(field(4, field(1, it.encode())) for it in kinds)
    return field(3, field(1, b"p") + made + field(3, b"kind") + values + number(15 << 3) + number(2))


def written(folder, name, lines):
    path = os.path.join(folder, name)
    with open(path, "w") as file:
        file.write("".join(json.dumps(line, separators=(",", ":")) + "\n" for line in lines))
    return path


def seconds(words):
    before = resource.getrusage(resource.RUSAGE_CHILDREN)
    done = subprocess.run(words, stdout=subprocess.PIPE, check=False)
    after = resource.getrusage(resource.RUSAGE_CHILDREN)
    if done.returncode not in (0, 1) or b"refused" in done.stdout:
        sys.exit(f"{words}: {done.returncode} {done.stdout[:200]}")
    return after.ru_utime + after.ru_stime - before.ru_utime - before.ru_stime


def main():
    program = os.path.abspath(sys.argv[1])
    counts = [int(word) for word in sys.argv[2:]] or [400, 4000, 40000]
    with tempfile.TemporaryDirectory() as folder:
        none = written(folder, "none", [])
        source = "t=" + os.path.join(folder, "tile")
        with open(source[2:], "wb") as file:
            file.write(tile(20))
        first = {}
        for count in counts:
            shown = written(folder, "style", [style(count)])
            without = min(seconds([program, "replay", shown, none, "5", source]) for _ in range(5))
            for kind, edit in KINDS.items():
                edits = min(EDITS, count) if kind == "remove-layer" else EDITS
                lines = written(folder, "lines", [edit(count, it) for it in range(edits)])
                taken = min(seconds([program, "replay", shown, lines, "5", source]) for _ in range(5))
                one = (taken - without) / edits * 1e6
                first.setdefault(kind, one)
                print(f"{kind}, {count} layers: {one:.1f} microseconds an edit, {one - first[kind]:+.1f}", flush=True)
        shown = written(folder, "style", [style(1)])
        for count in ADDED:
            lines = written(folder, "lines", [["add-layer", {**layer(it), "id": f"new-{it}"}, None] for it in range(count)])
            print(f"add-layer, {count} times: {seconds([program, 'replay', shown, lines, '5']):.2f} s")


main()
