"""Measures a desk of eight views over 391 layers and 11,000 features, an edit and a listing of each view, beside eight replays of the
same: seconds of processor, the most memory in MB, and how many MB were printed.

    python3 checks/speed/views.py PROGRAM"""

import json
import os
import pathlib
import resource
import subprocess
import sys
import tempfile

import listings

# As many layers as a desk may have over these features: 997,832 cells.
LAYERS = 391
VIEWS = 8
EDIT = ["set-paint", "l7", "text-color", "#112233"]


def lines(*commands):
    return "".join(json.dumps(command) + "\n" for command in commands)


def run(program, words, folder):
    """Seconds, memory in MB, and bytes printed."""
    before = resource.getrusage(resource.RUSAGE_CHILDREN)
    process = subprocess.Popen([program, *words], cwd=folder, stdout=subprocess.PIPE)
    count = 0
    while piece := process.stdout.read(1 << 20):
        count += len(piece)
    if process.wait() != 0:
        sys.exit(f"status {process.returncode}: {words}")
    after = resource.getrusage(resource.RUSAGE_CHILDREN)
    seconds = after.ru_utime - before.ru_utime + after.ru_stime - before.ru_stime
    return seconds, after.ru_maxrss / 1024, count


def main():
    program = os.path.abspath(sys.argv[1])
    style, tile = listings.many_layers()
    style = json.loads(style)
    style["layers"] = style["layers"][:LAYERS]
    names = [f"v{number}" for number in range(VIEWS)]
    with tempfile.TemporaryDirectory() as name:
        folder = pathlib.Path(name)
        (folder / "style").write_text(json.dumps(style))
        (folder / "tile").write_bytes(tile)
        opened = [["open-view", view, zoom + 1] for zoom, view in enumerate(names)]
        listed = [["view", view, ["list"]] for view in names]
        (folder / "desk").write_text(lines(*opened, EDIT, *listed))
        (folder / "replay").write_text(lines(EDIT, ["list"]))
        seconds, memory, count = run(program, ["desk", "style", "desk", "t=tile"], folder)
        print(f"desk of {VIEWS} views: {seconds:.2f} s, {memory:.0f} MB, {count / 1e6:.0f} MB printed")
        runs = [run(program, ["replay", "style", "replay", str(zoom + 1), "t=tile"], folder) for zoom in range(VIEWS)]
        seconds, memory, count = (sum(of) for of in zip(*runs))
        print(f"{VIEWS} replays: {seconds:.2f} s, {max(one[1] for one in runs):.0f} MB, {count / 1e6:.0f} MB printed")


main()
