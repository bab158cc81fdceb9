"""Measures a million evaluations of some expressions.

    python3 checks/speed/evaluations.py [PROGRAM]

Each expression E stands in the filter `["all",["has","r"],["<",E,-1]]`, or E itself where it is a test, of one circle layer over a
tile of a million features of one number `r`. What is printed is the processor's time of `eval` less that with the filter
`["all",["has","r"],false]`, scaled to a million evaluations where there are fewer features. PROGRAM is the program as LLVM built it.
"""

import json
import os
import pathlib
import sys
import tempfile

import listings

TOP = pathlib.Path(__file__).resolve().parents[2]
MILLION = 1_000_000


def tile(features):
    numbered = b"".join(b"\x12\x06\x12\x02\x00" + bytes([i % 100]) + b"\x18\x01" for i in range(features))
    return listings.tile(numbered, [b"r"], range(100))


def cases():
    """A name, a test, and how many features."""
    below = lambda expression: ["<", expression, -1]
    stops = [part for i in range(5) for part in (4 * i, i)]
    labels = [part for i in range(200) for part in (i + 1000, i)]
    yield '["number",["get","r"]]', below(["number", ["get", "r"]]), MILLION
    yield "interpolate over the zoom, five stops", below(["interpolate", ["linear"], ["zoom"], *stops]), MILLION
    yield "exponential interpolate over a property, five stops", below(["interpolate", ["exponential", 1.5], ["number", ["get", "r"]], *stops]), MILLION
    yield "match with 200 labels", below(["match", ["get", "r"], *labels, 0]), MILLION
    yield "let with two names, each asked twice", below(["let", "a", ["number", ["get", "r"]], "b", 2, ["+", ["+", ["var", "a"], ["var", "b"]], ["+", ["var", "a"], ["var", "b"]]]]), MILLION
    yield "in a list of 10,000 numbers, none equal", ["in", ["get", "r"], ["literal", list(range(1000, 11_000))]], MILLION


def seconds(program, folder, test, features):
    (folder / "style").write_text(listings.style(',"filter":' + json.dumps(["all", ["has", "r"], test])))
    (folder / "tile").write_bytes(tile(features))
    least = None
    for _ in range(3):
        child = os.posix_spawn(program, [str(program), "eval", str(folder / "style"), "3", f"t={folder / 'tile'}"], os.environ, file_actions=[(os.POSIX_SPAWN_OPEN, 1, os.devnull, os.O_WRONLY, 0)])
        _, status, usage = os.wait4(child, 0)
        if status:
            sys.exit(f"evaluations: {test} ended with {status}")
        taken = usage.ru_utime + usage.ru_stime
        least = taken if least is None else min(least, taken)
    return least


def main():
    program = pathlib.Path(sys.argv[1]) if len(sys.argv) > 1 else TOP / "crates" / "pirgesh" / "out" / "pirgesh"
    with tempfile.TemporaryDirectory() as name:
        folder = pathlib.Path(name)
        bare = {count: seconds(program, folder, False, count) for count in {count for _, _, count in cases()}}
        for what, test, count in cases():
            taken = (seconds(program, folder, test, count) - bare[count]) * MILLION / count
            print(f"{what}: {taken:.2f} s")


if __name__ == "__main__":
    main()
