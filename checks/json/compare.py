#!/usr/bin/env python3
"""Compares what the crate decimal_json says of JSON texts with what others say.

    python3 checks/json/compare.py [--short N] [--random N] [--keys N] [--changed N] [--seed N]   the comparisons
    python3 checks/json/compare.py --times                                            time on large texts, beside Python's json

Each text is read three times: by the proved reader; by by_rules.py, which tells by the definition of a fault whether the text is
accepted, and else the longest front that begins an accepted text and the only rule that would let the next byte go on; and by
Python's json with a wrapper for the rules that it lacks (by_python.py), which also gives the tree. That a front begins an
accepted text is shown by a text: by_rules.py completes it, and Python's json has to accept what comes out.

The texts: all short ones of some tokens, random ones in which parts are wrong, objects of few keys, and texts with bytes changed.

It needs `rt` on the path. The program that reads the texts is made in a temporary folder, from a copy of crates/ and
program.txt; `rt run` proves it and LLVM builds it, which takes minutes where crates/*/out is empty.
"""

import collections
import json
import pathlib
import random
import sys
import time

sys.path.append(str(pathlib.Path(__file__).resolve().parent.parent / "shared"))

import by_python
import by_rules
import large
import makes
import scratch

PROGRAM = "json_lines"


def reader_lines(runner, folder, texts):
    """What the reader says of each text."""
    batch = folder / "texts"
    batch.write_bytes(scratch.framed(texts))
    lines = scratch.run(folder, runner, "lines", batch).split(b"\n")
    if len(lines) != len(texts) + 1:
        sys.exit(f"{len(texts)} texts, and {len(lines) - 1} lines")
    return lines[:-1]


def wanted_line(text):
    """What others say of the text, in the same form."""
    fault = by_rules.fault_of(text)
    try:
        tree = by_python.read(text, by_rules.ALL)
    except ValueError:
        return b"%s %d" % (fault[0].encode(), fault[1]) if fault else b"Python's json accepts no such text"
    return b"ok " + by_python.written(tree).encode() if fault is None else b"Python's json accepts this text"


def unshown(text):
    """Fronts of a text with a fault that should begin an accepted text, and that no completion shows to do so."""
    fault = by_rules.fault_of(text)
    if fault is None:
        return []
    kind, at = fault
    fronts = [(text[:at], by_rules.ALL)]
    if kind != "Syntax":
        fronts.append((text[: at + 1], by_rules.ALL - {kind}))
    return [(front, rules) for front, rules in fronts if not is_shown(front, rules)]


def is_shown(front, rules):
    completed = front + by_rules.machine(front, rules).completion()
    machine = by_rules.machine(completed, rules)
    return machine is not None and machine.is_accepted() and by_python.is_accepted(completed, rules)


def compare(what, texts, lines):
    """Compares each line with what others say, and counts what was met; gives how many differ."""
    met = collections.Counter()
    differ = 0
    for text, line in zip(texts, lines, strict=True):
        wanted = wanted_line(text)
        met[wanted.split(b" ")[0].decode()] += 1
        missing = unshown(text)
        if line != wanted or missing:
            differ += 1
            print(f"{what}: {text!r}: reader {line!r}, others {wanted!r}, not shown {missing!r}")
    counts = ", ".join(f"{kind} {count}" for kind, count in met.most_common())
    print(f"{what}: {len(texts)} texts, {differ} differ ({counts})", flush=True)
    return differ


def compare_all(runner, folder, options):
    """All comparisons; gives how many texts differ."""
    rng = random.Random(options.seed)
    whole = [makes.Maker(rng, 0).whole() for _ in range(1000)]
    made = {
        "short": makes.short(options.short),
        "random": [makes.Maker(rng, rng.choice([0, 0.02, 0.1, 0.3])).whole() for _ in range(options.random)],
        "keys": [makes.keyed(rng) for _ in range(options.keys)],
        "changed": [makes.changed(rng, rng.choice(whole), whole) for _ in range(options.changed)],
    }
    return sum(compare(what, texts, reader_lines(runner, folder, texts)) for what, texts in made.items())


def python_seconds(text):
    """The least time of three in which Python's json reads the text, number texts left as they are; `None` where it does not."""
    least = None
    for _ in range(3):
        start = time.perf_counter()
        try:
            json.loads(text, parse_int=str, parse_float=str)
        except (ValueError, RecursionError):
            pass
        taken = time.perf_counter() - start
        least = taken if least is None else min(least, taken)
    return least


def measure(runner, folder):
    """Prints what reading each large text takes, the least of three times, and the most memory."""
    path = folder / "large"
    for name, make in large.KINDS.items():
        size = path.write_bytes(make())
        runs = [scratch.run(folder, runner, "time", path).split() for _ in range(3)]
        answer, memory = runs[0][0].decode(), int(runs[0][2]) / 1000
        seconds = min(int(run[1]) for run in runs) / 1e6
        python = python_seconds(path.read_bytes())
        speeds = f"{size / 1e6 / seconds:.1f} MB/s, Python's json {size / 1e6 / python:.1f} MB/s"
        print(f"{name}, {size / 1e6:.2f} MB, {answer}: {1000 * seconds:.1f} ms, {speeds}; {memory:.0f} MB of memory", flush=True)


def built_runner(folder):
    """The program that reads texts, proved and built in this folder."""
    program = scratch.make_program(folder, PROGRAM, "json/program.txt", ["decimal_json"])
    (folder / "texts").write_bytes(b"")
    return scratch.build(program, "lines", folder / "texts")


COUNTS = {
    "short": (3, "all texts of at most N tokens"),
    "random": (20000, "how many random texts"),
    "keys": (5000, "how many objects of few keys"),
    "changed": (20000, "how many texts with bytes changed"),
}

if __name__ == "__main__":
    sys.exit(
        scratch.status_of(
            "Compares the JSON reader with others.",
            COUNTS,
            lambda folder, options: compare_all(built_runner(folder), folder, options),
            lambda folder: measure(built_runner(folder), folder),
        )
    )
