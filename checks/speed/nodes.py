"""Counts the instructions of an evaluation by an expression's tree, by nodes of its own and by those of a pool.

    python3 checks/speed/nodes.py [--times] [PROGRAM]

The expressions are those of evaluations.py and some more. A program over the crates (nodes.txt) evaluates each so many times, and three times as many; the
difference is what an evaluation takes. PROGRAM is that program, made before; else `rt run` proves it, with the ledger that nodes_picks.txt picks, and LLVM
builds it. valgrind has to be installed. With --times it takes the processor's time of so many more evaluations, the least of eleven
runs each, which wants a machine that does nothing else.
"""

import json
import pathlib
import re
import resource
import shutil
import subprocess
import sys
import tempfile

TOP = pathlib.Path(__file__).resolve().parents[2]
sys.path.insert(0, str(TOP / "checks" / "shared"))

import evaluations
import scratch

BELOW = "tile_reader fixed_num decimal_json prop_values outside_io expr_syntax host_ops operator_values eval_face operator_rules expr_plain expr_nodes expr_resolving node_pool anyhow".split()
WAYS = ["tree", "boxes", "pool"]


def cases():
    """A name, an expression, and how many evaluations are counted."""
    for name, test, features in evaluations.cases():
        yield name, test[1] if test[0] == "<" else test, max(20, features // 2000)
    number = ["number", ["get", "r"]]
    yield "a sum of two numbers", ["+", 1, 2], 1000
    yield "case of a comparison", ["case", ["<", number, 10], 1, 2], 1000
    yield "step over a property, three stops", ["step", number, 0, 10, 1, 60, 2], 1000
    yield "coalesce of two properties", ["coalesce", ["get", "q"], ["get", "r"]], 1000
    yield "all of three tests", ["all", ["has", "r"], ["<", number, 60], [">", number, 10]], 1000
    yield "in a list of ten numbers, none equal", ["in", ["get", "r"], ["literal", list(range(1000, 1010))]], 1000
    yield "concat of three texts", ["concat", "a", ["to-string", ["get", "r"]], "b"], 1000


def instructions(program, way, expression, times):
    """Those of a whole run."""
    words = ["valgrind", "--tool=callgrind", "--callgrind-out-file=/dev/null", str(program), way, str(times)]
    done = subprocess.run(words, input=json.dumps(expression) + "\n", capture_output=True, text=True)
    return int(re.search(r"Collected : (\d+)", done.stderr)[1])


def seconds(program, way, expression, times):
    """The processor's time of a whole run."""
    before = resource.getrusage(resource.RUSAGE_CHILDREN)
    subprocess.run([str(program), way, str(times)], input=json.dumps(expression) + "\n", capture_output=True, text=True, check=True)
    after = resource.getrusage(resource.RUSAGE_CHILDREN)
    return after.ru_utime + after.ru_stime - before.ru_utime - before.ru_stime


def measure_times(program):
    """The ways take turns, so that a machine that grows slower does so for all."""
    print("| Expression | Tree | Boxes | Pool |\n|---|---|---|---|")
    for name, expression, times in cases():
        times *= 400
        least = {way: [float("inf")] * 2 for way in WAYS}
        for _ in range(11):
            for way in WAYS:
                for place, many in enumerate((times, 3 * times)):
                    least[way][place] = min(least[way][place], seconds(program, way, expression, many))
        nanoseconds = [(least[way][1] - least[way][0]) / (2 * times) * 1e9 for way in WAYS]
        print(f"| {name} | {nanoseconds[0]:,.0f} | " + " | ".join(f"{one:,.0f}; {one / nanoseconds[0]:.3f}" for one in nanoseconds[1:]) + " |", flush=True)


def of_one(program, way, expression, times):
    return (instructions(program, way, expression, 3 * times) - instructions(program, way, expression, times)) / (2 * times)


def measure(program):
    print("| Expression | Tree | Boxes | Pool |\n|---|---|---|---|")
    for name, expression, times in cases():
        counts = [of_one(program, way, expression, times) for way in WAYS]
        print(f"| {name} | {counts[0]:,.0f} | " + " | ".join(f"{count:,.0f}; {count / counts[0]:.2f}" for count in counts[1:]) + " |", flush=True)


def main():
    words = sys.argv[1:]
    by_time = words[:1] == ["--times"]
    take = measure_times if by_time else measure
    if words[by_time:]:
        return take(pathlib.Path(words[by_time]))
    with tempfile.TemporaryDirectory() as name:
        folder = pathlib.Path(name)
        program = scratch.make_program(folder, "node_steps", "speed/nodes.txt", BELOW)
        proofs = program / "proofs" / "main"
        proofs.mkdir(parents=True)
        shutil.copy(TOP / "checks" / "speed" / "nodes_picks.txt", proofs / "Invariants.antt")
        take(scratch.build(program, "tree", "0"))


if __name__ == "__main__":
    main()
