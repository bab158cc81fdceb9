#!/usr/bin/env python3
"""Compares the program with a reading of the manual in exact arithmetic: `value` on random expressions, `validate` on random styles, and
`eval` and `replay` of random styles over random tiles. Whole outputs and statuses have to be equal.

    python3 checks/manual/compare.py [--value N] [--validate N] [--eval N] [--seed N] [--counts] [--program PROGRAM]
    python3 checks/manual/compare.py --short      a few hundred of each

With --counts it prints how often each operator, code, fault, rule and form occurred. A case is made from --seed and its number alone.

Read in this order: trees.py (JSON), millionths.py and values.py (numbers and values), expressions.py (which JSON is an expression),
kinds.py (types, and what may fail), meaning.py (evaluation), properties.py (the table), legacy.py (legacy forms), rules.py (`validate`),
listing.py (`eval` and `replay`). make_expressions.py and make_styles.py make the inputs. All is written from docs/REFERENCE.md,
docs/MESSAGES.md and checks/table/table.tsv, apart from the proved program.
"""

import argparse
import collections
import concurrent.futures
import os
import pathlib
import random
import subprocess
import sys
import tempfile

import expressions
import kinds
import listing
import make_expressions
import make_styles
import meaning
import rules
import trees
import values
from millionths import Fault

TOP = pathlib.Path(__file__).resolve().parents[2]
SHORT = 300
# How many cases a process compares at once.
PART = 50


class Case:
    """A call: its words, the files that they name as @0, @1 .., and its answer by the manual: the status and both outputs."""

    def __init__(self, words, files, answer):
        self.words, self.files, self.answer = words, files, answer

    def given(self, program, folder):
        """The answer of the program."""
        words = list(self.words)
        for place, content in enumerate(self.files):
            path = os.path.join(folder, str(place))
            with open(path, "wb") as file:
                file.write(content)
            words = [word.replace(f"@{place}", path) for word in words]
        done = subprocess.run([program, *words], capture_output=True, check=False)
        return done.returncode, done.stdout.decode(), done.stderr.decode()

    def text(self):
        return "\n".join([str(self.words), *(content.decode(errors="backslashreplace") for content in self.files)])


# What the manual says.


def value_answer(data, counts):
    """The status and outputs of `value`."""
    try:
        node = expressions.read(trees.read(data))
        counts.update(("may", fault) for fault in kinds.checked(node, values.ANY))
        counts.update(("operator", one.operator) for one in expressions.nodes(node))
        return 0, values.printed(meaning.evaluated(node, values.ANY, meaning.World())) + "\n", ""
    except trees.Refused as refused:
        counts["json", str(refused).split()[0]] += 1
        return 3, "", f"refused expr json {refused}\n"
    except expressions.Refused as refused:
        counts["code", refused.args[0]] += 1
        return 3, "", " ".join(["refused expr", refused.args[0], *map(trees.pointer, refused.args[1:])]) + "\n"
    except Fault as fault:
        counts["fault", str(fault)] += 1
        return 1, f"error {fault}\n", ""


def report_answer(report, counts):
    """The status and outputs of `validate`."""
    counts.update(("rule", f"V{rule}") for _, rule in report.findings)
    if not report.findings:
        counts["note", "outside"] += len(report.notes)
        counts.update(("may", fault) for _, faults in report.may for fault in faults)
    return (1 if report.findings else 0), "".join(line + "\n" for line in report.lines()), ""


def listing_answer(style, tiles, zoom, script, counts):
    """The status and outputs of `eval`, or of `replay` with a script."""
    report = rules.Report(style)
    if report.findings:
        return report_answer(report, counts)
    session = listing.session(style, tiles, trees.number(zoom))
    lines = listing.listing(style, session) if script is None else listing.replayed(style, session, script)
    count_lines(lines, counts)
    count_forms(style, counts)
    return 0, "".join(line + "\n" for line in lines), ""


def count_lines(lines, counts):
    for line in lines:
        if line.startswith("layer "):
            counts["layer", line.split()[-1] if line.split()[-1] in ("hidden", "unread", "?") else "shown"] += 1
        elif line.startswith("  feature "):
            counts["listed", "feature"] += 1
        elif line.startswith("  "):
            last = line.rpartition("!")[2]
            what = last if last in kinds.FAULTS else "outside" if line.endswith(" ?") else "value"
            counts["listed", what + (" of a feature" if line.startswith("    ") else " of a layer")] += 1


def count_forms(style, counts):
    """Counts rows, filters, functions and operators of a style without findings."""
    for layer in trees.member(style, "layers"):
        if trees.member(layer, "type") in listing.UNREAD_TYPES:
            continue
        made = listing.Layer(layer, None)
        counts.update(("row", row.name) for row, _ in made.values)
        for checked in [checked for _, checked in made.values] + [made.filter]:
            if checked and checked.meant:
                count_form(*checked.meant, counts)


def count_form(form, meant, counts):
    counts["form", form] += 1
    if form == "function":
        counts["function", function_name(meant[0])] += 1
    elif form == "expression":
        counts.update(("operator", one.operator) for one in expressions.nodes(meant))
    elif form == "legacy":
        counts.update(("filter", str(name)) for name in filter_names(meant))


def function_name(function):
    by = " by a property" if function.key is not None else " by the zoom"
    return function.kind + by + (" with zooms" if function.zooms else "")


def filter_names(tree):
    """The names of a legacy filter and of its parts."""
    yield tree if isinstance(tree, bool) else tree[0]
    for part in tree[1:] if isinstance(tree, list) and tree[0] in ("all", "any", "none") else []:
        yield from filter_names(part)


# The cases.


def value_case(rng, counts):
    maker = make_expressions.Maker(rng, rng.choice([0, 0, 0.03, 0.1]), large=rng.choice([0.02, 0.02, 0.3]))
    made = maker.exact() if rng.random() < 0.2 else maker.root(rng.choice(make_expressions.FORMS), rng.randint(1, 4))
    data = trees.written(made).encode()
    if rng.random() < 0.02:
        data = damaged(rng, data)
    return Case(["value", data.decode()], [], value_answer(data, counts))


def damaged(rng, data):
    """A text with a character less, or a text that breaks a rule of JSON."""
    text = data.decode()
    place = rng.randrange(len(text))
    others = ['{"a":1,"a":2}', "[" * 65, "1" * 65, '"\\ud800x"', text + " ", "1." + "0" * 62]
    return rng.choice([text[:place] + text[place + 1 :], text[:place], *others]).encode()


def validate_case(rng, counts):
    data = trees.written(make_styles.Maker(rng, rng.choice([0, 0.01, 0.05, 0.1])).style()).encode()
    return Case(["validate", "@0"], [data], report_answer(rules.Report(trees.read(data)), counts))


def eval_case(rng, counts):
    maker = make_styles.Maker(rng, rng.choice([0, 0, 0, 0.005]))
    data = trees.written(maker.style()).encode()
    zoom = trees.Number(rng.choice(make_styles.ZOOMS))
    tiles = [(rng.choice("ttu"), maker.tile()) for _ in range(rng.randint(1, 3))]
    script = maker.script() if rng.random() < 0.4 else None
    files = [data, *(tile for _, tile in tiles)]
    words = [zoom, *(f"{source}=@{place}" for place, (source, _) in enumerate(tiles, 1))]
    words = ["eval", "@0", *words] if script is None else ["replay", "@0", f"@{len(files)}", *words]
    files += [] if script is None else ["".join(trees.written(line) + "\n" for line in script).encode()]
    return Case(words, files, listing_answer(trees.read(data), tiles, zoom, script, counts))


KINDS = {"value": value_case, "validate": validate_case, "eval": eval_case}


def compared(kind, places, seed, program):
    """Compares the cases of these numbers; gives the texts of those that differ, and counts."""
    differ, counts = [], collections.Counter()
    with tempfile.TemporaryDirectory() as folder:
        for place in places:
            case = KINDS[kind](random.Random(f"{kind} {seed} {place}"), counts)
            given = case.given(program, folder)
            counts["status", case.answer[0]] += 1
            if given != case.answer:
                differ.append(f"{kind} {place} differs:\n{case.text()}\nby the manual {case.answer}\nby the program {given}")
    return differ, counts


def compare(kind, options, pool):
    """Compares all cases of a kind; gives how many differ."""
    count = SHORT if options.short else getattr(options, kind)
    parts = [range(start, min(start + PART, count)) for start in range(0, count, PART)]
    differ, counts = [], collections.Counter()
    for texts, more in pool.map(compared, *zip(*((kind, part, options.seed, options.program) for part in parts))):
        differ += texts
        counts += more
    for text in differ[: options.show]:
        print(text)
    statuses = ", ".join(f"{n} with status {name}" for (group, name), n in sorted(counts.items(), key=str) if group == "status")
    print(f"{kind}: {count} compared ({statuses}), {len(differ)} differ", flush=True)
    if options.counts:
        print_counts(counts)
    return len(differ)


def print_counts(counts):
    """How often each thing occurred, a line for each group."""
    groups = {}
    for (group, name), count in counts.most_common():
        groups.setdefault(group, []).append(f"{name} {count}")
    for group, found in sorted(groups.items()):
        if group != "status":
            print(f"  {group}: {', '.join(found)}")


def built_program():
    """The program of this folder, built where it is missing or older than its sources."""
    subprocess.run([TOP / "pirgesh", "--version"], check=True, capture_output=True)
    return str(TOP / "crates" / "pirgesh" / "out" / "pirgesh")


def main():
    words = argparse.ArgumentParser(description="Compares the program with a reading of the manual.")
    for kind in KINDS:
        words.add_argument(f"--{kind}", type=int, default=10000, help=f"how many cases of {kind}")
    words.add_argument("--short", action="store_true", help=f"{SHORT} of each")
    words.add_argument("--seed", type=int, default=1)
    words.add_argument("--show", type=int, default=5, help="how many that differ are printed")
    words.add_argument("--counts", action="store_true", help="print how often each operator, code, fault, rule and form occurred")
    words.add_argument("--program", help="a built program, in place of the one of this folder")
    options = words.parse_args()
    options.program = options.program or built_program()
    with concurrent.futures.ProcessPoolExecutor(os.cpu_count()) as pool:
        return 1 if sum([compare(kind, options, pool) for kind in KINDS]) else 0


if __name__ == "__main__":
    sys.exit(main())
