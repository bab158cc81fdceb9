"""Programs over crates of this repository, made in a temporary folder outside it."""

import argparse
import pathlib
import shutil
import struct
import subprocess
import sys
import tempfile

TOP = pathlib.Path(__file__).resolve().parents[2]


def crates_below(names, lines):
    """The lines of these crates, and of the crates of the repository on which they stand."""
    deps = dict(line.split(":") for line in lines if ":" in line and not line.startswith("#"))
    found = []
    left = list(names)
    while left:
        crate = left.pop()
        if crate in deps and crate not in found:
            found.append(crate)
            left += deps[crate].split()
    return [line for line in lines if line.split(":")[0] in found]


def make_program(folder, name, source, below):
    """A repository of the program NAME, whose main.rt is checks/SOURCE, over these crates, with what is proved of them here; gives the program's folder."""
    lines = crates_below(below, (TOP / "crates.txt").read_text().splitlines())
    for line in lines:
        crate = line.split(":")[0]
        copy_crate(TOP / "crates" / crate, folder / "crates" / crate)
    program = folder / "crates" / name
    (program / "src").mkdir(parents=True, exist_ok=True)
    shutil.copy(TOP / "checks" / source, program / "src" / "main.rt")
    lines.append(f"{name}: {' '.join(below)}")
    (folder / "crates.txt").write_text("\n".join(lines) + "\n")
    return program


def copy_crate(source, target):
    """Copies a crate; where an earlier copy stands, what was proved in it is kept."""
    for part in target.iterdir() if target.exists() else []:
        if part.name != "out":
            shutil.rmtree(part) if part.is_dir() else part.unlink()
    kept = (target / "out").exists()
    shutil.copytree(source, target, dirs_exist_ok=True, ignore=shutil.ignore_patterns("out") if kept else None)


def run(program, *words):
    """The bytes that a call prints."""
    done = subprocess.run(list(map(str, words)), cwd=program, capture_output=True)
    if done.returncode != 0:
        sys.exit(f"{words} failed: {done.stdout[-2000:].decode(errors='replace')} {done.stderr[-2000:].decode(errors='replace')}")
    return done.stdout


def build(program, *words):
    """Proves and builds the program, and runs it once with these words; gives the file that runs it."""
    run(program, "rt", "run", "--", *words)
    return program / "out" / program.name


def framed(parts):
    """Byte strings one after the other, each after its length in four bytes, the lowest first."""
    return b"".join(struct.pack("<I", len(part)) + part for part in parts)


def status_of(description, counts, compare, measure):
    """Reads the words of a check with these counts, each a default and what it is, and does it in a temporary folder; gives its status."""
    parser = argparse.ArgumentParser(description=description)
    for name, (default, what) in counts.items():
        parser.add_argument(f"--{name}", type=int, default=default, help=what)
    parser.add_argument("--seed", type=int, default=1)
    parser.add_argument("--times", action="store_true", help="measure large inputs instead")
    options = parser.parse_args()
    if shutil.which("rt") is None:
        print("skipped, since rt is not on the path")
        return 0
    with tempfile.TemporaryDirectory() as name:
        if options.times:
            measure(pathlib.Path(name))
            return 0
        return 1 if compare(pathlib.Path(name), options) else 0
