"""Runs the program with too little memory: each request refused in turn, and limits that fall. Each run has to end as it does with enough
memory, or with the status of a failed allocation and then with a front of both texts."""

import pathlib
import resource
import shutil
import subprocess
import tempfile

from running import Folder, given_rows

HERE = pathlib.Path(__file__).resolve().parent
NO_MEMORY = 6
STEPS = 16
KB = 1024
# Rows of each command, by their names; those of --short, and those whose requests are also refused from one on.
CHOSEN = [
    'value ["+",0.1,0.2]',
    'eval of a circle layer with "paint":{"circle-radius":["number",["get","r"]]}',
    "eval: a style as an editor writes it",
    "replay: a state is set and listed",
    "validate: five findings of five rules on two layers",
    "validate: a style as an editor writes it",
    "migrate: a legacy filter",
    "simplify: a false condition goes and its condition with it",
    "desk: two views, a state, an edit and refusals",
    "tile t: the tile of the points",
    "generate 1",
    'words ["--help"]',
]


def is_quick(given):
    """Whether a row may be run hundreds of times: its files are small, and it is none of the towers, which ask for memory 6,000 times."""
    return sum(map(len, given.files.values())) < 100_000 and not given.name.startswith("a tower of 63 let")


def refuse_in_turn(program, short, is_wanted):
    """Refuses each request of each quick row alone, and in chosen rows also each with those after it; gives how many runs were wrong."""
    if not shutil.which("cc"):
        print("hostile: no C compiler, so no request for memory is refused in turn")
        return 0
    sums, count_of_rows = [0, 0, 0], 0
    with tempfile.TemporaryDirectory() as made:
        library = str(pathlib.Path(made, "requests.so"))
        subprocess.run(["cc", "-O1", "-shared", "-fPIC", "-o", library, str(HERE / "requests.c")], check=True)
        for given in given_rows(lambda name: (not short or name in CHOSEN) and is_wanted("memory in turn: " + name)):
            if not is_quick(given):
                continue
            count_of_rows += 1
            with Folder(given) as folder:
                onward = {"ONWARD": "1"} if given.name in CHOSEN else {}
                _, told, _ = folder.run(program, environment={"LD_PRELOAD": library, **onward})
            *wrong, counts = told.decode().splitlines()
            sums = [sum(pair) for pair in zip(sums, map(int, counts.split()))]
            for line in wrong:
                print(f"hostile: memory in turn: {given.name}: {line}")
    if count_of_rows:
        print("hostile: memory in turn: %d rows, %d runs, of which %d ended with status 6" % (count_of_rows, sums[0], sums[1]))
    return sums[2]


def least(limit, ends, low, high, step):
    """The least limit, a multiple of the step up to `high`, with which a run ends as it should, if one that is greater does too."""
    while high - low > step:
        middle = (low + high) // 2 // step * step
        low, high = (low, middle) if ends([(limit, middle)]) else (middle, high)
    return high


def is_right(plain, got):
    """Whether a run that got less memory ended as it may."""
    return got == plain or got[0] == NO_MEMORY and plain[1].startswith(got[1]) and plain[2].startswith(got[2])


def fall(program, cases):
    """Runs each case within limits between those at which the program starts and at which the case ends as it should; gives how many runs
    were wrong. The limits are of data: one of addresses is also one of the stack, and where a stack cannot grow the system ends a program."""
    limit, runs, short_runs, failed = resource.RLIMIT_DATA, 0, 0, 0
    for given in cases:
        with Folder(given) as folder:
            plain = folder.run(program)
            started = least(limit, lambda limits: folder.run(program, limits)[0] in (plain[0], NO_MEMORY), 0, 4096 * KB, 4 * KB)
            enough = least(limit, lambda limits: folder.run(program, limits) == plain, started, 1 << 32, 64 * KB)
            for step in range(STEPS):
                size = started + (enough - started) * step // STEPS
                got = folder.run(program, [(limit, size)])
                runs += 1
                short_runs += got[0] == NO_MEMORY
                if not is_right(plain, got):
                    failed += 1
                    print(f"hostile: memory limit: {given.name}: {size // KB} kB: status {got[0]}, {len(got[1])} bytes on out")
    if runs:
        print(f"hostile: memory limit: {runs} runs, of which {short_runs} ended with status 6")
    return failed
