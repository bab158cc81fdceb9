"""Whether each wrong line still fits: its file is there, and has each `old:` text exactly once when its turn comes."""

import pathlib
import sys

EDITS = pathlib.Path(__file__).resolve().parent
CRATES = EDITS.parents[1] / "crates"


def misfits(edit, crate):
    """What is wrong with an edit of a crate."""
    texts = {}
    path = old = None
    count = 0
    for line in edit.read_text().split("\n"):
        if line.startswith("file: "):
            path = crate / line.removeprefix("file: ").strip()
            if not path.is_file():
                return f"there is no {path.relative_to(CRATES)}"
            texts.setdefault(path, path.read_text())
        elif line.startswith("old: "):
            old = line.removeprefix("old: ")
        elif line.startswith("new:"):
            found = texts[path].count(old)
            if found != 1:
                return f"its text is {found} times in {path.relative_to(CRATES)}: {old}"
            texts[path] = texts[path].replace(old, line.removeprefix("new:").removeprefix(" "))
            count += 1
    return None if count else "it changes nothing"


def main():
    edits = sorted(CRATES.glob("*/must-fail/*.edit")) + sorted(EDITS.glob("*/*.edit"))
    wrong = 0
    for edit in edits:
        name = edit.parent.name if edit.is_relative_to(EDITS) else edit.parent.parent.name
        why = misfits(edit, CRATES / name)
        if why:
            wrong += 1
            print(f"{name}/{edit.name}: {why}")
    print(f"edits: {len(edits)} wrong lines, {wrong} do not fit")
    return 1 if wrong else 0


if __name__ == "__main__":
    sys.exit(main())
