"""Measures first and later listings over kept cells beside one that keeps a layer at a time, on the styles and tiles of listings.py: microseconds of
each, the evaluations, and what a change of the zoom and of a state take.

    python3 checks/speed/kept.py PROGRAM [BEGINNING..]

PROGRAM is the program of kept.txt over the crates. Of the cases those are taken whose names begin so; without such words all."""

import pathlib
import subprocess
import sys
import tempfile

import listings


def main():
    program = pathlib.Path(sys.argv[1]).resolve()
    for name, style, *tiles in listings.cases():
        wanted = len(tiles) == 1 and (len(sys.argv) == 2 or any(name.startswith(word) for word in sys.argv[2:]))
        if not wanted:
            continue
        with tempfile.TemporaryDirectory() as folder:
            pathlib.Path(folder, "style.json").write_text(style)
            pathlib.Path(folder, "tile").write_bytes(tiles[0])
            done = subprocess.run([program, "style.json", "tile", "t"], cwd=folder, stdout=subprocess.PIPE, text=True, check=True)
        print(f"{name}:\n{done.stdout}", flush=True)


if __name__ == "__main__":
    main()
