"""Runs of the program, for checks that compare two styles."""

import os
import subprocess


def ran(program, folder, command, text, *more):
    """The status and the output of a command on a style, which is written into a folder."""
    path = os.path.join(folder, "style")
    with open(path, "w", encoding="utf-8") as file:
        file.write(text)
    done = subprocess.run([program, command, path, *more], capture_output=True, text=True, check=False)
    return done.returncode, done.stdout


def two_tiles(folder, maker):
    """The words for two tiles of a maker, which are written into a folder."""
    words = []
    for name in ["first", "second"]:
        path = os.path.join(folder, name)
        with open(path, "wb") as file:
            file.write(maker.tile())
        words.append("t=" + path)
    return words
