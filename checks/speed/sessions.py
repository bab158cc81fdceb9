"""Measures what sessions keep and what long scripts cost, whole processes of `replay` and `eval` on the program that LLVM built.

    python3 checks/speed/sessions.py PROGRAM [BEGINNING..]

- a state of one of 100,000 features, and the listing after it: the evaluations that `stats` counts, seconds of processor above the run
  without the second listing, and how many MB a second it writes;
- a first listing of `replay` beside the `eval` of the same, seconds of processor of both;
- 8,000,000 cells of two tiles, by `eval` and by `replay`: seconds and the most memory;
- a state of each of n features, in an order that is not theirs: seconds and the most memory;
- 4,000 lines of `set-global` over 1,000 layers that use the global state;
- 500,000 lines of `set-state`, 16 MB of refused lines, and a million lines of `list` over a style without layers.

Of the measurements those are taken whose names begin so; without such words all."""

import json
import os
import resource
import subprocess
import sys
import tempfile

import listings

RADIUS = ',"paint":{"circle-radius":["get","r"]}'
STATED = ',"paint":{"circle-radius":["get","r"],"circle-blur":["case",["boolean",["feature-state","on"],false],1,0]}'


def identified(count):
    """Features with the ids 0, 1, .. and a number `r`."""
    made = []
    for it in range(count):
        made.append(listings.field(2, b"\x08" + listings.varint(it) + listings.field(2, bytes([0, it % 100])) + b"\x18\x01"))
    return b"".join(made)


def numbered(count):
    return b"".join(b"\x12\x06\x12\x02\x00" + bytes([it % 100]) + b"\x18\x01" for it in range(count))


def lines(*commands):
    return "".join(json.dumps(command, separators=(",", ":")) + "\n" for command in commands)


def written(folder, name, content):
    path = os.path.join(folder, name)
    with open(path, "wb") as file:
        file.write(content if isinstance(content, bytes) else content.encode())
    return path


def run(words):
    """Seconds of processor, the most memory in MB, how many bytes were printed, and their last 200."""
    before = resource.getrusage(resource.RUSAGE_CHILDREN)
    process = subprocess.Popen(["/usr/bin/time", "-f", "%M", *words], stdout=subprocess.PIPE, stderr=subprocess.PIPE)
    count, last = 0, b""
    while part := process.stdout.read(1 << 20):
        count += len(part)
        last = (last + part)[-200:]
    said = process.stderr.read().split()
    process.wait()
    after = resource.getrusage(resource.RUSAGE_CHILDREN)
    return after.ru_utime + after.ru_stime - before.ru_utime - before.ru_stime, int(said[-1]) / 1000, count, last


def state_of_one(program, folder):
    style = written(folder, "style", listings.style(STATED))
    tile = "t=" + written(folder, "tile", listings.tile(identified(100_000), [b"r"], range(100)))
    first = lines(["list"])
    again = lines(["list"], ["set-state", "t", "p", 77, {"on": True}], ["list"], ["stats"])
    once = min(run([program, "replay", style, written(folder, "first", first), "3", tile]) for _ in range(3))
    twice = min(run([program, "replay", style, written(folder, "again", again), "3", tile]) for _ in range(3))
    more, size = twice[0] - once[0], (twice[2] - once[2]) / 1e6
    print(f"a state of one of 100,000 features, listed again: {twice[3].split()[-1].decode()} evaluated, {more:.3f} s, {size:.1f} MB, {size / more:.0f} MB/s; memory {twice[1]:.0f} MB")


def state_of_each(program, folder):
    style = written(folder, "style", listings.style(STATED))
    for count in (25_000, 50_000, 100_000, 200_000):
        tile = "t=" + written(folder, "tile", listings.tile(identified(count), [b"r"], range(100)))
        script = "".join(lines(["set-state", "t", "p", it * 7919 % count, {"on": True}]) for it in range(count))
        taken = run([program, "replay", style, written(folder, "script", script), "3", tile])
        print(f"a state of each of {count:,} features: {taken[0]:.2f} s, {taken[1]:.0f} MB")


def globals_again(program, folder):
    layer = '{"id":"c%d","type":"circle","source":"t","source-layer":"p","paint":{"circle-radius":["+",1,["global-state","x"]]}}'
    layers = ",".join(layer % it for it in range(1000))
    style = written(folder, "style", '{"version":8,"state":{"x":{"default":1}},"sources":{"t":{"type":"vector"}},"layers":[%s]}' % layers)
    script = "".join(lines(["set-global", "x", it]) for it in range(4000))
    taken = run([program, "replay", style, written(folder, "script", script), "3"])
    print(f"4,000 lines of set-global over 1,000 layers: {taken[0]:.1f} s, {taken[1]:.0f} MB")


def first_listings(program, folder):
    for name, style, tile in (("400 layers of legacy forms", *listings.many_layers()), ("three expressions", *listings.three_expressions()), ("2,000,000 features, a radius each", listings.style(RADIUS), listings.tile(numbered(2_000_000), [b"r"], range(100)))):
        shown, tiles = written(folder, "style", style), "t=" + written(folder, "tile", tile)
        evaluated = min(run([program, "eval", shown, "3", tiles]) for _ in range(3))
        replayed = min(run([program, "replay", shown, written(folder, "list", lines(["list"])), "3", tiles]) for _ in range(3))
        print(f"first listing, {name}: eval {evaluated[0]:.2f} s, {evaluated[1]:.0f} MB; replay {replayed[0]:.2f} s, {replayed[1]:.0f} MB; {replayed[0] / evaluated[0]:.2f} times")


def most_cells(program, folder):
    style = written(folder, "style", listings.style(RADIUS))
    tile = written(folder, "tile", listings.tile(numbered(2_000_000), [b"r"], range(100)))
    other = written(folder, "other", listings.tile(numbered(2_000_000), [b"r"], range(100)))
    taken = run([program, "eval", style, "3", "t=" + tile, "t=" + other])
    print(f"8,000,000 cells, eval: {taken[0]:.2f} s, {taken[1]:.0f} MB, {taken[2] / 1e6:.0f} MB printed")
    taken = run([program, "replay", style, written(folder, "list", lines(["list"])), "3", "t=" + tile, "t=" + other])
    print(f"8,000,000 cells, replay: {taken[0]:.2f} s, {taken[1]:.0f} MB, {taken[2] / 1e6:.0f} MB printed")


def long_scripts(program, folder):
    empty = written(folder, "empty", '{"version":8,"sources":{"t":{"type":"vector"}},"layers":[]}')
    states = "".join(lines(["set-state", "t", "p", it % 10, {"a": it % 7}]) for it in range(500_000))
    refused = "[\"set-paint\",\"no\",\"circle-radius\",1]\n" * (16_000_000 // 37)
    for name, script in (("500,000 lines of set-state", states), ("16 MB of refused lines", refused), ("a million lines of list", '["list"]\n' * 1_000_000)):
        taken = run([program, "replay", empty, written(folder, "lines", script), "3"])
        print(f"{name}: {taken[0]:.2f} s, {taken[1]:.0f} MB, {taken[2] / 1e6:.0f} MB printed, ends {taken[3][-24:]!r}")


MEASUREMENTS = {"state": state_of_one, "each": state_of_each, "globals": globals_again, "first": first_listings, "cells": most_cells, "scripts": long_scripts}


def main():
    program = os.path.abspath(sys.argv[1])
    for name, measurement in MEASUREMENTS.items():
        if len(sys.argv) == 2 or any(name.startswith(word) for word in sys.argv[2:]):
            with tempfile.TemporaryDirectory() as folder:
                measurement(program, folder)


main()
