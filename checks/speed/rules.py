"""Measures `validate`, or `lint`, on large and hostile styles: of twenty runs the least time of the whole process and the least of the
processor, the most memory, and what was answered. Memory below that of this script itself, some 40 MB, is not seen. The first style is
also handed to `lint` twenty times in one run.

    python3 checks/speed/rules.py [--lint] [PROGRAM]

PROGRAM is the program as LLVM built it.
"""

import json
import os
import pathlib
import subprocess
import sys
import tempfile
import time

import listings

TOP = pathlib.Path(__file__).resolve().parents[2]
LIMIT = 4_194_304
RUNS = 20


def style(layers, sources='"t":{"type":"vector"}'):
    """The style of these layers and sources, which are texts."""
    return '{"version":8,"sources":{%s},"layers":[%s]}' % (sources, ",".join(layers))


def layer(number, more=""):
    return '{"id":"%05d","type":"circle","source":"t","source-layer":"p"%s}' % (number, more)


def mixed(number):
    """A layer as maps have them: a type of four, each with a filter, and values of every form."""
    base = {
        "id": f"layer-{number:04}",
        "source": "t",
        "source-layer": f"roads-{number % 9}",
        "minzoom": number % 12,
        "metadata": {"map:group": f"14448493{number:05}"},
    }
    kinds = [
        {
            "type": "fill",
            "filter": ["all", ["==", "$type", "Polygon"], ["!in", "class", "wood", "glacier"]],
            "paint": {
                "fill-color": "hsl(205, 56%, 73%)",
                "fill-opacity": {"base": 1, "stops": [[7, 0.5], [12, 1]]},
                "fill-antialias": False,
            },
        },
        {
            "type": "line",
            "filter": ["all", ["==", ["geometry-type"], "LineString"], ["match", ["get", "class"], ["motorway", "trunk"], True, False]],
            "layout": {"line-cap": "round", "line-join": "round"},
            "paint": {"line-color": "#fea", "line-width": ["interpolate", ["exponential", 1.2], ["zoom"], 5, 0.5, 20, 30]},
        },
        {
            "type": "symbol",
            "filter": ["<=", "rank", 4],
            "layout": {
                "text-field": "{name:latin}\n{name:nonlatin}",
                "text-font": ["Noto Sans Regular"],
                "text-size": {"stops": [[10, 12], [14, 20]]},
                "visibility": "visible",
            },
            "paint": {"text-color": "rgba(0,0,0,.8)", "text-halo-width": 1.2},
        },
        {
            "type": "circle",
            "filter": ["has", "name"],
            "paint": {
                "circle-radius": ["step", ["zoom"], 2, 10, ["coalesce", ["get", "size"], 3]],
                "circle-color": ["case", ["==", ["get", "kind"], "stop"], "#f00", "#00f"],
                "circle-blur": 0.5,
            },
        },
    ]
    return json.dumps({**base, **kinds[number % 4]}, separators=(",", ":"))


def nested(levels, parts):
    """A legacy filter of groups, one in another, each with this many filters beside."""
    text = '["has","a"]'
    for _ in range(levels):
        text = '["all",%s%s]' % ('["has","a"],' * parts, text)
    return text


def cases():
    """A name and a style for each measurement."""
    yield "405 layers of a map", style(map(mixed, range(405)))
    for count in 8_192, 16_384, 32_768, 65_536:
        yield f"{count:,} layers", style(map(layer, range(count)))
    yield "65,536 layers of one id", style([layer(0)] * 65_536)
    yield "65,536 elements that are no layers", style(["0"] * 65_536)
    yield "65,537 elements", style(["0"] * 65_537)
    names = ",".join('"name-%05d":0' % i for i in range(100_000))
    sources = ",".join('"s%05d":{"type":"vector"}' % i for i in range(100_000))
    on_source = '{"id":"%d","type":"circle","source":"s%05d","source-layer":"p"}'
    named = [on_source % (i, 5 * i) for i in range(20_000)]
    yield "100,000 sources, and 20,000 layers on them", style(named, sources)
    yield "100,000 unknown names of paint", style([layer(0, ',"paint":{%s}' % names)])
    yield "a filter of 24 levels, 13,000 parts on each", style([layer(0, ',"filter":' + nested(24, 13_000))])
    yield "an expression of 2,000,000 nodes, a sum of numbers", style([layer(0, ',"paint":{"circle-blur":["+"%s]}' % (",1" * 1_999_999))])


def given_program():
    """The program that the words name, or else the repository's own, which is built first."""
    words = [word for word in sys.argv[1:] if word != "--lint"]
    if words:
        return pathlib.Path(words[0]).resolve()
    subprocess.run([TOP / "pirgesh", "--version"], check=True, stdout=subprocess.DEVNULL)
    return TOP / "crates" / "pirgesh" / "out" / "pirgesh"


def measured(program, path, out, command="validate", times=1):
    """The status, both times in milliseconds and the memory in MB of one run."""
    started = time.monotonic()
    with open(out, "wb") as file:
        child = subprocess.Popen([program, command, *[path] * times], stdout=file)
        status, usage = listings.ended(child)
    took = time.monotonic() - started
    return status, took * 1000, (usage.ru_utime + usage.ru_stime) * 1000, usage.ru_maxrss // 1024


def print_measures(program, command, layer, counts, times):
    """Measures a command on styles of so many layers: the least times of so many runs, and the most memory."""
    with tempfile.TemporaryDirectory() as name:
        path, out = os.path.join(name, "style"), os.path.join(name, "out")
        for count in counts:
            text = style(map(layer, range(count)))
            with open(path, "w", encoding="utf-8") as file:
                file.write(text)
            runs = [measured(program, path, out, command) for _ in range(times)]
            took, processor, memory = min(run[1] for run in runs), min(run[2] for run in runs), max(run[3] for run in runs)
            print(f"{count:,} layers: {len(text):,} bytes, {os.path.getsize(out):,} written, {took:.1f} ms, processor {processor:.1f} ms, {memory} MB, status {runs[0][0]}")


def main():
    program = given_program()
    lint = "--lint" in sys.argv[1:]
    command = "lint" if lint else "validate"
    with tempfile.TemporaryDirectory() as name:
        path, out = os.path.join(name, "style"), os.path.join(name, "out")
        measurements = [(what, text, 1) for what, text in cases()]
        if lint:
            measurements.insert(0, ("twenty styles of the next one's layers", measurements[0][1], 20))
        for what, text, times in measurements:
            if len(text) > LIMIT:
                sys.exit(f"rules: {what}: {len(text)} bytes are too many")
            with open(path, "w", encoding="utf-8") as file:
                file.write(text)
            runs = [measured(program, path, out, command, times) for _ in range(RUNS)]
            took, busy, memory = min(run[1] for run in runs), min(run[2] for run in runs), max(run[3] for run in runs)
            with open(out, encoding="utf-8") as file:
                lines = file.read().splitlines()
            answer = f"status {runs[0][0]}, {len(lines):,} lines, the last {lines[-1] if lines else 'missing'}"
            print(f"{what}: {len(text):,} bytes, {took:.1f} ms, processor {busy:.1f} ms, {memory} MB, {answer}")


if __name__ == "__main__":
    main()
