"""Measures `eval` on the largest styles and tiles that it accepts: seconds, the most memory in MB, and what it printed.

Words are the beginnings of the names of cases; without words all are measured."""

import os
import pathlib
import subprocess
import sys
import tempfile
import time

TOP = pathlib.Path(__file__).resolve().parents[2]


def varint(number):
    low, rest = number & 127, number >> 7
    return bytes([low | 128]) + varint(rest) if rest else bytes([low])


def field(number, content):
    """A field of wire type 2."""
    return varint(number * 8 + 2) + varint(len(content)) + content


def tile(features, keys=(), values=(), name=b"p"):
    """A tile of one layer of version 2, with these features as bytes, keys, and whole numbers as values."""
    texts = b"".join(field(3, key) for key in keys)
    numbers = b"".join(field(4, b"\x28" + varint(value)) for value in values)
    return field(3, b"\x78\x02" + field(1, name) + features + texts + numbers)


def features_of(count):
    """Features that have the keys 0 and 1, each with one of a hundred values."""
    return b"".join(field(2, field(2, bytes([0, i % 100, 1, i * 7 % 100])) + b"\x18\x01") for i in range(count))


def many_layers():
    """A style of 400 symbol layers over twenty source layers of 550 features: each feature is listed by twenty layers, with three or four
    values by functions and token texts, and each layer has literals too. 800,000 values are listed with features."""
    layers = []
    for i in range(400):
        text = '"text-field":"{r} of {q}","text-anchor":"top","text-font":["Noto Sans Regular"],"text-size":{"property":"r","stops":[[0,10],[100,30]]}'
        text += ',"text-rotate":{"property":"q","type":"interval","stops":[[0,1],[30,2],[60,3]]}'
        if i % 11 < 7:
            text += ',"text-offset":{"property":"r","type":"categorical","stops":[[1,[1,2]],[2,[2,3]]],"default":[0,1]}'
        paint = '"text-color":"#334455","text-halo-width":{"stops":[[5,1],[15,2]]}'
        layers.append('{"id":"l%d","type":"symbol","source":"t","source-layer":"p%d","layout":{%s},"paint":{%s}}' % (i, i % 20, text, paint))
    whole = '{"version":8,"sources":{"t":{"type":"vector"}},"layers":[%s]}' % ",".join(layers)
    return whole, b"".join(tile(features_of(550), [b"r", b"q"], range(100), b"p%d" % i) for i in range(20))


def three_expressions():
    """A circle layer of three expressions over 44,000 features."""
    radius = '["interpolate",["linear"],["get","r"],0,1,50,["+",2,["%",["get","q"],3]],100,12]'
    opacity = '["case",["<",["get","r"],["get","q"]],["/",["get","r"],100],["max",0.2,["-",1,["/",["get","q"],200]]]]'
    color = '["match",["%",["get","r"],4],0,"#ff0000",1,["rgb",["get","r"],["get","q"],0],2,"teal","rgba(0,0,255,0.5)"]'
    paint = ',"paint":{"circle-radius":%s,"circle-opacity":%s,"circle-color":%s}' % (radius, opacity, color)
    return style(paint), tile(features_of(44_000), [b"r", b"q"], range(100))


def style(members, root=""):
    """The style of one circle layer with these members beside those that it needs, and with these of the root."""
    layer = '{"id":"c","type":"circle","source":"t","source-layer":"p"%s}' % members
    return '{%s"version":8,"sources":{"t":{"type":"vector"}},"layers":[%s]}' % (root, layer)


def many_names(count):
    """A style of layers that name a source layer, and a tile of ten times as many layers without features, none of this name."""
    layers = ",".join('{"id":"l%d","type":"circle","source":"t","source-layer":"p"}' % i for i in range(count))
    whole = '{"version":8,"sources":{"t":{"type":"vector"}},"layers":[%s]}' % layers
    return whole, b"".join(tile(b"", name=b"n%d" % i) for i in range(count * 10))


def cases():
    """A name, a style and its tiles for each measurement."""
    numbered = b"".join(b"\x12\x06\x12\x02\x00" + bytes([i % 100]) + b"\x18\x01" for i in range(2_000_000))
    numbers = tile(numbered, [b"r"], range(100))
    radius = '["case",["<",["get","r"],10],["*",["get","r"],2],["+",["get","r"],1]]'
    few = tile(b"\x12\x02\x18\x01" * 3)
    yield "400 layers over 11,000 features", *many_layers()
    yield "three expressions over 44,000 features", *three_expressions()
    yield "8,000,000 features, no values", style(""), tile(b"\x12\x00" * 8_000_000)
    yield "one more: CellLimit", style(""), tile(b"\x12\x00" * 8_000_001)
    yield "2,000,000 features, a radius each", style(',"paint":{"circle-radius":["get","r"]}'), numbers
    yield "the same by two nodes", style(',"paint":{"circle-radius":["number",["get","r"]]}'), numbers
    yield "the same by a legacy function", style(',"paint":{"circle-radius":{"property":"r","stops":[[0,1],[100,20]]}}'), numbers
    yield "the same by an identity function", style(',"paint":{"circle-radius":{"type":"identity","property":"r"}}'), numbers
    yield "4,000,000 features of two tiles, a radius each", style(',"paint":{"circle-radius":["get","r"]}'), numbers, numbers
    yield "2,000,000 features, a filter and a case", style(',"filter":["<",["number",["get","r"]],50],"paint":{"circle-radius":%s}' % radius), numbers
    yield "2,000,000 features by a sort key", style(',"layout":{"circle-sort-key":["get","r"]}'), numbers
    yield "4,000 layers, a tile of 40,000", *many_names(4_000)
    yield "8,000 layers, a tile of 80,000", *many_names(8_000)
    yield "50,000 layers, a tile of 500,000", *many_names(50_000)
    yield "330,000 names in the root", style("", "".join('"k%d":0,' % i for i in range(330_000))), few
    yield "a sum of 2,080,000 numbers", style(',"paint":{"circle-radius":["+"%s]}' % (",1" * 2_080_000)), few


def main():
    program = TOP / "crates" / "pirgesh" / "out" / "pirgesh"
    subprocess.run([TOP / "pirgesh", "--version"], check=True, stdout=subprocess.DEVNULL)
    with tempfile.TemporaryDirectory() as name:
        folder = pathlib.Path(name)
        for what, text, *contents in cases():
            if sys.argv[1:] and not any(what.startswith(word) for word in sys.argv[1:]):
                continue
            (folder / "style").write_text(text)
            words = []
            for number, content in enumerate(contents):
                (folder / f"tile{number}").write_bytes(content)
                words.append(f"t={folder / f'tile{number}'}")
            started = time.monotonic()
            with open(folder / "out", "wb") as out, open(folder / "err", "wb") as err:
                child = subprocess.Popen([program, "eval", folder / "style", "0", *words], stdout=out, stderr=err)
                status, usage = ended(child)
            took = time.monotonic() - started
            told = (folder / "err").read_text().strip()
            size = (folder / "out").stat().st_size
            processor = usage.ru_utime + usage.ru_stime
            print(f"{what}: {took:.2f} s, {processor:.2f} of the processor, {usage.ru_maxrss // 1024} MB, status {status}, {size} bytes, {size / took / 1e6:.0f} MB/s {told}", flush=True)


def ended(child):
    """The child's exit status and what it used."""
    _, state, usage = os.wait4(child.pid, 0)
    return os.waitstatus_to_exitcode(state), usage


if __name__ == "__main__":
    main()
