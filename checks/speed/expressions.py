"""Counts the instructions of reading the expressions of a style of 4 MB, beside those of parsing the style's text.

    python3 checks/speed/expressions.py [PROGRAM]

PROGRAM is the program as LLVM built it, crates/pirgesh/out/pirgesh without the word. The expressions of the style stand below one `coalesce` in
the filter of one layer, so that each is read once; only `expr_syntax::read_expr` is counted there. valgrind has to be installed.
"""

import json
import pathlib
import re
import subprocess
import sys
import tempfile

import inputs

TOP = pathlib.Path(__file__).resolve().parents[2]
PLACES = ["filter", "layout", "paint"]


def expressions(style):
    """The arrays of a style that begin with a text, other than lists of fonts."""
    for layer in json.loads(style)["layers"]:
        for place in PLACES:
            part = layer.get(place, [])
            values = part.items() if isinstance(part, dict) else [(place, part)]
            yield from (value for name, value in values if name != "text-font" and isinstance(value, list) and value and isinstance(value[0], str))


def circle_style(filter):
    """A style of one circle layer with this filter."""
    layer = {"id": "c", "type": "circle", "source": "t", "source-layer": "l", "filter": filter}
    return json.dumps({"version": 8, "sources": {"t": {"type": "vector"}}, "layers": [layer]}).encode()


def counted(program, folder, text, function):
    """The instructions of a function and of all that it calls, in a run over this style."""
    (folder / "style").write_bytes(text)
    words = ["valgrind", "--tool=callgrind", f"--callgrind-out-file={folder / 'counts'}", str(program), "eval", str(folder / "style"), "0", "t=/dev/null"]
    subprocess.run(words, capture_output=True)
    lines = subprocess.run(["callgrind_annotate", "--inclusive=yes", str(folder / "counts")], capture_output=True, text=True).stdout
    return int(re.search(rf"^\s*([\d,]+).*:{function} ", lines, re.M)[1].replace(",", ""))


def main():
    program = pathlib.Path(sys.argv[1]) if len(sys.argv) > 1 else TOP / "crates" / "pirgesh" / "out" / "pirgesh"
    style = inputs.style()
    found = list(expressions(style))
    with tempfile.TemporaryDirectory() as name:
        parsed = counted(program, pathlib.Path(name), style, "program_runs::reading::parse_json")
        read = counted(program, pathlib.Path(name), circle_style(["coalesce", *found]), "expr_syntax::reading::read_expr")
    print(f"parse of {len(style):,} bytes: {parsed / 1e6:.0f} million instructions")
    print(f"read_expr of its {len(found):,} expressions: {read / 1e6:.0f} million instructions, {read / parsed:.2f} times parse")


if __name__ == "__main__":
    main()
