#!/usr/bin/env python3
"""Compares the table of properties that the crate property_tables has with table.tsv, cell by cell.

    python3 checks/table/compare.py            compares
    python3 checks/table/compare.py --write    makes docs/PROPERTIES.md of table.tsv

table.tsv was written by hand from the description of the table, by someone who had not seen the crate. Each name of it, and each
text in quotes of the crate's own table, is looked up in every layer type and place, so that a row too many is found too. Sets of
texts are compared by what their names stand for in program.txt, and some texts of sets by rows of
crates/worked_rows/rows/properties.jsonl.

It needs `rt` on the path. The program is made in a temporary folder, from a copy of crates/ and program.txt; `rt try` runs it unproved.
"""

import pathlib
import re
import sys
import tempfile

HERE = pathlib.Path(__file__).resolve().parent
sys.path.append(str(HERE.parent / "shared"))

import scratch


PAGE = """# Properties of layers

The table of style properties, which is this project's profile of the MapLibre Style Specification, version 8. `checks/table/compare.py --write`
makes this page of `checks/table/table.tsv`, a table written by hand, with which the crate's own is compared.

`num` is a number, `nums2` a list of two, `nums` of any number of them; `enum` is one of a set of texts, `enums` a list of such. A limit binds literals,
each item of a list, and outputs of functions; it binds no evaluated result. Of the inputs z is the zoom, f feature data, s feature state; i says
that a function goes linearly between its stops where its type is not given, t that a text with tokens is a token text.
"""


def amount(text):
    """A count of millionths as a number."""
    if not text.endswith(" millionths"):
        return text
    whole, part = divmod(abs(int(text.split()[0])), 10**6)
    return ("-" if text.startswith("-") else "") + str(whole) + (f".{part:06}".rstrip("0") if part else "")


def limits(least, most):
    if most == "-":
        return "" if least == "-" else f"from {amount(least)}"
    return f"{amount(least)} to {amount(most)}"


def page(lines):
    """The table as a page, a chapter for each layer type."""
    text = PAGE
    kind_of_layer = None
    for line in lines:
        layer, _, place, name, kind, default, least, most, inputs = line.split("\t")
        if layer != kind_of_layer:
            kind_of_layer = layer
            text += f"\n## {layer}\n\n| Property | In | Kind | Default | Limits | Inputs |\n|---|---|---|---|---|---|\n"
        default = "" if default == "-" else f"`{amount(default)}`"
        inputs = "" if inputs == "-" else inputs
        text += f"| `{name}` | {place} | {kind} | {default} | {limits(least, most)} | {inputs} |\n"
    return text


def main():
    wanted = [line for line in (HERE / "table.tsv").read_text().splitlines() if line and not line.startswith("#")]
    document = scratch.TOP / "docs" / "PROPERTIES.md"
    if "--write" in sys.argv[1:]:
        document.write_text(page(wanted))
        return 0
    if document.read_text() != page(wanted):
        print("docs/PROPERTIES.md is not made of table.tsv; --write makes it")
        return 1
    source = (scratch.TOP / "crates" / "property_tables" / "src" / "rows.rt").read_text()
    names = sorted({line.split("\t")[3] for line in wanted} | set(re.findall(r'"([a-z-]+)"', source)))
    with tempfile.TemporaryDirectory() as folder:
        folder = pathlib.Path(folder)
        program = scratch.make_program(folder, "table_lines", "table/program.txt", ["property_tables", "prop_values", "fixed_num"])
        file = folder / "names"
        file.write_text("".join(name + "\n" for name in names))
        given = scratch.run(program, "rt", "try", "--seconds", "600", "--", file).decode().splitlines()
    for line in sorted(set(given) - set(wanted)):
        print(f"crate alone: {line}")
    for line in sorted(set(wanted) - set(given)):
        print(f"table alone: {line}")
    print(f"table: {len(wanted)} rows, {len(given)} of the crate, {len(set(given) ^ set(wanted))} differ")
    return 1 if set(given) != set(wanted) or len(given) != len(set(given)) else 0


if __name__ == "__main__":
    sys.exit(main())
