"""The table of properties as checks/table/table.tsv has it, and which JSON is a literal of a row."""

import dataclasses
import pathlib

import trees
import values
from values import BOOLEAN, COLOR, IMAGE, NUMBER, TEXT, listed

TABLE = pathlib.Path(__file__).resolve().parents[1] / "table" / "table.tsv"
TYPES = "background fill line symbol circle heatmap fill-extrusion raster hillshade color-relief".split()
UNREAD_TYPES = ("hillshade", "color-relief")
# Names that pass unread, by layer type and place.
UNREAD = {
    ("heatmap", "paint", "heatmap-color"),
    ("line", "paint", "line-gradient"),
    ("symbol", "layout", "icon-padding"),
    ("symbol", "layout", "text-variable-anchor-offset"),
}
WANTED = {
    "num": NUMBER,
    "nums2": listed("number", 2),
    "nums4": listed("number", 4),
    "nums": listed("number"),
    "fonts": listed("string"),
    "bool": BOOLEAN,
    "color": COLOR,
    "image": IMAGE,
    "text": TEXT,
}


@dataclasses.dataclass(frozen=True)
class Row:
    """A property of a layer type. The default is a tree, and the limits are millionths; each may be None."""

    layer: str
    place: str
    name: str
    kind: str
    texts: tuple
    default: object
    least: int | None
    most: int | None
    inputs: str

    def wanted(self):
        """What the row wants of a value."""
        return (self.kind, self.texts) if self.kind in ("enum", "enums") else WANTED[self.kind]

    def ramps(self):
        return "i" in self.inputs

    def takes_tokens(self):
        return "t" in self.inputs

    def default_value(self):
        """The default as a value of the row; None where there is none."""
        return None if self.default is None else values.fitted(trees.value(self.default), self.wanted())


def default_tree(cell):
    if cell == "-":
        return None
    if cell in ("true", "false"):
        return cell == "true"
    if cell.startswith('"'):
        return cell.strip('"')
    first, unit = cell.split()[:2]
    if unit == "zeros":
        return [trees.Number("0")] * int(first)
    if unit == "millionths":
        return trees.Number(values.printed(int(first)))
    return cell.split(", ")


def limit(cell):
    return None if cell == "-" else int(cell.split()[0])


def read_table():
    """The rows by layer type, place and name, in the order of the table."""
    rows = {}
    for line in TABLE.read_text().splitlines():
        if line and not line.startswith("#"):
            layer, _, place, name, kind, default, least, most, inputs = line.split("\t")
            kind, *texts = kind.split()
            limits = limit(least), limit(most)
            rows[layer, place, name] = Row(layer, place, name, kind, tuple(texts), default_tree(default), *limits, inputs)
    return rows


ROWS = read_table()


def is_literal(row, tree):
    """Whether a tree is a literal of the row: of its kind, and within its limits."""
    kind = row.kind
    if kind == "num":
        return is_number(row, tree)
    if kind in ("nums", "nums2", "nums4"):
        return isinstance(tree, list) and len(tree) == int(kind[4:] or len(tree)) and all(is_number(row, one) for one in tree)
    if kind == "bool":
        return isinstance(tree, bool)
    if kind in ("fonts", "enums"):
        return isinstance(tree, list) and all(is_text(row, one) for one in tree)
    return is_text(row, tree)


def is_number(row, tree):
    number = trees.number(tree)
    if number is None or (row.least is not None and number < row.least):
        return False
    return row.most is None or number <= row.most


def is_text(row, tree):
    if not trees.is_text(tree):
        return False
    if row.kind == "color":
        return values.color_of(tree) is not None
    return not row.texts or tree in row.texts
