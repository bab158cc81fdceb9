"""Values of every form, what becomes of one by what is wanted of it, and their texts, by the manual's chapter on values and colors.

Null is None, a truth value a bool, a number an int of millionths, a text a str, a list a list and a map a dict.
"""

import json
import sys
import dataclasses
import pathlib

sys.path.append(str(pathlib.Path(__file__).resolve().parents[1] / "shared"))

import color_names
import loading
import millionths
from millionths import ONE, Fault

by_rules = loading.module("colors/by_rules.py")


@dataclasses.dataclass(frozen=True)
class Color:
    """Red, green and blue from 0 to 255, and opacity from 0 to 1, in millionths."""

    red: int
    green: int
    blue: int
    opacity: int

    def parts(self):
        return [self.red, self.green, self.blue, self.opacity]


FORMS = {type(None): "null", bool: "boolean", int: "number", str: "string", Color: "color", list: "array", dict: "object"}


def form(value):
    """The name that `typeof` gives of a value."""
    return FORMS[type(value)]


def equal(a, b):
    if type(a) is not type(b):
        return False
    if isinstance(a, list):
        return len(a) == len(b) and all(map(equal, a, b))
    if isinstance(a, dict):
        return a.keys() == b.keys() and all(equal(a[key], b[key]) for key in a)
    return a == b


def is_true(value):
    return value is not None and value is not False and value != "" and not (type(value) is int and value == 0)


def text_of(value):
    """The text of a value."""
    if value is None:
        return ""
    return value if isinstance(value, str) else printed(value)


def printed(value):
    """A value as `value` and a listing print it."""
    if isinstance(value, Color):
        return "rgba(" + ",".join(map(millionths.written, value.parts())) + ")"
    if type(value) is int:
        return millionths.written(value)
    if isinstance(value, list):
        return "[" + ",".join(map(inner, value)) + "]"
    if isinstance(value, dict):
        return "{" + ",".join(f"{inner(key)}:{inner(item)}" for key, item in value.items()) + "}"
    return json.dumps(value, ensure_ascii=False)


def inner(value):
    """A value in a list or map, where a color is in quotation marks."""
    return '"' + printed(value) + '"' if isinstance(value, Color) else printed(value)


def color_of(text):
    """The color of a text, or None."""
    name = "".join(c.lower() if c.isascii() else c for c in text.strip(" "))
    if name == "transparent":
        return Color(0, 0, 0, 0)
    if name in color_names.NAMES:
        parts = by_rules.color_of("#" + color_names.NAMES[name])
    else:
        parts = by_rules.color_of(text)
    return Color(*parts) if parts else None


def color_of_numbers(numbers):
    """The color of three or four numbers, or None past their limits."""
    numbers = numbers + [ONE] if len(numbers) == 3 else numbers
    limits = [255 * ONE] * 3 + [ONE]
    return Color(*numbers) if all(0 <= n <= most for n, most in zip(numbers, limits)) else None


# What is wanted of a value. A list is ("array", item, length), each None where it may be any; a text of a set ("enum", texts), and a
# list of such ("enums", texts).
ANY, TEXT, SEQUENCE, IMAGE = ("any",), ("text of a value",), ("text or list",), ("image",)
BOOLEAN, NUMBER, STRING, OBJECT, COLOR = ("boolean",), ("number",), ("string",), ("object",), ("color",)


def listed(item=None, length=None):
    return ("array", item, length)


def fitted(value, wanted):
    """What becomes of a value by what is wanted of it."""
    name = wanted[0]
    if name == "any":
        return value
    if name == "text of a value":
        return text_of(value)
    if name == "color" and isinstance(value, str):
        return colored(value)
    if name == "enum" and isinstance(value, str):
        return one_of(value, wanted[1])
    if name == "enums" and fits(value, listed("string")):
        return [one_of(text, wanted[1]) for text in value]
    if fits(value, wanted):
        return value
    raise Fault("WrongType")


def colored(text):
    color = color_of(text)
    if color is None:
        raise Fault("NotColor")
    return color


def one_of(text, texts):
    if text not in texts:
        raise Fault("NotInEnum")
    return text


def fits(value, wanted):
    """Whether a value is of the form that is wanted."""
    name = wanted[0]
    if name == "text or list":
        return isinstance(value, (str, list))
    if name == "image":
        return value is None or isinstance(value, str)
    if name != "array":
        return form(value) == name
    _, item, length = wanted
    if not isinstance(value, list) or length not in (None, len(value)):
        return False
    return item is None or all(form(one) == item for one in value)
