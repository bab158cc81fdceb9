"""JSON trees: arrays are lists, objects tuples of pairs, and numbers have their texts.

They are read by Python's json with the rules that it lacks, and refused by the definition of a fault (checks/json).
"""

import pathlib
import sys

sys.path.append(str(pathlib.Path(__file__).resolve().parents[1] / "shared"))

import loading
import millionths

by_python = loading.module("json/by_python.py")
by_rules = loading.module("json/by_rules.py")

Number = by_python.Number
written = by_python.written


class Refused(Exception):
    """The kind and the place of the fault of a text that is not accepted."""


def read(data):
    """The tree of a JSON text in bytes."""
    try:
        return by_python.read(data, by_rules.ALL)
    except ValueError:
        raise Refused("%s %d" % by_rules.fault_of(data)) from None


def is_text(tree):
    return type(tree) is str


def is_object(tree):
    return isinstance(tree, tuple)


def member(tree, name):
    """The member of an object, or None; a member that is null is None too."""
    return dict(tree).get(name)


def has_member(tree, name):
    return any(key == name for key, _ in tree)


def number(tree):
    """The millionths of a number within the bound, else None."""
    return millionths.read(tree) if isinstance(tree, Number) else None


def value(tree):
    """The value of a tree, whose numbers are within the bound."""
    if isinstance(tree, Number):
        return millionths.read(tree)
    if isinstance(tree, list):
        return [value(item) for item in tree]
    if is_object(tree):
        return {key: value(item) for key, item in tree}
    return tree


def is_within_bound(tree):
    """Whether all numbers of a tree are within the bound."""
    if isinstance(tree, Number):
        return millionths.read(tree) is not None
    if isinstance(tree, list):
        return all(map(is_within_bound, tree))
    return all(is_within_bound(item) for _, item in tree) if is_object(tree) else True


def pointer(path):
    """A path as a JSON string that holds a JSON Pointer."""
    return written("".join("/" + str(step).replace("~", "~0").replace("/", "~1") for step in path))
