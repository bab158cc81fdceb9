"""JSON texts as Python's json reads them, with a wrapper for the rules that it does not have."""

import json
import re

PIECES = re.compile(r"\\u([0-9a-fA-F]{4})|\\.|.", re.DOTALL)


class Refused(ValueError):
    """Python's json takes the text, and a rule does not."""


class Number(str):
    """A number as it stands."""


def read(data, rules):
    """The tree of an accepted text, objects as lists of pairs in a tuple; else a ValueError."""
    text = data.decode("utf-8", "strict" if "Utf8" in rules else "surrogateescape")
    tree = json.loads(
        text,
        object_pairs_hook=lambda pairs: members(pairs, rules),
        parse_int=lambda number: number_text(number, rules),
        parse_float=lambda number: number_text(number, rules),
        parse_constant=refuse,
    )
    if "Depth" in rules and depth(tree) > 64:
        raise Refused("depth")
    if "LoneSurrogate" in rules and not are_paired(text):
        raise Refused("surrogate")
    return tree


def refuse(name):
    raise Refused(name)


def members(pairs, rules):
    if "DuplicateKey" in rules and len({key for key, _ in pairs}) < len(pairs):
        raise Refused("keys")
    return tuple(pairs)


def number_text(number, rules):
    if "NumberLength" in rules and len(number) > 64:
        raise Refused("number")
    return Number(number)


def depth(tree):
    """How many arrays and objects are open at one place."""
    if isinstance(tree, list):
        return 1 + max(map(depth, tree), default=0)
    if isinstance(tree, tuple):
        return 1 + max((depth(value) for _, value in tree), default=0)
    return 0


def are_paired(text):
    """Whether each escape of a surrogate stands in a pair."""
    due = False
    for piece in PIECES.finditer(text):
        unit = int(piece[1] or "0", 16)
        low = 0xDC00 <= unit <= 0xDFFF
        if low != due:
            return False
        due = 0xD800 <= unit <= 0xDBFF
    return not due


def is_accepted(data, rules):
    try:
        read(data, rules)
    except ValueError:
        return False
    return True


def written(tree):
    """The tree's text without white space, number texts as they stand."""
    if isinstance(tree, Number):
        return tree
    if isinstance(tree, list):
        return "[" + ",".join(map(written, tree)) + "]"
    if isinstance(tree, tuple):
        return "{" + ",".join(f"{written(key)}:{written(value)}" for key, value in tree) + "}"
    return json.dumps(tree, ensure_ascii=False)
