"""Vector tiles read by the rules of docs/REFERENCE.md, part Tiles. Written from that page, apart from the proved reader."""

SHAPES = ["Unknown", "Point", "LineString", "Polygon"]


class Fault(Exception):
    """The first fault: its kind and the offset of the tag of the innermost field in which it stands."""

    def __init__(self, kind, at):
        super().__init__(f"{kind} {at}")


def read_tile(data):
    """The layers of a tile, as lists [name, feature ..] of features [id, shape, key, value ..]; else a Fault."""
    if data[:2] == b"\x1f\x8b":
        raise Fault("Compressed", 0)
    layers = []
    for number, at, wire, held in fields(data, 0, len(data)):
        if number == 3:
            start, end = want(2, wire, held, at)
            layers.append(read_layer(data, start, end, at, [layer[0] for layer in layers]))
    return layers


def fields(data, start, end):
    """The fields of a message: number, place of the tag, wire type, and the number or the bounds of the content."""
    place = start
    while place < end:
        at = place
        try:
            tag, place = varint(data, place, end)
            if tag >= 1 << 32:
                raise Broken("Varint")
            number, wire = tag >> 3, tag & 7
            if number == 0 or wire not in (0, 1, 2, 5):
                raise Broken("WireType")
            if wire == 0:
                held, place = varint(data, place, end)
            else:
                size = 8 if wire == 1 else 4
                if wire == 2:
                    size, place = varint(data, place, end)
                if size > end - place:
                    raise Broken("Truncated")
                held, place = (place, place + size), place + size
        except Broken as broken:
            raise Fault(f"Wire({broken})", at) from None
        yield number, at, wire, held


class Broken(Exception):
    """A number or field that the bytes do not hold."""


def varint(data, place, end):
    """The number at a place, in at most ten bytes, and the place after it."""
    number = 0
    for index in range(10):
        if place == end:
            raise Broken("Truncated")
        byte = data[place]
        place += 1
        number += (byte & 127) << 7 * index
        if byte < 128:
            if number >= 1 << 64:
                raise Broken("Varint")
            return number, place
    raise Broken("Varint")


def want(wanted, wire, held, at):
    """What a known field holds, where its wire type is right."""
    if wire != wanted:
        raise Fault("FieldType", at)
    return held


def text(data, bounds, at):
    """A text, which has to be UTF-8."""
    try:
        return data[bounds[0] : bounds[1]].decode("utf-8")
    except UnicodeDecodeError:
        raise Fault("Utf8", at) from None


def read_layer(data, start, end, tag, earlier):
    """The layer whose tag is at `tag`, after layers of these names."""
    name = version = None
    keys, values, features = [], [], []
    for number, at, wire, held in fields(data, start, end):
        if number == 1:
            name = text(data, want(2, wire, held, at), at)
        elif number == 2:
            features.append(read_feature(data, *want(2, wire, held, at), at))
        elif number == 3:
            keys.append(text(data, want(2, wire, held, at), at))
        elif number == 4:
            values.append(read_value(data, *want(2, wire, held, at), at))
        elif number == 5:
            want(0, wire, held, at)
        elif number == 15:
            version = want(0, wire, held, at)
    if name is None:
        raise Fault("NoName", tag)
    if version is None:
        raise Fault("NoVersion", tag)
    if version not in (1, 2):
        raise Fault("Version", tag)
    if name in earlier:
        raise Fault("RepeatedName", tag)
    return [name] + [with_properties(feature, keys, values) for feature in features]


def read_feature(data, start, end, tag):
    """Its tag's place, its id, its shape, and its tags."""
    id, shape, tags = None, 0, []
    for number, at, wire, held in fields(data, start, end):
        if number == 1:
            id = want(0, wire, held, at)
        elif number == 2 and wire == 0:
            tags.append(held)
        elif number == 2:
            tags += packed(data, *want(2, wire, held, at), at)
        elif number == 3:
            shape = want(0, wire, held, at)
            if shape > 3:
                raise Fault("GeometryType", at)
        elif number == 4 and wire != 0:
            want(2, wire, held, at)
    return tag, id, shape, tags


def packed(data, place, end, at):
    """The numbers of a packed field."""
    numbers = []
    while place < end:
        try:
            number, place = varint(data, place, end)
        except Broken as broken:
            raise Fault(f"Wire({broken})", at) from None
        numbers.append(number)
    return numbers


def read_value(data, start, end, tag):
    """The one field of a value."""
    found = []
    for number, at, wire, held in fields(data, start, end):
        if not 1 <= number <= 7:
            continue
        held = want({1: 2, 2: 5, 3: 1}.get(number, 0), wire, held, at)
        if number in (2, 3):
            raise Fault("FloatValue", at)
        if found:
            raise Fault("ValueKind", at)
        found.append(text(data, held, at) if number == 1 else scalar(number, held))
    if not found:
        raise Fault("ValueKind", tag)
    return found[0]


def scalar(number, held):
    """The int, uint, sint or bool of these 64 bits."""
    if number == 4:
        return held - (1 << 64 if held >> 63 else 0)
    if number == 5:
        return held
    if number == 6:
        return -(held + 1 >> 1) if held & 1 else held >> 1
    return held != 0


def with_properties(feature, keys, values):
    """A feature with its keys and values in turn."""
    at, id, shape, tags = feature
    if len(tags) % 2:
        raise Fault("OddTags", at)
    properties = {}
    for key, value in zip(tags[::2], tags[1::2]):
        if key >= len(keys) or value >= len(values):
            raise Fault("TagIndex", at)
        properties[keys[key]] = values[value]
    return [id, SHAPES[shape]] + [part for pair in properties.items() for part in pair]
