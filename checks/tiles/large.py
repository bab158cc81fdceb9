"""Large tiles, most of them hostile."""

from makes import bytes_field, number_field, varint

SIZE = 16_000_000


def layer(*parts):
    """A layer p of these parts."""
    return bytes_field(3, bytes_field(1, b"p") + number_field(15, 2) + b"".join(parts))


def feature(*parts):
    return bytes_field(2, b"".join(parts))


def fill(part):
    """A part as often as it fits."""
    return part * (SIZE // len(part))


def one_key():
    return layer(bytes_field(3, b"k"), bytes_field(4, number_field(5, 1)), feature(bytes_field(2, bytes(SIZE))))


def many_keys():
    count = SIZE // 12
    keys = b"".join(bytes_field(3, b"%06x" % key) for key in range(count))
    tags = b"".join(varint(key) + b"\x00" for key in range(count))
    return layer(keys, bytes_field(4, number_field(5, 1)), feature(bytes_field(2, tags)))


def keys_alike():
    """Keys of 1,000 bytes that differ in the last six."""
    return layer(*(bytes_field(3, b"k" * 994 + b"%06x" % key) for key in range(SIZE // 1003)))


def layers(size):
    """100,000 layers, whose names have `size` bytes and differ in the last six."""
    return b"".join(
        bytes_field(3, bytes_field(1, b"n" * (size - 6) + b"%06x" % number) + number_field(15, 2)) for number in range(100_000)
    )


def usual():
    """Features with an id, four properties and a geometry of 30 bytes, in layers of 20,000."""
    tile = b""
    words = b"".join(bytes_field(4, bytes_field(1, b"name of street %d" % word)) for word in range(5000))
    others = b"".join(bytes_field(4, number_field(5, n)) for n in range(100)) + bytes_field(4, number_field(7, 1))
    keys = b"".join(bytes_field(3, key) for key in [b"name", b"class", b"rank", b"oneway"])
    for number in range(SIZE // 20_000 // 54):
        features = b"".join(
            feature(
                number_field(1, 1_000_000 + at),
                bytes_field(2, b"\x00" + varint(at % 5000) + b"\x01" + varint(7) + b"\x02" + varint(5000 + at % 100) + b"\x03" + varint(5100)),
                number_field(3, 2),
                bytes_field(4, bytes(range(1, 31))),
            )
            for at in range(20_000)
        )
        tile += bytes_field(3, bytes_field(1, b"layer %d" % number) + number_field(15, 2) + keys + words + others + features)
    return tile


def long_text():
    """A text of 64 KiB that 10,000 features have."""
    text = bytes_field(4, bytes_field(1, b"t" * 65536))
    return layer(bytes_field(3, b"k"), text, feature(bytes_field(2, b"\x00\x00")) * 10_000)


def long_key():
    """A key of 64 KiB that 10,000 features have behind 16 others."""
    keys = b"".join(bytes_field(3, b"k%d" % key) for key in range(16)) + bytes_field(3, b"k" * 65536)
    tags = b"".join(varint(key) + b"\x00" for key in range(17))
    return layer(keys, bytes_field(4, number_field(5, 1)), feature(bytes_field(2, tags)) * 10_000)


KINDS = {
    "usual features": usual,
    "one feature, pairs of one key": one_key,
    "one feature, pairs of as many keys": many_keys,
    "empty features": lambda: layer(fill(feature())),
    "features with an id alone": lambda: layer(fill(feature(number_field(1, 1)))),
    "empty keys": lambda: layer(fill(bytes_field(3, b""))),
    "long keys that end differently": keys_alike,
    "values": lambda: layer(fill(bytes_field(4, number_field(5, 1)))),
    "100,000 layers": lambda: layers(6),
    "100,000 layers, long names that end differently": lambda: layers(150),
    "one id again and again": lambda: layer(feature(fill(number_field(1, 1)))),
    "single tags": lambda: layer(bytes_field(3, b"k"), bytes_field(4, number_field(5, 1)), feature(fill(number_field(2, 0)))),
    "one name again and again": lambda: layer(fill(bytes_field(1, b"p"))),
    "one version again and again": lambda: layer(fill(number_field(15, 2))),
    "unknown fields": lambda: fill(number_field(1, 1)),
    "one long name": lambda: bytes_field(3, bytes_field(1, bytes(SIZE)) + number_field(15, 2)),
    "one long text of 10,000 features": long_text,
    "one long key of 10,000 features": long_key,
}
