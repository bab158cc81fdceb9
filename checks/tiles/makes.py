"""Makes vector tiles: whole ones, ones with some part wrong, and ones with bytes changed."""

import making

TEXTS = [b"", b"p", b"q", b"road", b"\xc3\xa9", b"\xf0\x9f\x98\x80", b"\x00\"\\\n", b"\xe2\x80\xa8"]
NO_TEXTS = [b"\xff", b"\xc0\x80", b"\xed\xa0\x80", b"a\xc3", b"\xf4\x90\x80\x80"]
NUMBERS = [0, 1, 2, 127, 128, 300, (1 << 31) - 1, 1 << 32, (1 << 63) - 1, 1 << 63, (1 << 64) - 1]


def varint(number, longer=0):
    """A number to the base 128, in some bytes more than are needed, at most ten in all."""
    digits = [number & 127]
    while number >> 7:
        number >>= 7
        digits.append(number & 127)
    digits += [0] * min(longer, 10 - len(digits))
    return bytes(digit | 128 for digit in digits[:-1]) + bytes(digits[-1:])


def number_field(field, number):
    return varint(field << 3) + varint(number)


def bytes_field(field, content):
    return varint(field << 3 | 2) + varint(len(content)) + content


class Maker(making.Maker):
    """Makes random tiles."""

    def number(self, field, number):
        """A field of wire type 0, or of another where it slips."""
        rng = self.rng
        if self.slips(0.3):
            return self.odd_field(field)
        return varint(field << 3, rng.random() < 0.02) + varint(number, rng.choice([0] * 30 + [1, 3]))

    def content(self, field, content):
        """A field of wire type 2, or of another, or of another length, where it slips."""
        if self.slips(0.2):
            return self.odd_field(field)
        length = len(content) + (self.rng.choice([-1, 1, 200]) if self.slips(0.2) else 0)
        return varint(field << 3 | 2) + varint(max(length, 0)) + content

    def odd_field(self, field):
        """A field of any wire type, of one that has no meaning only where it slips."""
        rng = self.rng
        wire = rng.choice([3, 4, 6, 7] if self.slips() else [0, 0, 1, 2, 2, 5, 5])
        held = {0: varint(rng.choice(NUMBERS)), 1: bytes(8), 2: varint(2) + b"\x08\x01", 5: bytes(4)}.get(wire, b"")
        return varint(field << 3 | wire) + held

    def text(self):
        return self.rng.choice(NO_TEXTS if self.slips(0.5) else TEXTS)

    def unknown(self):
        """Now and then a field that no part of a tile has, or one that is none."""
        rng = self.rng
        if self.slips(0.1):
            return varint(rng.choice([1 << 32, 7 << 40, 5, 2])) + b"\x00"
        return self.odd_field(rng.choice([8, 9, 16, 2000, (1 << 29) - 1])) if rng.random() < 0.03 else b""

    def tile(self):
        parts = [self.content(3, self.layer(name)) for name in self.names()]
        return (b"\x1f\x8b" if self.slips(0.05) else b"") + self.unknown() + b"".join(parts) + self.unknown()

    def names(self):
        count = self.rng.choice([0, 1, 1, 1, 1, 2, 3])
        names = self.rng.sample(TEXTS, count)
        return names + names[:1] if self.slips() else names

    def layer(self, name):
        rng = self.rng
        keys, values = rng.randrange(5), rng.randrange(5)
        parts = [self.content(1, self.text() if self.slips() else name)]
        parts += [self.number(15, rng.choice(NUMBERS) if self.slips() else rng.choice([1, 2]))]
        parts += [self.number(5, 4096)] if rng.random() < 0.5 else []
        parts += [self.content(3, self.text()) for _ in range(keys)]
        parts += [self.content(4, self.value()) for _ in range(values)]
        parts += [self.content(2, self.feature(keys, values)) for _ in range(rng.randrange(4))]
        parts += [self.number(15, 7) + self.number(15, 2)] if rng.random() < 0.05 else []
        if rng.random() < 0.5:
            rng.shuffle(parts)
        if self.slips():
            parts.pop(rng.randrange(len(parts)))
        return self.unknown() + b"".join(parts) + self.unknown()

    def value(self):
        rng = self.rng
        count = rng.choice([0, 2]) if self.slips() else 1
        return self.unknown() + b"".join(self.value_field() for _ in range(count)) + self.unknown()

    def value_field(self):
        rng = self.rng
        field = rng.choice([2, 3]) if self.slips(0.5) else rng.choice([1, 1, 4, 5, 6, 7])
        if field == 1:
            return self.content(1, self.text())
        if field in (2, 3):
            return varint(field << 3 | (5 if field == 2 else 1)) + bytes(4 if field == 2 else 8)
        return self.number(field, rng.choice(NUMBERS + [rng.getrandbits(64)]))

    def feature(self, keys, values):
        rng = self.rng
        parts = [self.number(1, rng.choice(NUMBERS))] if rng.random() < 0.5 else []
        parts += [self.number(1, 3)] if rng.random() < 0.1 else []
        parts += [self.number(3, rng.choice([4, 5, 1 << 32]) if self.slips() else rng.randrange(4))]
        parts += [self.content(4, b"\x09\x32\x80"[: rng.randrange(4)])] if rng.random() < 0.5 else []
        parts += [self.number(4, 9)] if rng.random() < 0.1 else []
        if rng.random() < 0.5:
            rng.shuffle(parts)
        return self.unknown() + b"".join(parts) + self.tags(keys, values) + self.unknown()

    def tags(self, keys, values):
        """Pairs of tags, packed and single; sometimes odd, past the ends, or broken."""
        rng = self.rng
        tags = []
        for _ in range(rng.randrange(5) if keys and values else 0):
            tags += [rng.randrange(keys), rng.randrange(values)]
        if self.slips(0.7):
            tags += rng.choice([[0], [keys, 0], [0, values], [1 << 32, 0], [0, (1 << 64) - 1]])
        at = rng.randrange(len(tags) + 1)
        packed = b"".join(varint(tag, rng.random() < 0.02) for tag in tags[:at])
        if self.slips(0.3):
            packed += rng.choice([b"\x80", b"\xff" * 10 + b"\x01", b"\xff" * 9 + b"\x02"])
        single = b"".join(self.number(2, tag) for tag in tags[at:])
        return (self.content(2, packed) if packed else b"") + single


def changed(rng, tile, others):
    """A tile with one to three bytes or stretches of bytes changed."""
    data = bytearray(tile)
    for _ in range(rng.choice([1, 1, 1, 2, 3])):
        at = rng.randrange(len(data) + 1)
        to = min(len(data), at + rng.choice([1, 1, 2, 5, 20]))
        way = rng.choice([0, 0, 0, 1, 1, 1, 2, 3, 4, 5])
        if way == 0 and at < len(data):
            data[at] ^= 1 << rng.randrange(8)
        elif way == 1 and at < len(data):
            data[at] = rng.choice([0, 1, 2, 0x0A, 0x12, 0x1A, 0x22, 0x78, 0x7F, 0x80, 0xFF, rng.randrange(256)])
        elif way == 2:
            del data[at:to]
        elif way == 3:
            data[at:at] = data[at:to]
        elif way == 4:
            del data[at:]
        else:
            other = rng.choice(others)
            start = rng.randrange(len(other) + 1)
            data[at:at] = other[start : start + rng.choice([1, 2, 5, 20])]
    return bytes(data)
