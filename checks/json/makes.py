"""Makes JSON texts: whole ones, ones with some part wrong, ones with bytes changed, and all short ones of some tokens."""

import itertools

import making

CHARACTERS = ["a", "b", " ", "~", "\x7f", "é", "߿", "ࠀ", "€", "\ud7ff", "\ue000", "\uffff", "\U00010000", "😀", "\U0010ffff", "\u2028", "/"]
ESCAPES = [b"\\n", b"\\/", b"\\\"", b"\\\\", b"\\b", b"\\f", b"\\r", b"\\t", b"\\u0000", b"\\u0061", b"\\u00E9", b"\\uFFff", b"\\ud7FF", b"\\uE000"]
PAIRS = [b"\\ud83d\\ude00", b"\\uD800\\uDC00", b"\\uDBFF\\udfff"]
ALONE = [b"\\ud800", b"\\uDBff", b"\\udc00", b"\\uDFFF", b"\\ud83d\\u0061", b"\\ud83d\\ud83d"]
NO_ESCAPES = [b"\\x", b"\\u12", b"\\u12g4", b"\\", b"\\U0061", b"\\'", b"\\0"]
NO_UTF8 = [b"\x80", b"\xc0\x80", b"\xc1\xbf", b"\xe0\x9f\xbf", b"\xed\xa0\x80", b"\xf0\x8f\xbf\xbf", b"\xf4\x90\x80\x80", b"\xf5\x80\x80\x80", b"\xff", b"\xc3", b"\xe2\x82", b"\xf0\x9f\x98"]
CONTROLS = [b"\x00", b"\n", b"\x1f", b"\t"]
NUMBERS = [b"0", b"-0", b"1", b"-12", b"0.1", b"1.50", b"1e5", b"-1.5E+10", b"2E-0", b"100", b"0e1", b"1" * 64, b"-" + b"9" * 63, b"0." + b"5" * 62, b"1" * 61 + b"e10", b"1" * 62 + b"e1"]
NO_NUMBERS = [b"01", b"-", b"+1", b".5", b"1.", b"1e", b"1e+", b"--1", b"1.2.3", b"0x1", b"1_0", b"NaN", b"Infinity", b"-Infinity", b"\xd9\xa1", b"00", b"-01"]
LONG_NUMBERS = [b"1" * 65, b"1" * 63 + b".5", b"1" * 63 + b"e5", b"-" + b"1" * 64, b"1" * 62 + b".55", b"1" * 62 + b"e+5", b"7" * 200]
WORDS = [b"true", b"false", b"null"]
NO_WORDS = [b"tru", b"True", b"nul", b"falsy", b"nulll", b"undefined", b"'a'", b"a", b"//", b""]
SPACES = [b"", b"", b"", b"", b" ", b"\n", b"\t\r", b"  "]
NO_SPACES = [b"\x0c", b"\x0b", b"\xc2\xa0", b"\xef\xbb\xbf", b"\x00", b"/**/", b"\xe2\x80\xa8"]
KEYS = [b"a", b"b", b"", b"\\u0061", b"\xc3\xa9", b"\\u00e9", b"aa", b"\\ud83d\\ude00", b"\xf0\x9f\x98\x80", b"\\n"]
TOKENS = [b"[", b"]", b"{", b"}", b",", b":", b'"', b"1", b"0", b"-", b".", b"e", b"\\", b"u", b"d", b"8", b" ", b"\xc3", b"\xa9", b'"a"', b"null"]
BYTES = b'[]{},:"\\ \n\t01-+.eEudDcC8Ffab/tnl\x00\x1f\x0c\x7f\x80\xa9\xbf\xc2\xc3\xe0\xed\xa0\xef\xbb\xf0\xf4\xff'


class Maker(making.Maker):
    """Makes random texts."""

    def either(self, right, *wrong):
        """One of the first, or of the others where it slips."""
        return self.rng.choice(self.rng.choice(wrong) if self.slips() else right)

    def spaces(self):
        return self.rng.choice(NO_SPACES if self.slips(0.2) else SPACES)

    def whole(self):
        """A text, now and then inside many arrays and objects."""
        text = self.spaces() + self.value(self.rng.randrange(5)) + self.spaces()
        if self.rng.random() < 0.1:
            for _ in range(self.rng.randrange(55, 68 if self.wrong else 60)):
                text = b"[" + text + b"]" if self.rng.random() < 0.6 else b'{"k":' + text + b"}"
        return text + (self.rng.choice(TOKENS) if self.slips(0.3) else b"")

    def value(self, deep):
        form = self.rng.randrange(6 if deep else 4)
        if form == 0:
            return self.either(NUMBERS, NO_NUMBERS, LONG_NUMBERS)
        if form == 1:
            return self.either(WORDS, NO_WORDS)
        if form < 4:
            return self.text()
        return self.array(deep - 1) if form == 4 else self.object(deep - 1)

    def text(self):
        pieces = [self.piece() for _ in range(self.rng.choice([0, 1, 1, 2, 3, 8]))]
        return b'"' + b"".join(pieces) + self.either([b'"'], [b"", b"'"])

    def piece(self):
        plain = self.rng.choice(CHARACTERS).encode()
        return self.either([plain, plain, self.rng.choice(ESCAPES), self.rng.choice(PAIRS)], ALONE, NO_ESCAPES, NO_UTF8, CONTROLS)

    def array(self, deep):
        items = [self.spaces() + self.value(deep) + self.spaces() for _ in range(self.rng.randrange(4))]
        return b"[" + self.listed(items) + self.either([b"]"], [b"", b"}", b",]"])

    def object(self, deep):
        keys = self.rng.sample(KEYS[:3] + KEYS[6:8], self.rng.randrange(4))
        if self.slips(3):
            keys = self.rng.choices(KEYS, k=4)
        return b"{" + self.listed([self.member(key, deep) for key in keys]) + self.either([b"}"], [b"", b"]", b",}"])

    def member(self, key, deep):
        colon = self.either([b":"], [b"", b",", b"=", b"::"])
        named = self.either([b'"' + key + b'"'], [key, b"1", b"'" + key + b"'", b'"' + self.rng.choice(ALONE) + b'"'])
        return self.spaces() + named + self.spaces() + colon + self.spaces() + self.value(deep) + self.spaces()

    def listed(self, parts):
        return b"".join(self.either([b","], [b"", b",,", b";"]) + part for part in parts)[1:] if parts else self.spaces()


def keyed(rng, deep=2):
    """An object of a few keys, some of them equal once their escapes are decoded, and one now and then with a lone surrogate."""
    keys = rng.choices(KEYS, k=rng.randrange(1, 5))
    if rng.random() < 0.1:
        keys.append(rng.choice(ALONE))
    values = [keyed(rng, deep - 1) if deep and rng.random() < 0.3 else b"0" for _ in keys]
    return b"{" + b",".join(b'"' + key + b'":' + value for key, value in zip(keys, values)) + b"}"


def changed(rng, text, others):
    """The text with a few changes: bytes put in, taken out, replaced, repeated, cut off, or spliced with another text."""
    for _ in range(rng.choice([1, 1, 1, 2, 3])):
        at = rng.randrange(len(text) + 1)
        to = min(len(text), at + rng.choice([1, 1, 2, 5]))
        other = rng.choice(others)
        text = rng.choice(
            [
                text[:at] + bytes([rng.choice(BYTES)]) + text[at:],
                text[:at] + bytes([rng.choice(BYTES)]) + text[to:],
                text[:at] + text[to:],
                text[:at] + text[at:to] * 2 + text[to:],
                text[:at],
                text[:at] + other[rng.randrange(len(other) + 1) :],
            ]
        )
    return text


def short(length):
    """All texts of at most `length` tokens."""
    return [b"".join(tokens) for count in range(length + 1) for tokens in itertools.product(TOKENS, repeat=count)]
