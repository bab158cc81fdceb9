"""JSON texts byte by byte, by RFC 8259 and five rules that are each in force or dropped. Written apart from the proved reader.

A `Machine` is fed bytes, and is dead from the first byte on with which no accepted text goes on. What is not dead can be completed, and
`completion` gives bytes that do it.
"""

import string

RULES = ["Utf8", "DuplicateKey", "Depth", "NumberLength", "LoneSurrogate"]
ALL = frozenset(RULES)
SPACES = b" \t\n\r"
WORDS = {ord("t"): b"true", ord("f"): b"false", ord("n"): b"null"}
LETTERS = {34: 34, 92: 92, 47: 47, ord("b"): 8, ord("f"): 12, ord("n"): 10, ord("r"): 13, ord("t"): 9}
DIGITS = string.digits.encode()
HEX = string.hexdigits.encode()

# RFC 8259 section 6: where each kind of byte leads from each part of a number, and the parts in which a number may end.
PARTS = {
    "": {"-": "minus", "0": "zero", "1": "integer"},
    "minus": {"0": "zero", "1": "integer"},
    "zero": {".": "point", "e": "e"},
    "integer": {"0": "integer", "1": "integer", ".": "point", "e": "e"},
    "point": {"0": "fraction", "1": "fraction"},
    "fraction": {"0": "fraction", "1": "fraction", "e": "e"},
    "e": {"-": "sign", "+": "sign", "0": "exponent", "1": "exponent"},
    "sign": {"0": "exponent", "1": "exponent"},
    "exponent": {"0": "exponent", "1": "exponent"},
}
ENDS = {"zero", "integer", "fraction", "exponent"}


class Dead(Exception):
    """No accepted text goes on by this byte."""


def class_of(byte):
    """The kind of a byte in a number: 1 stands for each digit but 0, e for the letter in both cases."""
    char = chr(byte)
    return "1" if char in "123456789" else "e" if char == "E" else char


def characters_after(byte):
    """The ranges of the bytes that follow the first byte of a character of several. RFC 3629 section 4."""
    tail = (0x80, 0xBF)
    second = {0xE0: (0xA0, 0xBF), 0xED: (0x80, 0x9F), 0xF0: (0x90, 0xBF), 0xF4: (0x80, 0x8F)}.get(byte, tail)
    if 0xC2 <= byte <= 0xDF:
        return [second]
    if 0xE0 <= byte <= 0xEF:
        return [second, tail]
    if 0xF0 <= byte <= 0xF4:
        return [second, tail, tail]
    raise Dead


class Text:
    """A text behind its opening mark."""

    def __init__(self, rules):
        self.rules = rules
        self.meant = bytearray()
        self.after = []
        self.escape = None
        self.high = None

    def feed(self, byte):
        """Whether the byte ends the text."""
        if self.after:
            low, high = self.after.pop(0)
            if not low <= byte <= high:
                raise Dead
            self.meant.append(byte)
        elif self.escape is not None:
            self.feed_escape(byte)
        elif byte == 92:
            self.escape = b""
        else:
            return self.feed_plain(byte)
        return False

    def feed_plain(self, byte):
        if byte < 32:
            raise Dead
        self.leave_alone()
        if byte == 34:
            return True
        if byte >= 128 and "Utf8" in self.rules:
            self.after = characters_after(byte)
        self.meant.append(byte)
        return False

    def leave_alone(self):
        """A first surrogate before this place stands in no pair."""
        if self.high is not None:
            if "LoneSurrogate" in self.rules:
                raise Dead
            self.meant += chr(self.high).encode("utf-8", "surrogatepass")
            self.high = None

    def feed_escape(self, byte):
        self.escape += bytes([byte])
        if self.escape[:1] != b"u":
            if byte not in LETTERS:
                raise Dead
            self.unit(LETTERS[byte])
        elif len(self.escape) > 1:
            if byte not in HEX:
                raise Dead
            self.digits(self.escape[1:])

    def digits(self, digits):
        """So many hexadecimal digits of a code unit: some unit that begins so has to be allowed."""
        left = 16 ** (4 - len(digits))
        least = int(digits, 16) * left
        most = least + left - 1
        if "LoneSurrogate" in self.rules:
            if self.high is None and 0xDC00 <= least and most <= 0xDFFF:
                raise Dead
            if self.high is not None and (most < 0xDC00 or least > 0xDFFF):
                raise Dead
        if len(digits) == 4:
            self.unit(least)

    def unit(self, unit):
        self.escape = None
        if self.high is not None and 0xDC00 <= unit <= 0xDFFF:
            pair = 0x10000 + ((self.high & 0x3FF) << 10 | unit & 0x3FF)
            self.meant += chr(pair).encode()
            self.high = None
            return
        self.leave_alone()
        if 0xD800 <= unit <= 0xDBFF:
            self.high = unit
        else:
            self.meant += chr(unit).encode("utf-8", "surrogatepass")

    def completion(self, letters):
        """Bytes that end the text, with `letters` letters more in it."""
        more = bytes(low for low, _ in self.after)
        if self.high is not None and "LoneSurrogate" in self.rules:
            begun = 0 if self.escape is None else 1 + len(self.escape)
            more += b"\\udc00"[begun:]
        elif self.escape is not None:
            more += self.rest_of_escape(self.escape)
        return more + b"x" * letters + b'"'

    def rest_of_escape(self, escaped):
        """The rest of an escape that begins no pair, or of one with its other half."""
        if not escaped:
            return b"n"
        digits = escaped[1:]
        rest = b"0" * (4 - len(digits))
        unit = int(digits + rest, 16)
        if "LoneSurrogate" in self.rules and 0xD800 <= unit <= 0xDBFF:
            return rest + b"\\udc00"
        return rest


class Machine:
    """What is known of the bytes so far."""

    def __init__(self, rules):
        self.rules = rules
        self.open = []
        self.wanted = "value"
        self.text = self.number = self.word = None

    def feed(self, data):
        for byte in data:
            self.feed_one(byte)
        return self

    def feed_one(self, byte):
        if self.text is not None:
            if self.text.feed(byte):
                self.end_text(bytes(self.text.meant))
        elif self.word:
            self.go_on_word(byte)
        elif self.number is None or not self.goes_on_number(byte):
            self.between(byte)

    def between(self, byte):
        """A byte that stands in no text, number or word."""
        if byte in SPACES:
            return
        closes = {93: "[", 125: "{"}.get(byte)
        if closes and self.open and self.open[-1][0] == closes and self.wanted in ("comma", "first"):
            self.open.pop()
            self.wanted = "comma" if self.open else "end"
        elif byte == 44 and self.wanted == "comma":
            self.wanted = "value" if self.open[-1][0] == "[" else "key"
        elif byte == 58 and self.wanted == "colon":
            self.wanted = "value"
        elif byte == 34 and (self.wanted == "key" or self.wanted == "first" and self.open[-1][0] == "{"):
            self.wanted = "key"
            self.text = Text(self.rules)
        elif self.wanted == "value" or self.wanted == "first" and self.open[-1][0] == "[":
            self.begin(byte)
        else:
            raise Dead

    def begin(self, byte):
        """The first byte of a value."""
        if byte in b"[{":
            if "Depth" in self.rules and len(self.open) == 64:
                raise Dead
            self.open.append((chr(byte), set()))
            self.wanted = "first"
            return
        self.wanted = "comma" if self.open else "end"
        if byte == 34:
            self.text = Text(self.rules)
        elif byte in WORDS:
            self.word = WORDS[byte][1:]
        else:
            self.number = ("", 0)
            if not self.goes_on_number(byte):
                raise Dead

    def go_on_word(self, byte):
        if self.word[0] != byte:
            raise Dead
        self.word = self.word[1:]

    def goes_on_number(self, byte):
        """Takes the byte where the number goes on by it; ends the number where it may end before it."""
        part, length = self.number
        after = PARTS[part].get(class_of(byte))
        if after is None:
            if part not in ENDS:
                raise Dead
            self.number = None
            return False
        if "NumberLength" in self.rules and length + 1 + (after not in ENDS) > 64:
            raise Dead
        self.number = (after, length + 1)
        return True

    def end_text(self, meant):
        self.text = None
        if self.wanted == "key":
            keys = self.open[-1][1]
            if "DuplicateKey" in self.rules and meant in keys:
                raise Dead
            keys.add(meant)
            self.wanted = "colon"

    def is_accepted(self):
        whole = self.text is None and not self.word and (self.number is None or self.number[0] in ENDS)
        return whole and self.wanted == "end"

    def completion(self):
        """Bytes that make an accepted text of those so far."""
        letters = 1 + max((len(key) for _, keys in self.open for key in keys), default=0)
        more = self.word or b""
        wanted = self.wanted
        if self.text is not None:
            more += self.text.completion(letters if wanted == "key" else 0)
            wanted = "colon" if wanted == "key" else wanted
        elif self.number is not None and self.number[0] not in ENDS:
            more += b"0"
        more += {"value": b"0", "colon": b":0", "key": b'"' + b"x" * letters + b'":0'}.get(wanted, b"")
        return more + bytes({"[": 93, "{": 125}[mark] for mark, _ in reversed(self.open))


def machine(data, rules):
    """The machine behind these bytes, or `None` where it is dead."""
    try:
        return Machine(rules).feed(data)
    except Dead:
        return None


def first_dead(data):
    """The length of the longest front that begins an accepted text."""
    running = Machine(ALL)
    for at, byte in enumerate(data):
        try:
            running.feed_one(byte)
        except Dead:
            return at
    return len(data)


def fault_of(data):
    """The kind and the place of the fault, or `None` where the bytes are accepted."""
    at = first_dead(data)
    if at == len(data):
        return None if machine(data, ALL).is_accepted() else ("Syntax", at)
    causes = [rule for rule in RULES if machine(data[: at + 1], ALL - {rule}) is not None]
    if len(causes) > 1:
        raise AssertionError(f"{data!r} has two causes: {causes}")
    return (causes[0] if causes else "Syntax", at)
