"""Names, numbers, lines, escapes and expressions, as the rules of the project have them. Written from the rules alone, and not from the program."""

LETTERS = frozenset(b"ABCDEFGHIJKLMNOPQRSTUVWXYZabcdefghijklmnopqrstuvwxyz")
DIGITS = frozenset(b"0123456789")
WORD_BYTES = LETTERS | DIGITS | frozenset(b"._-/")
KEY_BYTES = LETTERS | DIGITS | frozenset(b"_")
VALUE_BYTES = frozenset(range(0x21, 0x7F)) - frozenset(b"+:%")
STRING_BYTES = frozenset(range(0x20, 0x7F)) - frozenset(b'"')
LONGEST = 255
EXPRESSION = 1000
BODY = 1 << 24


def is_name(text):
    """Whether a text is a NAME, which is a WORD too."""
    return 1 <= len(text) <= LONGEST and WORD_BYTES.issuperset(text)


def is_id(text):
    return 1 <= len(text) <= LONGEST and text[0] in LETTERS and KEY_BYTES.issuperset(text)


def read_number(text):
    """The number that a text is, below 2^64 and without leading zeros, or none."""
    if not text or len(text) > 20 or not DIGITS.issuperset(text) or (text[0] == 48 and len(text) > 1):
        return None
    number = int(text)
    return number if number < 1 << 64 else None


def escaped(text):
    """A text of which each byte that isn't printable, and each backslash, is written out."""
    return b"".join(b"\\\\" if byte == 0x5C else bytes([byte]) if 0x20 <= byte <= 0x7E else b"\\x%02x" % byte for byte in text)


def cut(text):
    """The lines of a text at LF: a last one without LF counts, an empty one after the last LF doesn't."""
    lines = text.split(b"\n")
    return lines[:-1] if lines[-1] == b"" else lines


def lines_of(text):
    """The lines of which one CR at the end is dropped."""
    return [line[:-1] if line.endswith(b"\r") else line for line in cut(text)]


def names_in(text):
    """The names of a scan output: each line that is one."""
    return [line for line in lines_of(text) if is_name(line)]


def message_lines(text):
    """The lines of a file `warnings` that count. A CR before an LF is dropped, one at the end of a last line without LF stays."""
    lines = cut(text)
    whole = len(lines) if text.endswith(b"\n") else len(lines) - 1
    lines = [line[:-1] if k < whole and line.endswith(b"\r") else line for k, line in enumerate(lines)]
    return [line[:1000] for line in lines if line][:1000]


# ---- expressions

class Bad(Exception):
    """A text that is no expression: `at` is the place of the first byte that can't go on, from 1."""

    def __init__(self, at):
        super().__init__(at)
        self.at = at


class Reading:
    def __init__(self, text):
        self.text, self.at = text, 0

    def run(self, of):
        """The longest row of bytes of a class."""
        start = self.at
        while self.at < len(self.text) and self.text[self.at] in of:
            self.at += 1
        return self.text[start:self.at]

    def word(self, of, first=None):
        """A row of 1 to 255 bytes of a class, the first of them of another class where that is said."""
        start = self.at
        if start == len(self.text) or self.text[start] not in (first or of):
            raise Bad(start + 1)
        found = self.run(of)
        if len(found) > LONGEST:
            raise Bad(start + LONGEST + 1)
        return found

    def item(self):
        mark = self.text[self.at:self.at + 1]
        if mark not in (b"+", b":", b"%"):
            raise Bad(self.at + 1)
        self.at += 1
        if mark == b"%":
            return mark, self.word(KEY_BYTES), b""
        name, value = self.word(KEY_BYTES, LETTERS), b""
        if mark == b"+" and self.text[self.at:self.at + 1] == b"=":
            self.at += 1
            value = self.run(VALUE_BYTES)
        return mark, name, value


def together(*lists):
    """Parameters put together: by their names, the values of one name in their order, and a pair that was there before is dropped."""
    pairs = list(dict.fromkeys(pair for pairs in lists for pair in pairs))
    return tuple(sorted(pairs, key=lambda pair: pair[0]))


def read_expression(text):
    """The source's name, the parameters, and the steps, each `:` or `%` with its word."""
    reading = Reading(text[:EXPRESSION])
    reading.run(b" ")
    name, params, steps = reading.word(WORD_BYTES), [], []
    reading.run(b" ")
    while reading.at < len(reading.text):
        mark, word, value = reading.item()
        if mark == b"+":
            params.append((word, value))
        else:
            steps.append((mark, word))
        reading.run(b" ")
    if len(text) > EXPRESSION:
        raise Bad(EXPRESSION + 1)
    return name, together(params), steps


def reference_lines(text):
    """The lines of a reference list that aren't passed over, each with its number and its expression, or none where it is none."""
    found = []
    for number, line in enumerate(lines_of(text), 1):
        if line and not line.startswith(b"#"):
            try:
                found.append((number, read_expression(line)))
            except Bad:
                found.append((number, None))
    return found
