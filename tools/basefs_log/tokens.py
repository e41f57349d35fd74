"""The words of a line of text, and how values are written as words."""
import re
from collections import namedtuple

# A word: its column, the option that it sets or None, its bytes, and whether it stands bare (no quotes, no hex:).
Token = namedtuple("Token", "column key data bare text")

KEY = re.compile(r"([A-Za-z]+)=")
BARE = re.compile(r'[^\s"#]+')
HEX = re.compile(r"hex:((?:[0-9a-fA-F]{2})*)(?![0-9A-Za-z])")
TIMES = re.compile(r"\*([0-9]+)")
ESCAPES = {"n": b"\n", "t": b"\t", "r": b"\r", "0": b"\0", '"': b'"', "\\": b"\\"}
SHOWN = {value[0]: "\\" + letter for letter, value in ESCAPES.items()}
PLAIN = re.compile(rb"[A-Za-z0-9_.,+:/-]+")
MOST_BYTES = 65536


class Unreadable(Exception):
    """Text that can't be read: its column (from 1), what was expected, and what was found."""

    def __init__(self, column, expected, found=""):
        super().__init__(expected)
        self.column = column
        self.expected = expected
        self.found = found


def quoted(line, at):
    """The bytes of a string whose quote stands at `at`, and the place behind it."""
    data, place = bytearray(), at + 1
    while place < len(line) and line[place] != '"':
        if line[place] != "\\":
            data += line[place].encode("utf-8", "surrogateescape")
            place += 1
            continue
        letter, digits = line[place + 1:place + 2], line[place + 2:place + 4]
        if letter == "x" and re.fullmatch("[0-9a-fA-F]{2}", digits):
            data.append(int(digits, 16))
            place += 4
        elif letter in ESCAPES:
            data += ESCAPES[letter]
            place += 2
        else:
            raise Unreadable(place + 1, r'one of \n \t \r \0 \" \\ and \x with two digits', line[place:place + 2])
    if place >= len(line):
        raise Unreadable(len(line) + 1, 'a closing "')
    return bytes(data), place + 1


def value_at(line, at):
    """The bytes of the value at `at`, whether it is bare, and the place behind it."""
    found = HEX.match(line, at)
    if line.startswith('"', at):
        data, place = quoted(line, at)
    elif found:
        data, place = bytes.fromhex(found.group(1)), found.end()
    elif line.startswith("hex:", at):
        raise Unreadable(at + 1, "pairs of hexadecimal digits behind hex:", BARE.match(line, at).group())
    else:
        found = BARE.match(line, at)
        if not found:
            raise Unreadable(at + 1, "a value", line[at:at + 1])
        return found.group().encode("utf-8", "surrogateescape"), True, found.end()
    times = TIMES.match(line, place)
    if times:
        data, place = repeated(data, int(times.group(1)), place), times.end()
    return data, False, place


def repeated(data, count, place):
    """Bytes so many times, within what a request can hold."""
    if len(data) * count > MOST_BYTES:
        raise Unreadable(place + 1, "at most %d bytes" % MOST_BYTES, "%d" % (len(data) * count))
    return data * count


def tokens_of(line):
    """The words of a line. A # that begins a word begins a comment, which ends with the line."""
    tokens, at = [], 0
    while True:
        while at < len(line) and line[at].isspace():
            at += 1
        if at >= len(line) or line[at] == "#":
            return tokens
        key = KEY.match(line, at)
        begun = at
        data, bare, at = value_at(line, key.end() if key else at)
        if at < len(line) and not line[at].isspace():
            raise Unreadable(at + 1, "a blank behind a word", line[at:at + 1])
        tokens.append(Token(begun + 1, key.group(1) if key else None, data, bare, line[begun:at]))


class Words:
    """The words of one line, taken one after the other, and its options by name."""

    def __init__(self, line):
        found = tokens_of(line)
        self.plain = [token for token in found if token.key is None]
        self.options = {}
        self.end = len(line.rstrip()) + 1
        for token in found:
            if token.key in self.options:
                raise Unreadable(token.column, "the option %s once" % token.key, token.text)
            if token.key is not None:
                self.options[token.key] = token

    def take(self, expected):
        """The next word, which must be there."""
        if not self.plain:
            raise Unreadable(self.end, expected)
        return self.plain.pop(0)

    def more(self):
        """Whether a word is left."""
        return bool(self.plain)

    def option(self, key):
        """The word of an option, or None."""
        return self.options.pop(key, None)

    def finish(self, known=()):
        """Nothing is left."""
        left = sorted(self.plain + list(self.options.values()), key=lambda token: token.column)
        if left:
            expected = "the end of the line"
            if left[0].key is not None and known:
                expected = "one of the options " + " ".join(word + "=" for word in known)
            raise Unreadable(left[0].column, expected, left[0].text)


def number(token, expected, most=0xFFFFFFFF, base=10):
    """The number that a word spells, at most `most`."""
    text = token.data.decode("ascii", "replace")
    pattern = "0o?[0-7]+|[0-7]+" if base == 8 else "[0-9]+|0x[0-9a-fA-F]+"
    if not re.fullmatch(pattern, text):
        raise Unreadable(token.column, expected, token.text)
    value = int(text, 16) if text.startswith("0x") else int(text, base)
    if value > most:
        raise Unreadable(token.column, "%s, at most %d" % (expected, most), token.text)
    return value


def moment(token, expected="a time (SECONDS or SECONDS+MICROSECONDS)"):
    """The seconds and microseconds that a word spells."""
    parts = re.fullmatch(rb"([0-9]{1,10})(?:\+([0-9]{1,10}))?", token.data)
    values = tuple(int(part or 0) for part in parts.groups()) if parts else (1 << 32, 0)
    if max(values) >= 1 << 32:
        raise Unreadable(token.column, expected, token.text)
    return values


def time_text(value):
    """A time as a word."""
    return "%d+%d" % value if value[1] else "%d" % value[0]


def bytes_text(data):
    """Bytes as a word: a string where that is short, else hexadecimal digits."""
    if len(data) > 8 and data == data[:1] * len(data):
        return "%s*%d" % (bytes_text(data[:1]), len(data))
    parts = [SHOWN.get(byte) or (chr(byte) if 32 <= byte < 127 else "\\x%02x" % byte) for byte in data]
    text = '"%s"' % "".join(parts)
    return text if len(text) <= 2 * len(data) + 4 else "hex:" + data.hex()


def name_text(data):
    """A name as a word: bare where that is read as the same, else a string."""
    text = data.decode("latin-1")
    bare = PLAIN.fullmatch(data) and not text.startswith("hex:")
    return text if bare else bytes_text(data)
