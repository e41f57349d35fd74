"""Items of XDR (RFC 4506): words, opaques, and a reader that says what was expected where."""
import struct

ALL_ONES = 0xFFFFFFFF


class Wrong(Exception):
    """Bytes that are not what was expected: the byte at which the item begins, and what it should have been."""

    def __init__(self, at, expected):
        super().__init__("at byte %d: expected %s" % (at, expected))
        self.at = at
        self.expected = expected


def words(*values):
    """Numbers of four bytes each, the high byte first (RFC 4506, 4.2)."""
    return struct.pack(">%dI" % len(values), *values)


def opaque(data):
    """A length, the bytes, and zeros up to a multiple of four (RFC 4506, 4.10)."""
    return words(len(data)) + data + bytes(-len(data) % 4)


class Reader:
    """Reads items from the front of some bytes. `at` is the place of the next one."""

    def __init__(self, data, at=0):
        self.data = data
        self.at = at

    def fixed(self, count, what):
        """So many bytes, without a length."""
        if self.at + count > len(self.data):
            raise Wrong(self.at, what)
        self.at += count
        return self.data[self.at - count:self.at]

    def word(self, what):
        """A number of four bytes."""
        return struct.unpack(">I", self.fixed(4, what))[0]

    def bool(self, what):
        """A word that is 0 or 1 (RFC 4506, 4.4)."""
        begun, value = self.at, self.word(what)
        if value > 1:
            raise Wrong(begun, what + ", 0 or 1")
        return value == 1

    def opaque(self, most, what):
        """A length of at most `most`, so many bytes, and zeros up to a multiple of four."""
        begun = self.at
        count = self.word(what)
        if count > most:
            raise Wrong(begun, "%s of at most %d bytes" % (what, most))
        data = self.fixed(count, what)
        if any(self.fixed(-count % 4, what)):
            raise Wrong(begun, what + " filled up with zeros")
        return data

    def rest(self):
        """All bytes that are left."""
        data = self.data[self.at:]
        self.at = len(self.data)
        return data

    def end(self, what):
        """Nothing is left."""
        if self.at != len(self.data):
            raise Wrong(self.at, "nothing behind " + what)
