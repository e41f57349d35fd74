"""What the service answers to the requests of the benchmarks, and the digests of its array.

It knows what these calls do and answer by RFC 1094 and docs/DECISIONS.md, how the text of an entry and of a node of the
digest tree is spelled (docs/DEFINITIONS.md, abs_text), and nothing of the program. All objects are nobody's.
"""
import hashlib
import struct

FILE, DIRECTORY, LINK = (1, 0o644), (2, 0o755), (5, 0o777)
TYPES = {1: 0o100000, 2: 0o040000, 5: 0o120000}
NOBODY = 65534


def words(*values):
    return struct.pack(">%dI" % len(values), *values)


def opaque(data):
    return words(len(data)) + data + bytes(-len(data) % 4)


def handle(index, generation=1):
    return words(0x42415345, index, generation) + bytes(20)


class Object:
    """A file, a directory or a link: its kind, its mode and owners, the seconds of its times, and what it holds."""

    def __init__(self, kind, second, owner=NOBODY):
        self.kind, self.mode = kind
        self.owner = owner
        self.atime = self.mtime = self.ctime = second
        self.bytes = b""
        # Of a directory: where each name leads, as an index.
        self.names = {}

    def changed(self, second):
        self.mtime = self.ctime = second

    def attributes(self, index, links):
        """Its fattr (RFC 1094, 2.3.5). A directory counts as one block of 512 bytes for each 16 names, of one at least."""
        size = 512 if self.kind == 2 else len(self.bytes)
        mode = TYPES[self.kind] | self.mode
        return words(self.kind, mode, links, self.owner, self.owner, size, 4096, 0, -(-size // 512), 1, index + 1,
                     self.atime, 0, self.mtime, 0, self.ctime, 0)


class Array:
    """The entries of the service, each with its generation and its object, and the digests of their texts."""

    def __init__(self, size):
        self.generations = [0] * size
        self.objects = [None] * size
        self.generations[0] = 1
        self.objects[0] = Object((2, 0o777), 0, 0)
        # The digests of the entries, and of the nodes of each level above.
        self.levels = [[self.entry_digest(i) for i in range(size)]]
        while len(self.levels[-1]) > 1:
            below = self.levels[-1]
            level = len(self.levels)
            self.levels.append([node_digest(level, k, below[16 * k:16 * k + 16]) for k in range(len(below) // 16)])
        self.told = set()

    def make(self, index, kind, second):
        self.generations[index] += 1
        self.objects[index] = Object(kind, second)
        self.told.add(index)
        return self.objects[index]

    def free(self, index):
        self.objects[index] = None
        self.told.add(index)

    def text(self, index):
        head = words(0, index, self.generations[index])
        item = self.objects[index]
        if item is None:
            return head + words(0)
        head += words(item.kind, item.mode, item.owner, item.owner, item.atime, 0, item.mtime, 0, item.ctime, 0)
        if item.kind != 2:
            return head + opaque(item.bytes)
        rows = (opaque(name) + words(at, self.generations[at]) for name, at in sorted(item.names.items()))
        return head + words(len(item.names)) + b"".join(rows)

    def entry_digest(self, index):
        return hashlib.sha256(self.text(index)).digest()

    def root(self):
        """The digest of the top node, in which only what was told since is worked out anew."""
        touched = self.told
        for index in touched:
            self.levels[0][index] = self.entry_digest(index)
        for level in range(1, len(self.levels)):
            touched = {index // 16 for index in touched}
            below = self.levels[level - 1]
            for k in touched:
                self.levels[level][k] = node_digest(level, k, below[16 * k:16 * k + 16])
        self.told = set()
        return self.levels[-1][0]


def node_digest(level, number, digests):
    return hashlib.sha256(words(1, level, number) + b"".join(digests)).digest()
