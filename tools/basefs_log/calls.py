"""The procedures of NFS version 2 (RFC 1094, 2.2) and of MOUNT version 1 (RFC 1094, A.5): names and arguments."""
from collections import namedtuple

from .xdr import ALL_ONES, Reader, opaque, words

NFS, MOUNT = 100003, 100005
VERSIONS = {NFS: 2, MOUNT: 1}

# A field of the arguments: its name in messages, its kind, and what it is where the text leaves it out.
Field = namedtuple("Field", "name kind default")
# A procedure: its word in texts, its program and number, its fields, and the form of its result.
Procedure = namedtuple("Procedure", "word program number fields result")

OBJECT = Field("an object (a path such as /b/a, or @INDEX.GENERATION)", "object", None)
DIRECTORY = Field("a directory (a path such as /b, or @INDEX.GENERATION)", "object", None)
NAME = Field("a name", "name", None)
PATH = Field("a path", "path", None)
TEXT = Field("the text of the link", "path", None)
DATA = Field('bytes (as "hello", hex:68656c6c6f or "x"*1024)', "data", None)
OFFSET = Field("an offset", "number", 0)
COUNT = Field("a count of bytes", "number", 8192)
LIST_COUNT = Field("a count of bytes", "number", 4096)
COOKIE = Field("a cookie", "number", 0)
WRITE_OFFSET = Field("an offset", "number", None)
IGNORED = Field("a word that is ignored", "ignored", 0)
ATTRIBUTES = Field("attributes", "attributes", None)

# The longest spelling of each kind of opaque.
MOST = {"name": 255, "path": 1024, "data": 8192}

# Each procedure by its number: its word, its fields, and the form of its result.
NFS_TABLE = (
    ("null", (), "nothing"),
    ("getattr", (OBJECT,), "attributes"),
    ("setattr", (OBJECT, ATTRIBUTES), "attributes"),
    ("root", (), "nothing"),
    ("lookup", (DIRECTORY, NAME), "node"),
    ("readlink", (OBJECT,), "path"),
    ("read", (OBJECT, OFFSET, COUNT, IGNORED), "content"),
    ("writecache", (), "nothing"),
    ("write", (OBJECT, IGNORED, WRITE_OFFSET, IGNORED, DATA), "attributes"),
    ("create", (DIRECTORY, NAME, ATTRIBUTES), "node"),
    ("remove", (DIRECTORY, NAME), "status"),
    ("rename", (DIRECTORY, NAME, DIRECTORY, NAME), "status"),
    ("link", (OBJECT, DIRECTORY, NAME), "status"),
    ("symlink", (DIRECTORY, NAME, TEXT, ATTRIBUTES), "status"),
    ("mkdir", (DIRECTORY, NAME, ATTRIBUTES), "node"),
    ("rmdir", (DIRECTORY, NAME), "status"),
    ("readdir", (DIRECTORY, COOKIE, LIST_COUNT), "entries"),
    ("statfs", (OBJECT,), "space"),
)
MOUNT_TABLE = (
    ("mount-null", (), "nothing"),
    ("mnt", (PATH,), "root handle"),
    ("dump", (), "mounts"),
    ("umnt", (PATH,), "nothing"),
    ("umntall", (), "nothing"),
    ("export", (), "exports"),
)

BY_NUMBER = {
    (program, number): Procedure(word, program, number, fields, result)
    for program, table in ((NFS, NFS_TABLE), (MOUNT, MOUNT_TABLE))
    for number, (word, fields, result) in enumerate(table)
}
BY_WORD = {procedure.word: procedure for procedure in BY_NUMBER.values()}

# The attributes that a call can set (RFC 1094, 2.3.6), in their order; None leaves one alone.
Attributes = namedtuple("Attributes", "mode owner group size atime mtime")
UNTOUCHED = Attributes(None, None, None, None, None, None)


def handle(index, generation):
    """The handle of an object: the letters BASE, its index, its generation, and twenty zero bytes."""
    return b"BASE" + words(index, generation) + bytes(20)


def object_of(data):
    """The index and the generation that a handle spells, or None."""
    reader = Reader(data)
    if reader.fixed(4, "BASE") != b"BASE" or any(data[12:]):
        return None
    return reader.word("an index"), reader.word("a generation")


def attribute_words(attributes):
    """The eight words of attributes to set (RFC 1094, 2.3.6)."""
    numbers = [ALL_ONES if value is None else value for value in attributes[:4]]
    times = [(ALL_ONES, ALL_ONES) if value is None else value for value in attributes[4:]]
    return words(*numbers, *times[0], *times[1])


def read_attributes(reader):
    """Attributes to set, from eight words."""
    numbers = [reader.word("an attribute") for _ in range(8)]
    plain = [None if value == ALL_ONES else value for value in numbers[:4]]
    times = [None if pair[0] == ALL_ONES else tuple(pair) for pair in (numbers[4:6], numbers[6:8])]
    return Attributes(*plain, *times)


def argument_bytes(procedure, values):
    """The arguments of a procedure, one value for each field."""
    parts = []
    for field, value in zip(procedure.fields, values):
        if field.kind == "object":
            parts.append(value)
        elif field.kind in MOST:
            parts.append(opaque(value))
        elif field.kind == "attributes":
            parts.append(attribute_words(value))
        else:
            parts.append(words(value))
    return b"".join(parts)


def read_field(reader, field):
    """The value of one field."""
    if field.kind == "object":
        return reader.fixed(32, "a handle of 32 bytes")
    if field.kind in MOST:
        return reader.opaque(MOST[field.kind], field.name)
    if field.kind == "attributes":
        return read_attributes(reader)
    return reader.word(field.name)


def read_arguments(procedure, data):
    """The value of each field, from all of the bytes."""
    reader = Reader(data)
    values = [read_field(reader, field) for field in procedure.fields]
    reader.end("the arguments")
    return values
