"""The header and the records of a log: their fields, bounds and bytes."""
from collections import namedtuple

from .xdr import Wrong, opaque, words

MAGIC = b"BASELOG1"
MOST_CALL = 65536
MOST_REQUESTS = 1000000
MOST_RECORDS = 16777216
SERVERS = 10
MILLION = 1000000

Header = namedtuple("Header", "f entries interval space")
DEFAULT = Header(0, 256, 1024, 16777216)

# Each kind of record by its number: its word in texts, and its fields with their kinds.
REPLICA = ("a replica", "replica")
TIME = ("a time", "time")
CALL = ("the bytes of a call", "opaque")
BYTES = ("bytes", "opaque")
PLACE = ("a place", "word")
KINDS = {
    1: ("request", (("a client", "word"), TIME, CALL)),
    2: ("run", (REPLICA,)),
    3: ("run", ()),
    4: ("reboot", (REPLICA,)),
    5: ("fetch", (REPLICA, ("a number of items", "some"))),
    6: ("rogue", (REPLICA, TIME, CALL)),
    7: ("skip", (REPLICA,)),
    8: ("scratch", (REPLICA, ("an index", "word"), ("an offset", "word"), BYTES)),
    9: ("lie-reply", (REPLICA, PLACE, ("bytes, or silent", "reply"))),
    10: ("lie-root", (REPLICA, PLACE, ("32 bytes of a root", "digest"))),
    11: ("lie-item", (REPLICA, ("a level", "word"), ("a number", "word"), BYTES)),
    12: ("wipe", (REPLICA,)),
    13: ("swap", (REPLICA, ("a spare server", "spare"))),
    14: ("end", ()),
}
REQUEST, ROGUE, RUN, RUN_ALL, END = 1, 6, 2, 3, 14


def header_problem(header):
    """Which number of a header is out of its bounds: the field and what it may be, or None."""
    if header.f > 2:
        return "f", "f, 0 to 2"
    if header.entries not in (16, 256, 4096):
        return "N", "N, 16, 256 or 4096"
    if not 1 <= header.interval <= 1024:
        return "K", "K, 1 to 1024"
    if not 512 <= header.space <= 16777216:
        return "T", "T, 512 to 16777216"
    return None


def value_problem(header, kind, value):
    """What a field's value should be where it is out of its bounds, or None."""
    replicas = 3 * header.f + 1
    if kind == "replica" and value >= replicas:
        return "a replica, 0 to %d" % (replicas - 1)
    if kind == "some" and value < 1:
        return "at least 1"
    if kind == "spare" and not replicas <= value < SERVERS:
        return "a spare server, %d to %d" % (replicas, SERVERS - 1)
    if kind == "time" and value[1] >= MILLION:
        return "a time with fewer than 1000000 microseconds"
    if kind in ("opaque", "reply") and value is not None and len(value) > MOST_CALL:
        return "at most %d bytes" % MOST_CALL
    if kind == "digest" and len(value) != 32:
        return "32 bytes"
    return None


def header_bytes(header):
    """Eight letters and four words."""
    return MAGIC + words(*header)


def read_header(reader):
    """The header at the front of a log."""
    if reader.fixed(8, "the letters BASELOG1") != MAGIC:
        raise Wrong(0, "the letters BASELOG1")
    header = Header(*[reader.word(name) for name in "fNKT"])
    problem = header_problem(header)
    if problem:
        raise Wrong(8 + 4 * "fNKT".index(problem[0]), problem[1])
    return header


def field_bytes(kind, value):
    """The bytes of one field."""
    if kind == "time":
        return words(*value)
    if kind == "opaque":
        return opaque(value)
    if kind == "reply":
        return words(0) if value is None else words(1) + opaque(value)
    return value if kind == "digest" else words(value)


def record_bytes(number, values):
    """The bytes of a record: its kind, and a value for each of its fields."""
    fields = KINDS[number][1]
    return words(number) + b"".join(field_bytes(kind, value) for (_, kind), value in zip(fields, values))


def read_value(reader, what, kind):
    """The value of one field."""
    if kind == "time":
        return reader.word(what + ": seconds"), reader.word(what + ": microseconds")
    if kind == "opaque":
        return reader.opaque(MOST_CALL, what)
    if kind == "reply":
        return reader.opaque(MOST_CALL, what) if reader.bool("whether there is a reply") else None
    return reader.fixed(32, what) if kind == "digest" else reader.word(what)


def read_record(reader, header):
    """The kind of the next record, and the values of its fields."""
    begun, number = reader.at, reader.word("a record, or the record End")
    if number not in KINDS:
        raise Wrong(begun, "the kind of a record, 1 to 14")
    values = []
    for what, kind in KINDS[number][1]:
        begun = reader.at
        values.append(read_value(reader, what, kind))
        problem = value_problem(header, kind, values[-1])
        if problem:
            raise Wrong(begun, problem)
    return number, values


class Rules:
    """What holds over all records of a log: times never fall, there are only so many, and End is the last."""

    def __init__(self):
        self.requests = self.records = 0
        self.last = None
        self.ended = False

    def problem(self, number, values):
        """What is wrong with this record behind those before it, or None. It counts the record where it is right."""
        if self.ended:
            return "nothing behind the end"
        if self.records == MOST_RECORDS:
            return "at most %d records" % MOST_RECORDS
        if number == REQUEST:
            if self.last is not None and values[1] < self.last:
                return "a time that is not before that of the last request"
            if self.requests == MOST_REQUESTS:
                return "at most %d requests" % MOST_REQUESTS
            self.requests, self.last = self.requests + 1, values[1]
        self.records, self.ended = self.records + 1, number == END
        return None
