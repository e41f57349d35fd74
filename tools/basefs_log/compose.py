"""From words to a log: each line of a text is a header, a call or another record."""
from . import records
from .calls import BY_WORD, UNTOUCHED, VERSIONS, argument_bytes, handle, read_arguments
from .records import DEFAULT, Header, header_bytes, record_bytes
from .rpc import AUTH_SYS, NOBODY, Call, Caller, call_bytes, caller_body, procedure_of, read_call
from .tokens import Unreadable, Words, moment, number
from .tree import Tree
from .xdr import Wrong

REQUEST_OPTIONS = ("time", "client")
CALLER_OPTIONS = ("uid", "gid", "gids", "machine", "stamp")
RPC_OPTIONS = ("xid", "rpcvers", "prog", "vers", "proc", "flavor")
SET_OPTIONS = ("mode", "owner", "group", "size", "atime", "mtime")
DEFAULT_OPTIONS = CALLER_OPTIONS + ("client",)
RECORD_WORDS = {name: kind for kind, (name, _) in records.KINDS.items() if name not in ("request", "run", "rogue")}
VERBS = "a call (as mkdir, write or getattr) or a record (as run, reboot or end)"


def apply_call(tree, data):
    """What the bytes of a call change among the names: nothing where RPC refuses it."""
    try:
        call = read_call(data)
        procedure = procedure_of(call)
        if procedure:
            tree.apply(procedure.word, read_arguments(procedure, call.arguments))
    except Wrong:
        pass


class Composer:
    """Makes a log of lines of text, one after the other."""

    def __init__(self):
        self.out = bytearray()
        self.header = None
        self.tree = None
        self.rules = records.Rules()
        self.defaults = {}

    def line(self, text):
        """One line: nothing, the header, defaults, or a record."""
        words = Words(text)
        if not words.more() and not words.options:
            return
        verb = words.take(VERBS)
        if verb.data == b"log":
            return self.begin(verb, words)
        if self.header is None:
            self.start(DEFAULT)
        if verb.data == b"default":
            return self.set_defaults(words)
        self.append(verb, *self.record(verb, words))

    def record_of(self, text):
        """The kind and the values of the record that a line says, or None where it is none. Nothing is appended."""
        try:
            words = Words(text)
            return self.record(words.take(VERBS), words)
        except Unreadable:
            return None

    def text(self):
        """The whole log. An End is put where the text has none."""
        if self.header is None:
            self.start(DEFAULT)
        if not self.rules.ended:
            self.out += record_bytes(records.END, ())
        return bytes(self.out)

    def append(self, verb, kind, values):
        """A record more, where the log may have it."""
        problem = self.rules.problem(kind, values)
        if problem:
            raise Unreadable(verb.column, problem, verb.text)
        self.out += record_bytes(kind, values)
        if kind == records.REQUEST:
            apply_call(self.tree, values[2])

    # The header and the defaults.

    def begin(self, verb, words):
        """The line `log`, which is the first."""
        if self.header is not None:
            raise Unreadable(verb.column, "the line log once, before all others", verb.text)
        names = dict(zip(("f", "N", "K", "T"), DEFAULT._fields))
        given = {name: words.option(name) for name in names}
        words.finish(tuple(names))
        numbers = {names[name]: number(token, "a number") for name, token in given.items() if token}
        header = DEFAULT._replace(**numbers)
        problem = records.header_problem(header)
        if problem:
            raise Unreadable(given[problem[0]].column, problem[1], given[problem[0]].text)
        self.start(header)

    def start(self, header):
        """The log has this header."""
        self.header = Header(*header)
        self.tree = Tree(header.entries, header.space)
        self.out += header_bytes(header)

    def set_defaults(self, words):
        """Options for all calls below."""
        given = {key: words.option(key) for key in DEFAULT_OPTIONS}
        words.finish(DEFAULT_OPTIONS)
        self.defaults.update({key: token for key, token in given.items() if token})
        self.credential(Words(""))
        self.number_of(Words(""), "client", 0)

    def option(self, words, key):
        """An option of this line, or its default, or None."""
        return words.option(key) or self.defaults.get(key)

    def number_of(self, words, key, usual):
        """The number of an option."""
        token = self.option(words, key)
        return usual if token is None else number(token, "a number behind %s=" % key)

    # Records.

    def record(self, verb, words):
        """The kind and the values of the record that the words of a line say."""
        word = verb.data.decode("latin-1")
        if word == "run":
            kind = records.RUN if words.more() else records.RUN_ALL
            return self.plain_record(kind, words)
        if word == "rogue":
            replica = self.value(words, *records.REPLICA)
            inner = words.take("the call that the replica runs in place of its request")
            at = self.time_of(words, self.rules.last or (0, 0))
            return records.ROGUE, [replica, at, self.call(inner, words, 0)]
        if word in RECORD_WORDS:
            return self.plain_record(RECORD_WORDS[word], words)
        client = self.number_of(words, "client", 0)
        last = self.rules.last
        at = self.time_of(words, (last[0] + 1 if last else 1, 0))
        return records.REQUEST, [client, at, self.call(verb, words, 1)]

    def plain_record(self, kind, words):
        """A record whose fields are words of the line, in their order."""
        values = [self.value(words, *field) for field in records.KINDS[kind][1]]
        words.finish()
        return kind, values

    def value(self, words, what, kind):
        """A field of a record, within its bounds."""
        token = words.take(what)
        if kind == "reply" and token.bare and token.data == b"silent":
            value = None
        elif kind in ("opaque", "digest", "reply"):
            value = token.data
        elif what == "an index":
            value = self.index_of(token)
        else:
            value = number(token, what)
        problem = records.value_problem(self.header, kind, value)
        if problem:
            raise Unreadable(token.column, problem, token.text)
        return value

    def index_of(self, token):
        """The index of an entry: @INDEX, or that of an object."""
        text = token.data.decode("latin-1")
        if token.bare and text.startswith("@") and "." not in text:
            return number(token._replace(data=token.data[1:]), "an index behind @")
        return int.from_bytes(self.object_of(token, "an object, or @INDEX")[4:8], "big")

    def time_of(self, words, usual):
        """The time of a record."""
        token = words.option("time")
        value = moment(token) if token else usual
        problem = records.value_problem(self.header, "time", value)
        if problem:
            raise Unreadable(token.column, problem, token.text)
        return value

    # Calls.

    def call(self, verb, words, more):
        """The bytes of the call that a line says. Its xid is the number of the request, unless it is given."""
        word = verb.data.decode("latin-1")
        if word == "request":
            token = words.take("the bytes of a call")
            words.finish(REQUEST_OPTIONS)
            return self.within(token, token.data)
        procedure = BY_WORD.get(word)
        if procedure is None:
            raise Unreadable(verb.column, VERBS, verb.text)
        values = [self.argument(words, field) for field in procedure.fields]
        usual = (self.rules.requests + more, 2, procedure.program, VERSIONS[procedure.program], procedure.number)
        numbers = [self.number_of(words, key, value) for key, value in zip(RPC_OPTIONS, usual)]
        credential = self.credential(words)
        known = REQUEST_OPTIONS + CALLER_OPTIONS + RPC_OPTIONS
        words.finish(known + (SET_OPTIONS if UNTOUCHED in values else ()))
        return self.within(verb, call_bytes(Call(*numbers, credential, NOBODY, argument_bytes(procedure, values))))

    def within(self, token, data):
        """The bytes of a call, if they are not too many."""
        problem = records.value_problem(self.header, "opaque", data)
        if problem:
            raise Unreadable(token.column, problem + " in a call", token.text)
        return data

    def credential(self, words):
        """AUTH_SYS where the line or a default names a caller, else AUTH_NONE."""
        flavor = words.option("flavor")
        if flavor:
            return number(flavor, "a number behind flavor="), b""
        given = {key: self.option(words, key) for key in CALLER_OPTIONS}
        if not any(given.values()):
            return NOBODY
        numbers = {key: number(given[key], "a number behind %s=" % key) if given[key] else 0
                   for key in ("stamp", "uid", "gid")}
        machine = given["machine"].data if given["machine"] else b""
        if len(machine) > 255:
            raise Unreadable(given["machine"].column, "a machine name of at most 255 bytes", given["machine"].text)
        caller = Caller(numbers["stamp"], machine, numbers["uid"], numbers["gid"], self.groups(given["gids"]))
        return AUTH_SYS, caller_body(caller)

    def groups(self, token):
        """The groups of a caller, written with commas."""
        parts = token.data.split(b",") if token and token.data else []
        if len(parts) > 16:
            raise Unreadable(token.column, "at most 16 groups", token.text)
        return [number(token._replace(data=part), "numbers of groups, with commas between them") for part in parts]

    def argument(self, words, field):
        """The value of a field of the arguments."""
        if field.kind == "ignored":
            return 0
        if field.kind == "attributes":
            return self.attributes(words)
        if field.default is not None and not words.more():
            return field.default
        token = words.take(field.name)
        if field.kind == "object":
            return self.object_of(token, field.name)
        return number(token, field.name) if field.kind == "number" else token.data

    def attributes(self, words):
        """The attributes that a line sets; the others are left alone."""
        given = {key: words.option(key) for key in SET_OPTIONS}
        values = {key: number(token, "a number behind %s=" % key) for key, token in given.items()
                  if token and key in ("owner", "group", "size")}
        if given["mode"]:
            values["mode"] = number(given["mode"], "a mode in octal digits", base=8)
        for key in ("atime", "mtime"):
            if given[key]:
                now = given[key].data == b"now"
                expected = "now, SECONDS or SECONDS+MICROSECONDS"
                values[key] = (0, records.MILLION) if now else moment(given[key], expected)
        return UNTOUCHED._replace(**values)

    def object_of(self, token, expected):
        """The handle of an object: of a path that the requests above have made, @INDEX.GENERATION, or 32 bytes."""
        if token.bare and token.data.startswith(b"@"):
            parts = token.data[1:].split(b".")
            if len(parts) != 2:
                raise Unreadable(token.column, "@INDEX.GENERATION", token.text)
            return handle(*[number(token._replace(data=part), "@INDEX.GENERATION") for part in parts])
        if token.text.startswith("hex:") and len(token.data) == 32:
            return token.data
        found = self.tree.at_path(token.data)
        if found is None:
            raise Unreadable(token.column, expected + " that the lines above have made", token.text)
        return handle(*found)


def write_log(text, name):
    """The log that a text says. A line that can't be read ends it with its place and what was expected."""
    composer = Composer()
    for count, line in enumerate(text.split("\n"), 1):
        try:
            composer.line(line.rstrip("\r"))
        except Unreadable as error:
            found = ", not %s" % error.found.strip() if error.found.strip() else ""
            raise SystemExit("%s:%d:%d: expected %s%s" % (name, count, error.column, error.expected, found)) from None
    return composer.text()
