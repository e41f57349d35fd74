"""From a log to words: each record as a line that the other way reads again, and each reply beside its request."""
from . import records
from .calls import BY_NUMBER, UNTOUCHED, object_of, read_arguments
from .compose import SET_OPTIONS, Composer, apply_call
from .lines import line_text, reply_text
from .rpc import AUTH_NONE, AUTH_SYS, procedure_of, read_call, read_caller
from .tokens import bytes_text, name_text, time_text
from .xdr import Reader, Wrong

class Explainer:
    """Says what the records of a log are, one after the other."""

    def __init__(self, header):
        self.composer = Composer()
        self.composer.start(header)
        self.tree, self.rules = self.composer.tree, self.composer.rules

    def record(self, kind, values):
        """A record as a line of text."""
        word, fields = records.KINDS[kind]
        if kind == records.REQUEST:
            return self.request(*values)
        if kind == records.ROGUE:
            return self.said("rogue %d " % values[0], values[2], ["time=" + time_text(values[1])], kind, values)
        parts = [self.value(what, form, value) for (what, form), value in zip(fields, values)]
        return " ".join([word] + parts)

    def request(self, client, time, data):
        """A request as a line of text."""
        last = self.rules.last
        options = [] if time == (last[0] + 1 if last else 1, 0) else ["time=" + time_text(time)]
        if client:
            options.append("client=%d" % client)
        return self.said("", data, options, records.REQUEST, [client, time, data])

    def value(self, what, form, value):
        """A field of a record as a word."""
        if form == "reply":
            return "silent" if value is None else bytes_text(value)
        if form == "digest":
            return "hex:" + value.hex()
        return bytes_text(value) if form == "opaque" else ("@%d" if what == "an index" else "%d") % value

    def said(self, before, data, options, kind, values):
        """A call in words where these are read as the same bytes, else its bytes below a comment on them."""
        raw = " ".join(["%srequest hex:%s" % (before, data.hex())] + options)
        try:
            call = read_call(data)
        except Wrong as error:
            return "# no header of a call: %s\n%s" % (error, raw)
        try:
            text = before + self.call_text(call, options, kind)
        except Wrong as error:
            return "# %s, but its arguments or its caller %s\n%s" % (self.name_of(call), error, raw)
        if self.composer.record_of(text) == (kind, list(values)):
            return text
        return "# nearly %s\n%s" % (text, raw)

    def name_of(self, call):
        """What a call asks for, as a word or as numbers."""
        procedure = BY_NUMBER.get((call.prog, call.proc))
        return procedure.word if procedure else "procedure %d of program %d" % (call.proc, call.prog)

    def call_text(self, call, options, kind):
        """A call in words: its procedure, its arguments, and options where something is not as usual."""
        procedure = procedure_of(call._replace(rpcvers=2, credential=(AUTH_NONE, b"")))
        if procedure is None:
            return self.odd_call(call, options, kind)
        parts = [procedure.word]
        given = dict(zip(SET_OPTIONS, UNTOUCHED))
        for field, value in zip(procedure.fields, read_arguments(procedure, call.arguments)):
            if field.kind == "attributes":
                given = value._asdict()
            elif field.kind != "ignored":
                parts.append(self.argument(field, value))
        parts += [key + "=" + self.attribute(key, given[key]) for key in SET_OPTIONS if given[key] is not None]
        return " ".join(parts + self.rpc_options(call, kind) + options)

    def odd_call(self, call, options, kind):
        """A call without arguments that reaches no procedure."""
        numbers = ["%s=%d" % (key, getattr(call, key)) for key, usual in
                   (("prog", 100003), ("vers", 2), ("proc", 0)) if getattr(call, key) != usual]
        return " ".join(["null"] + numbers + self.rpc_options(call, kind) + options)

    def rpc_options(self, call, kind):
        """The options of RPC that are not as usual, and the caller."""
        xid = self.rules.requests + (1 if kind == records.REQUEST else 0)
        options = ["xid=%d" % call.xid] if call.xid != xid else []
        if call.rpcvers != 2:
            options.append("rpcvers=%d" % call.rpcvers)
        flavor, body = call.credential
        if flavor not in (AUTH_NONE, AUTH_SYS):
            options.append("flavor=%d" % flavor)
        if flavor == AUTH_SYS:
            caller = read_caller(body)
            options += ["uid=%d" % caller.uid, "gid=%d" % caller.gid]
            options += ["gids=" + ",".join(map(str, caller.gids))] if caller.gids else []
            options += ["machine=" + bytes_text(caller.machine)] if caller.machine else []
            options += ["stamp=%d" % caller.stamp] if caller.stamp else []
        return options

    def argument(self, field, value):
        """An argument as a word."""
        if field.kind == "object":
            return self.object_text(value)
        if field.kind == "name":
            return name_text(value)
        return bytes_text(value) if isinstance(value, bytes) else "%d" % value

    def object_text(self, handle):
        """An object as its path where it has one now, else as index and generation."""
        path = self.tree.path_of(handle)
        if path is not None:
            return name_text(path)
        found = object_of(handle)
        return "@%d.%d" % found if found else "hex:" + handle.hex()

    def attribute(self, key, value):
        """An attribute to set as a word."""
        if key == "mode":
            return "%04o" % value
        if key in ("atime", "mtime"):
            return "now" if value == (0, records.MILLION) else time_text(value)
        return "%d" % value

    def step(self, kind, values):
        """What is wrong with a record behind those before it, or None; then its names are known."""
        problem = self.rules.problem(kind, values)
        if not problem and kind == records.REQUEST:
            apply_call(self.tree, values[2])
        return problem


def answer_of(data, lines, place):
    """What was answered to a request, as a comment, or nothing where no line tells."""
    if place not in lines.replies:
        return []
    reply = lines.replies[place]
    if reply is None:
        return ["    # silent %d: no answer" % place]
    try:
        call = read_call(data)
        procedure = procedure_of(call)
    except Wrong:
        call = procedure = None
    return ["    # reply %d: %s" % (place, reply_text(reply, call, procedure))]


def explained(data, lines):
    """The lines of a text for a log, with what a run has printed; and what is wrong with the log, or None."""
    reader = Reader(data)
    try:
        header = records.read_header(reader)
    except Wrong as error:
        return [], error
    explainer = Explainer(header)
    texts = ["log f=%d N=%d K=%d T=%d" % header]
    wrong = None
    while not explainer.rules.ended and wrong is None:
        begun = reader.at
        try:
            kind, values = records.read_record(reader, header)
            text = explainer.record(kind, values)
            problem = explainer.step(kind, values)
            wrong = Wrong(begun, problem) if problem else None
        except Wrong as error:
            wrong = error
        if wrong is None:
            texts.append(text)
            if kind == records.REQUEST:
                texts += answer_of(values[2], lines, explainer.rules.requests)
    if wrong is None and reader.at != len(data):
        wrong = Wrong(reader.at, "nothing behind the end")
    texts += ["# %s: %s" % (line, line_text(line)) for line in lines.others]
    texts += ["# line %d is none of a run: %s" % pair for pair in lines.unknown]
    return texts, wrong
