"""The lines that a run prints, in words."""
import re

from .results import result_text
from .rpc import read_reply
from .xdr import Wrong

CAUSES = {
    "not-live": "it is not live", "at-end": "it has run all requests", "behind": "it is too far behind",
    "no-bytes": "no file has these bytes", "not-rebuilding": "it is not being rebuilt",
}
N, HEX = "([0-9]+)", "((?:[0-9a-f]{2})*)"
# Each form of a line, and what it says.
FORMS = [(re.compile(form + "$"), text) for form, text in (
    ("silent " + N, "the request at place {} has no answer"),
    ("stable " + N + " " + HEX, "place {} is stable with the root {}"),
    ("down " + N, "the server of replica {} failed"),
    ("fetching " + N + " " + N + " " + N, "replica {} is on its way to place {}, and has got {} items"),
    ("rebuilt " + N + " " + N + " " + N + " " + N, "replica {} is live at place {} again, after {} nodes, {} entries"),
    ("at " + N + " " + N, "replica {} has run {} requests"),
    ("at " + N + " down", "replica {} is down"),
    ("at " + N + " rebuilding", "replica {} is being rebuilt"),
)]
REPLY = re.compile("reply " + N + " " + HEX + "$")
IDLE = re.compile("idle " + N + " (" + "|".join(CAUSES) + ")$")


def reply_text(data, call, procedure):
    """The reply to a call in words: a refusal of RPC, or the result of its procedure."""
    try:
        xid, refusal, reader = read_reply(data)
        note = "" if call is None or call.xid == xid else " (of another xid, %d)" % xid
        if refusal is not None:
            return refusal + note
        if procedure is None:
            return "SUCCESS, with the result hex:%s%s" % (reader.rest().hex(), note)
        return result_text(procedure.result, reader) + note
    except Wrong as error:
        return "can't be read: %s: %s" % (data.hex(), error)


def line_text(line):
    """A line in words, or None where it is none of a run."""
    idle = IDLE.match(line)
    if idle:
        return "replica %s did nothing: %s" % (idle.group(1), CAUSES[idle.group(2)])
    for form, text in FORMS:
        found = form.match(line)
        if found:
            return text.format(*found.groups())
    return None


class Lines:
    """The lines of a run: the replies by their place, and the others in their order."""

    def __init__(self, text):
        self.replies, self.others, self.unknown = {}, [], []
        for count, line in enumerate(text.splitlines(), 1):
            found = REPLY.match(line)
            silent = re.match("silent ([0-9]+)$", line)
            if found:
                self.replies[int(found.group(1))] = bytes.fromhex(found.group(2))
            elif silent:
                self.replies[int(silent.group(1))] = None
            elif line_text(line):
                self.others.append(line)
            else:
                self.unknown.append((count, line))
