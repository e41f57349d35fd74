"""Calls and replies of ONC RPC version 2 (RFC 5531, 8.2, 9, and appendix A)."""
from collections import namedtuple

from .calls import BY_NUMBER, VERSIONS
from .xdr import Reader, Wrong, opaque, words

AUTH_NONE, AUTH_SYS = 0, 1
MOST_AUTH, MOST_GROUPS, MOST_MACHINE = 400, 16, 255

# A call: `credential` and `verifier` are a flavor and its body.
Call = namedtuple("Call", "xid rpcvers prog vers proc credential verifier arguments")
# The body of AUTH_SYS.
Caller = namedtuple("Caller", "stamp machine uid gid gids")

NOBODY = (AUTH_NONE, b"")
ACCEPT = {1: "PROG_UNAVAIL", 2: "PROG_MISMATCH", 3: "PROC_UNAVAIL", 4: "GARBAGE_ARGS", 5: "SYSTEM_ERR"}
AUTH = {1: "AUTH_BADCRED", 2: "AUTH_REJECTEDCRED", 3: "AUTH_BADVERF", 4: "AUTH_REJECTEDVERF", 5: "AUTH_TOOWEAK"}


def call_bytes(call):
    """The bytes of a call (RFC 5531, 9)."""
    head = words(call.xid, 0, call.rpcvers, call.prog, call.vers, call.proc)
    auths = [words(flavor) + opaque(body) for flavor, body in (call.credential, call.verifier)]
    return head + auths[0] + auths[1] + call.arguments


def read_auth(reader, what):
    """A flavor and its body."""
    return reader.word(what), reader.opaque(MOST_AUTH, what)


def read_call(data):
    """The header of a call and its arguments. A message without one raises Wrong, and gets no answer."""
    reader = Reader(data)
    xid = reader.word("an xid")
    begun = reader.at
    if reader.word("the word 0 of a call") != 0:
        raise Wrong(begun, "the word 0 of a call")
    numbers = [reader.word(what) for what in ("a version of RPC", "a program", "its version", "a procedure")]
    return Call(xid, *numbers, read_auth(reader, "a credential"), read_auth(reader, "a verifier"), reader.rest())


def caller_body(caller):
    """The body of AUTH_SYS (RFC 5531, appendix A)."""
    head = words(caller.stamp) + opaque(caller.machine) + words(caller.uid, caller.gid)
    return head + words(len(caller.gids), *caller.gids)


def read_caller(body):
    """The caller that a body of AUTH_SYS names."""
    reader = Reader(body)
    stamp, machine = reader.word("a stamp"), reader.opaque(MOST_MACHINE, "a machine name")
    uid, gid, begun, count = reader.word("a uid"), reader.word("a gid"), reader.at, reader.word("a count of groups")
    if count > MOST_GROUPS:
        raise Wrong(begun, "at most %d groups" % MOST_GROUPS)
    gids = tuple(reader.word("a group") for _ in range(count))
    reader.end("the groups")
    return Caller(stamp, machine, uid, gid, gids)


def is_known_caller(credential):
    """Whether a credential names a caller, or names none as AUTH_NONE does."""
    flavor, body = credential
    if flavor != AUTH_SYS:
        return flavor == AUTH_NONE
    try:
        read_caller(body)
    except Wrong:
        return False
    return True


def procedure_of(call):
    """The procedure that a call reaches, or None where RPC refuses it before its arguments (RFC 5531, 9)."""
    known = call.rpcvers == 2 and VERSIONS.get(call.prog) == call.vers and is_known_caller(call.credential)
    return BY_NUMBER.get((call.prog, call.proc)) if known else None


def denial(reader):
    """Why a call was denied, in words."""
    begun, stat = reader.at, reader.word("RPC_MISMATCH (0) or AUTH_ERROR (1)")
    if stat == 0:
        low, high = reader.word("the lowest version"), reader.word("the highest version")
        return "denied: RPC_MISMATCH, versions %d to %d of RPC are known" % (low, high)
    if stat == 1:
        why = reader.word("why the credential was refused")
        return "denied: AUTH_ERROR, %s" % AUTH.get(why, "number %d" % why)
    raise Wrong(begun, "RPC_MISMATCH (0) or AUTH_ERROR (1)")


def acceptance(reader):
    """None where a call was done and its result follows, else the refusal in words."""
    begun, stat = reader.at, reader.word("SUCCESS (0) or a refusal (1 to 5)")
    if stat == 0:
        return None
    if stat == 2:
        low, high = reader.word("the lowest version"), reader.word("the highest version")
        return "PROG_MISMATCH, versions %d to %d are served" % (low, high)
    if stat in ACCEPT:
        return ACCEPT[stat]
    raise Wrong(begun, "SUCCESS (0) or a refusal (1 to 5)")


def read_reply(data):
    """The xid of a reply, and None with the reader at its result, or the refusal in words."""
    reader = Reader(data)
    xid = reader.word("an xid")
    if reader.word("the word 1 of a reply") != 1:
        raise Wrong(4, "the word 1 of a reply")
    begun, stat = reader.at, reader.word("MSG_ACCEPTED (0) or MSG_DENIED (1)")
    if stat > 1:
        raise Wrong(begun, "MSG_ACCEPTED (0) or MSG_DENIED (1)")
    if stat == 0:
        read_auth(reader, "a verifier")
    refusal = denial(reader) if stat == 1 else acceptance(reader)
    if refusal is not None:
        reader.end("a refusal")
    return xid, refusal, reader
