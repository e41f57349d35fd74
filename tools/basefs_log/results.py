"""The results of NFS version 2 (RFC 1094, 2.2 and 2.3) and of MOUNT version 1 (RFC 1094, A.5), in words."""
from .calls import object_of
from .tokens import bytes_text, name_text, time_text
from .xdr import Wrong

# The values of stat (RFC 1094, 2.3.1).
STATUS = {
    0: "OK", 1: "PERM", 2: "NOENT", 5: "IO", 6: "NXIO", 13: "ACCES", 17: "EXIST", 19: "NODEV", 20: "NOTDIR",
    21: "ISDIR", 27: "FBIG", 28: "NOSPC", 30: "ROFS", 63: "NAMETOOLONG", 66: "NOTEMPTY", 69: "DQUOT",
    70: "STALE", 99: "WFLUSH",
}
# The values of ftype (RFC 1094, 2.3.2).
KINDS = ("non-file", "file", "directory", "block device", "character device", "link")
ATTRIBUTES = ("type mode nlink owner group size blocksize rdev blocks fsid fileid "
              "asec amicro msec mmicro csec cmicro").split()


def handle_text(data):
    """@INDEX.GENERATION, or the bytes of what is no handle of this service."""
    found = object_of(data)
    return "@%d.%d" % found if found else "hex:" + data.hex()


def attributes_text(reader):
    """The attributes of an object. What follows from the others is left out where it is as usual."""
    value = {name: reader.word("the attribute " + name) for name in ATTRIBUTES}
    kind = KINDS[value["type"]] if value["type"] < len(KINDS) else "type %d" % value["type"]
    text = "%s mode=%04o links=%d owner=%d group=%d size=%d fileid=%d" % (
        kind, value["mode"] & 0o7777, value["nlink"], value["owner"], value["group"], value["size"], value["fileid"])
    for letter in "amc":
        text += " %stime=%s" % (letter, time_text((value[letter + "sec"], value[letter + "micro"])))
    usual = {"blocksize": 4096, "rdev": 0, "blocks": -(-value["size"] // 512), "fsid": 1}
    for name, number in usual.items():
        if value[name] != number:
            text += " %s=%d" % (name, value[name])
    bits = {1: 0o100000, 2: 0o40000, 5: 0o120000}.get(value["type"], 0)
    if value["mode"] & ~0o7777 != bits:
        text += " with the mode's word %o" % value["mode"]
    return text


def entries_text(reader):
    """The entries of a directory (RFC 1094, 2.2.17)."""
    parts = []
    while reader.bool("whether an entry follows"):
        fileid = reader.word("a fileid")
        name = reader.opaque(255, "a name")
        parts.append("%s fileid=%d cookie=%d" % (name_text(name), fileid, reader.word("a cookie")))
    parts.append("the end" if reader.bool("whether the directory ends here") else "more follow")
    return "; ".join(parts)


def space_text(reader):
    """The numbers of STATFS (RFC 1094, 2.2.18)."""
    return " ".join("%s=%d" % (name, reader.word(name)) for name in ("tsize", "bsize", "blocks", "bfree", "bavail"))


def list_text(reader, what):
    """A list of MOUNT that has no items, or the one export without groups (RFC 1094, A.5.3 and A.5.6)."""
    begun, parts = reader.at, []
    while reader.bool("whether an item follows"):
        parts.append(bytes_text(reader.opaque(1024, "a path")))
        if what == "mounts" or reader.bool("whether a group follows"):
            raise Wrong(begun, "a list of %s without hosts or groups" % what)
    return "%s: %s" % (what, " ".join(parts) or "none")


def content_text(reader):
    """Attributes and bytes of a READ."""
    return attributes_text(reader) + "; " + bytes_text(reader.opaque(8192, "bytes"))


def node_text(reader):
    """A handle and its attributes."""
    found = handle_text(reader.fixed(32, "a handle"))
    return found + " " + attributes_text(reader)


AFTER_OK = {
    "attributes": attributes_text,
    "node": node_text,
    "path": lambda reader: bytes_text(reader.opaque(1024, "a path")),
    "content": content_text,
    "status": lambda reader: "",
    "entries": entries_text,
    "space": space_text,
    "root handle": lambda reader: handle_text(reader.fixed(32, "a handle")),
}


def result_text(form, reader):
    """The result of a procedure with this form, from all that is left."""
    if form == "nothing":
        text = "done"
    elif form in ("mounts", "exports"):
        text = list_text(reader, form)
    else:
        status = reader.word("a status")
        text = STATUS.get(status, "status %d" % status)
        if status == 0:
            text = ("OK " + AFTER_OK[form](reader)).strip()
    reader.end("the result")
    return text
