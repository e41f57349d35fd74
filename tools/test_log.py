"""Tests of tools/log. The expected bytes are those of examples/*.hex, or written by hand from RFC 1094 (NFS), RFC 5531
(RPC) and RFC 4506 (XDR); none comes from the tool."""
import os
import re
import subprocess
import sys
import unittest

HERE = os.path.dirname(os.path.abspath(__file__))
sys.dont_write_bytecode = True
sys.path.insert(0, HERE)

from basefs_log.calls import BY_WORD  # noqa: E402
from basefs_log.compose import write_log  # noqa: E402
from basefs_log.explain import explained  # noqa: E402
from basefs_log.lines import Lines, line_text, reply_text  # noqa: E402

EXAMPLES = os.path.join(os.path.dirname(HERE), "examples")
WHOLE = ("null", "make_dir", "files", "names", "refusals", "garbage", "not_built")


def example(name):
    """The text of a file of examples/."""
    with open(os.path.join(EXAMPLES, name), encoding="ascii") as file:
        return file.read()


def spelled(text):
    """The bytes of annotated hexadecimal text."""
    return bytes.fromhex("".join(re.sub("#.*", "", line) for line in text.splitlines()))


def records_of(text):
    """The bytes behind the header that a text gives, without the End."""
    log = write_log(text, "text")
    assert log.endswith(bytes.fromhex("0000000e"))
    return log[24:-4]


# A call of NULL with the xid 1: RFC 5531, 9.
NULL_CALL = "00000001 00000000 00000002 000186a3 00000002 00000000" + "00" * 16
F_1 = "log f=1 N=16 K=4 T=65536\n"
# Each kind of record, by hand.
RECORDS = (
    ("null", "00000001 00000000 00000001 00000000 00000028" + NULL_CALL),
    ("null client=7 time=5+250000", "00000001 00000007 00000005 0003d090 00000028" + NULL_CALL),
    ("request hex:0102030405 client=1", "00000001 00000001 00000001 00000000 00000005 01020304 05000000"),
    ("run 3", "00000002 00000003"),
    ("run", "00000003"),
    ("reboot 2", "00000004 00000002"),
    ("fetch 2 65536", "00000005 00000002 00010000"),
    ("rogue 1 null xid=1 time=9", "00000006 00000001 00000009 00000000 00000028" + NULL_CALL),
    ("skip 0", "00000007 00000000"),
    ('scratch 1 @2 3 "ab"', "00000008 00000001 00000002 00000003 00000002 61620000"),
    ("lie-reply 1 4 silent", "00000009 00000001 00000004 00000000"),
    ('lie-reply 1 4 "abcd"', "00000009 00000001 00000004 00000001 00000004 61626364"),
    ('lie-root 1 4 hex:' + "ab" * 32, "0000000a 00000001 00000004" + "ab" * 32),
    ('lie-item 3 1 2 ""', "0000000b 00000003 00000001 00000002 00000000"),
    ("wipe 2", "0000000c 00000002"),
    ("swap 0 4", "0000000d 00000000 00000004"),
)
# Arguments of calls, by hand (RFC 1094, 2.2 and 2.3; A.5): what stands behind the credential and the verifier.
ROOT = "42415345 00000000 00000001" + "00" * 20
KEPT = "ff" * 32
ARGUMENTS = (
    ("getattr /", 1, ROOT),
    ("setattr / mode=0750 owner=7 atime=8+9 mtime=now", 2,
     ROOT + "000001e8 00000007 ffffffff ffffffff 00000008 00000009 00000000 000f4240"),
    ("lookup / abcde", 4, ROOT + "00000005 61626364 65000000"),
    ("readlink @3.2", 5, "42415345 00000003 00000002" + "00" * 20),
    ("read /", 6, ROOT + "00000000 00002000 00000000"),
    ("write / 16 hex:00ff", 8, ROOT + "00000000 00000010 00000000 00000002 00ff0000"),
    ("create / a size=3 group=4", 9, ROOT + "00000001 61000000 ffffffff ffffffff 00000004 00000003" + "ff" * 16),
    ("remove / a", 10, ROOT + "00000001 61000000"),
    ("rename / a / b", 11, ROOT + "00000001 61000000" + ROOT + "00000001 62000000"),
    ("link @1.1 / a", 12, "42415345 00000001 00000001" + "00" * 20 + ROOT + "00000001 61000000"),
    ('symlink / l "a/b"', 13, ROOT + "00000001 6c000000 00000003 612f6200" + KEPT),
    ("mkdir / d", 14, ROOT + "00000001 64000000" + KEPT),
    ("rmdir / d", 15, ROOT + "00000001 64000000"),
    ("readdir / 2", 16, ROOT + "00000002 00001000"),
    ("statfs /", 17, ROOT),
    ("mnt /export", 1, "00000007 2f657870 6f727400"),
    ("umnt /", 3, "00000001 2f000000"),
    ("umntall", 4, ""),
)
# Results in words: RFC 1094, 2.2 and 2.3; A.5. FILE is an fattr of RFC 1094, 2.3.5.
FILE = ("00000001 000081a4 00000002 00000007 00000008 00000005 00001000 00000000 00000001 00000001 00000003"
        "00000001 00000000 00000002 00000000 00000003 00000004")
FILE_TEXT = "file mode=0644 links=2 owner=7 group=8 size=5 fileid=3 atime=1 mtime=2 ctime=3+4"
ACCEPTED = "00000001 00000001 00000000 00000000 00000000 00000000"
RESULTS = (
    ("null", "", "done"),
    ("getattr", "00000000" + FILE, "OK " + FILE_TEXT),
    ("setattr", "0000001b", "FBIG"),
    ("lookup", "00000000" + ROOT + FILE, "OK @0.1 " + FILE_TEXT),
    ("lookup", "00000002", "NOENT"),
    ("readlink", "00000000 00000002 2e2e0000", 'OK ".."'),
    ("read", "00000000" + FILE + "00000003 00410a00", "OK " + FILE_TEXT + r'; "\0A\n"'),
    ("remove", "00000000", "OK"),
    ("rmdir", "00000042", "NOTEMPTY"),
    ("readdir", "00000000 00000001 00000001 00000001 2e000000 00000001 00000000 00000000",
     "OK . fileid=1 cookie=1; more follow"),
    ("statfs", "00000000 00002000 00000200 00000080 0000007d 0000007d",
     "OK tsize=8192 bsize=512 blocks=128 bfree=125 bavail=125"),
    ("mnt", "00000000" + ROOT, "OK @0.1"),
    ("dump", "00000000", "mounts: none"),
    ("export", "00000001 00000007 2f657870 6f727400 00000000 00000000", 'exports: "/export"'),
    ("getattr", "00000000", "can't be read: " + (ACCEPTED + "00000000").replace(" ", "")
     + ": at byte 28: expected the attribute type"),
)
# Replies that refuse: RFC 5531, 9, as examples/refusals.hex has them.
REFUSALS = (
    "denied: RPC_MISMATCH, versions 2 to 2 of RPC are known", "PROG_UNAVAIL",
    "PROG_MISMATCH, versions 2 to 2 are served", "PROC_UNAVAIL", "denied: AUTH_ERROR, AUTH_BADCRED",
    "denied: RPC_MISMATCH, versions 2 to 2 of RPC are known",
)
LINES = (
    ("stable 4 " + "0a" * 32, "place 4 is stable with the root " + "0a" * 32),
    ("idle 2 behind", "replica 2 did nothing: it is too far behind"),
    ("idle 2 tired", None),
    ("down 1", "the server of replica 1 failed"),
    ("fetching 1 8 3", "replica 1 is on its way to place 8, and has got 3 items"),
    ("rebuilt 0 8 1 5", "replica 0 is live at place 8 again, after 1 nodes, 5 entries"),
    ("at 0 13", "replica 0 has run 13 requests"),
    ("at 1 down", "replica 1 is down"),
    ("at 3 rebuilding", "replica 3 is being rebuilt"),
)
# Text that can't be read: the line, the column, and what was expected.
ERRORS = (
    ("mkdirr / b", 1, 1, "a call (as mkdir, write or getattr) or a record (as run, reboot or end), not mkdirr"),
    ("mkdir /", 1, 8, "a name"),
    ("mkdir / b c", 1, 11, "the end of the line, not c"),
    ("# none\nmkdir / b\nwrite /c 0 \"x\"", 3, 7,
     "an object (a path such as /b/a, or @INDEX.GENERATION) that the lines above have made, not /c"),
    ("write / x \"y\"", 1, 9, "an offset, not x"),
    ("write / 4294967296 \"y\"", 1, 9, "an offset, at most 4294967295, not 4294967296"),
    ("write / 0 \"y", 1, 13, 'a closing "'),
    ("write / 0 \"y\\q\"", 1, 13, r'one of \n \t \r \0 \" \\ and \x with two digits, not \q'),
    ("write / 0 hex:abc", 1, 11, "pairs of hexadecimal digits behind hex:, not hex:abc"),
    ("mkdir / b color=1", 1, 11, "one of the options time= client= uid= gid= gids= machine= stamp= xid= rpcvers= prog= "
     "vers= proc= flavor= mode= owner= group= size= atime= mtime=, not color=1"),
    ("create / a mode=0888", 1, 12, "a mode in octal digits, not mode=0888"),
    ("null time=5\nnull time=4", 2, 1, "a time that is not before that of the last request, not null"),
    ("null time=5+1000000", 1, 6, "a time with fewer than 1000000 microseconds, not time=5+1000000"),
    ("log N=17", 1, 5, "N, 16, 256 or 4096, not N=17"),
    ("null\nlog N=16", 2, 1, "the line log once, before all others, not log"),
    ("run 1", 1, 5, "a replica, 0 to 0, not 1"),
    ("fetch 0 0", 1, 9, "at least 1, not 0"),
    ("swap 0 10", 1, 8, "a spare server, 1 to 9, not 10"),
    ("lie-root 0 1 hex:00", 1, 14, "32 bytes, not hex:00"),
    ("end\nrun", 2, 1, "nothing behind the end, not run"),
    ("getattr @1", 1, 9, "@INDEX.GENERATION, not @1"),
)


class Writing(unittest.TestCase):
    """From words to bytes."""

    def test_records(self):
        for text, expected in RECORDS:
            with self.subTest(text):
                self.assertEqual(records_of(F_1 + text), bytes.fromhex(expected))

    def test_arguments(self):
        for text, proc, expected in ARGUMENTS:
            with self.subTest(text):
                found = records_of(text)
                self.assertEqual(found[40:44], bytes.fromhex("%08x" % proc))
                self.assertEqual(found[60:], bytes.fromhex(expected))

    def test_header(self):
        self.assertEqual(write_log("", ""), b"BASELOG1" + bytes.fromhex("00000000 00000100 00000400 01000000 0000000e"))
        self.assertEqual(write_log("log f=2 N=4096 K=1 T=512", "")[8:24].hex(), "00000002000010000000000100000200")

    def test_caller(self):
        # AUTH_SYS (RFC 5531, appendix A): stamp, machine, uid, gid, groups; the verifier is AUTH_NONE.
        expected = "00000001 0000001c 00000000 00000003 67656e00 00000007 00000008 00000001 00000009 00000000 00000000"
        for text in ("null uid=7 gid=8 gids=9 machine=gen", "default uid=7 gid=8 gids=9 machine=gen\nnull"):
            self.assertEqual(records_of(text)[44:], bytes.fromhex(expected))

    def test_names_follow_the_rules(self):
        # The lowest free index is taken again with the next generation; a name moves with its object; a refused call
        # makes nothing. Expected are index and generation of the last call's object.
        cases = (
            ("mkdir / d\ncreate /d a\ngetattr /d/a", 2, 1),
            ("create / a\nremove / a\ncreate / b\ngetattr /b", 1, 2),
            ("create / a\nlink /a / b\nremove / a\ngetattr b", 1, 1),
            ("mkdir / d\nmkdir / d\ncreate / a\ngetattr /a", 2, 1),
            ("mkdir / d\nmkdir /d e\nrename / d /d/e f\nrename /d e / g\ngetattr /g", 2, 1),
            ("create / a\ncreate / b\nrename / a / b\ncreate / c\ngetattr /c", 2, 2),
            ("log T=1023\ncreate / a\ncreate / b size=1\nremove / a\nmkdir / c\ngetattr /c", 1, 2),
            ("create / a rpcvers=3\nmkdir / b\ngetattr /b", 1, 1),
        )
        for text, index, generation in cases:
            with self.subTest(text):
                self.assertEqual(records_of(text)[-32:-20].hex(), "42415345%08x%08x" % (index, generation))

    def test_errors(self):
        for text, line, column, expected in ERRORS:
            with self.subTest(text), self.assertRaises(SystemExit) as raised:
                write_log(text, "t")
            self.assertEqual(raised.exception.code, "t:%d:%d: expected %s" % (line, column, expected))


class Explaining(unittest.TestCase):
    """From bytes to words."""

    def test_results(self):
        for word, result, expected in RESULTS:
            with self.subTest(word):
                self.assertEqual(reply_text(bytes.fromhex(ACCEPTED + result), None, BY_WORD[word]), expected)

    def test_refusals(self):
        lines = Lines(example("refusals.lines"))
        self.assertEqual([reply_text(lines.replies[place], None, None) for place in range(1, 7)], list(REFUSALS))

    def test_lines(self):
        for line, expected in LINES:
            self.assertEqual(line_text(line), expected)

    def test_silent(self):
        texts, wrong = explained(spelled(example("garbage.hex")), Lines(example("garbage.lines")))
        self.assertIsNone(wrong)
        self.assertIn("    # silent 4: no answer", texts)
        self.assertIn("    # reply 1: GARBAGE_ARGS", texts)

    def test_broken_logs(self):
        cases = (("cut", 88, "a record, or the record End"), ("bad_header", 12, "N, 16, 256 or 4096"))
        for name, at, expected in cases:
            _, wrong = explained(spelled(example(name + ".hex")), Lines(""))
            self.assertEqual((wrong.at, wrong.expected), (at, expected))


class BothWays(unittest.TestCase):
    """What is explained is written as the same bytes again."""

    def test_examples(self):
        for name in WHOLE:
            with self.subTest(name):
                log = spelled(example(name + ".hex"))
                texts, wrong = explained(log, Lines(example(name + ".lines")))
                self.assertIsNone(wrong)
                self.assertEqual(write_log("\n".join(texts), name), log)

    def test_texts_of_examples(self):
        for name in sorted(os.listdir(EXAMPLES)):
            if name.endswith(".txt"):
                with self.subTest(name):
                    self.assertEqual(write_log(example(name), name), spelled(example(name[:-4] + ".hex")))

    def test_records(self):
        log = write_log(F_1 + "\n".join(text for text, _ in RECORDS[3:]), "t")
        texts, wrong = explained(log, Lines(""))
        self.assertIsNone(wrong)
        self.assertEqual(write_log("\n".join(texts), "t"), log)
        self.assertEqual(texts[1:], [text for text, _ in RECORDS[3:]] + ["end"])

    def test_calls(self):
        text = "\n".join(text for text, _, _ in ARGUMENTS) + "\nnull uid=7 gid=8 gids=9,10 machine=\"g n\" stamp=4"
        log = write_log(text, "t")
        texts, _ = explained(log, Lines(""))
        self.assertEqual(write_log("\n".join(texts), "t"), log)
        self.assertFalse([text for text in texts if "request hex:" in text])


class Command(unittest.TestCase):
    """The words, the statuses and the messages of the command."""

    def run_log(self, *words, text=b""):
        """The status, the output and the errors of tools/log."""
        run = subprocess.run([sys.executable, os.path.join(HERE, "log"), *words], input=text, capture_output=True)
        return run.returncode, run.stdout, run.stderr.decode()

    def test_uses(self):
        log = spelled(example("null.hex"))
        text = b"log N=16 K=4 T=65536\nnull\nrun\n"
        self.assertEqual(self.run_log("write", text=text), (0, log, ""))
        self.assertEqual(self.run_log("explain", "-", text=log), (0, b"log f=0 N=16 K=4 T=65536\nnull\nrun\nend\n", ""))

    def test_bad_uses(self):
        self.assertEqual(self.run_log()[0], 1)
        self.assertEqual(self.run_log("write", "a", "b")[0], 1)
        status, _, errors = self.run_log("explain", "/no/such/file")
        self.assertEqual((status, errors), (2, "tools/log: /no/such/file: No such file or directory\n"))
        status, out, errors = self.run_log("write", text=b"null\nmkdir /")
        self.assertEqual((status, out, errors), (2, b"", "standard input:2:8: expected a name\n"))
        status, _, errors = self.run_log("explain", "-", text=b"BASELOG9")
        self.assertEqual((status, errors), (2, "standard input: at byte 0: expected the letters BASELOG1\n"))


if __name__ == "__main__":
    unittest.main()
