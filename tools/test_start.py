"""Tests of the start script ./basefs, in a folder of their own with a stand-in for rt: nothing is proved here."""
import os
import shutil
import stat
import subprocess
import tempfile
import unittest

TOP = os.path.dirname(os.path.dirname(os.path.abspath(__file__)))

# It answers `lib` but for the crate of $BROKEN, makes a program at `run`, and at `try` says what $TRY says.
STAND_IN = """#!/bin/sh
case $1 in
lib) [ "${PWD##*/}" != "${BROKEN-}" ] || { echo 'low NOT PROVED'; exit 1; } ;;
run) mkdir -p out
    printf '#!/bin/sh\\ncat\\necho "words: $*"\\nexit 7\\n' >out/basefs
    chmod +x out/basefs ;;
try) cat; echo "$TRY" >&2; exit 2 ;;
esac
"""
CRATES = "# a comment: with a colon\nbasefs: high kit_crate\nlow:\nhigh staticlib: low # low\nfor_tests: basefs\n"


class Starting(unittest.TestCase):
    """Each way to start it."""

    def setUp(self):
        self.folder = tempfile.mkdtemp()
        self.addCleanup(shutil.rmtree, self.folder)
        for name in ("bin", "examples", "crates/low", "crates/high", "crates/for_tests", "crates/basefs/src"):
            os.makedirs(os.path.join(self.folder, name))
        shutil.copy(os.path.join(TOP, "basefs"), self.folder)
        self.put("crates.txt", CRATES)
        self.put("examples/null.log", "")
        self.put("crates/basefs/src/main.rt", "")
        self.put("bin/rt", STAND_IN)
        os.chmod(os.path.join(self.folder, "bin", "rt"), stat.S_IRWXU)

    def put(self, name, text):
        """A file of the folder."""
        with open(os.path.join(self.folder, name), "w", encoding="utf-8") as file:
            file.write(text)

    def start(self, *words, text="log", path=True, **extra):
        """The status, the output and the errors of the script."""
        folders = [os.path.join(self.folder, "bin")] if path else []
        env = {"PATH": ":".join(folders + ["/usr/bin", "/bin"]), **extra}
        script = os.path.join(self.folder, "basefs")
        run = subprocess.run([script, *words], input=text, capture_output=True, text=True, env=env)
        return run.returncode, run.stdout, run.stderr

    def test_first_and_later_runs(self):
        status, out, errors = self.start("replay")
        self.assertEqual((status, out), (7, "logwords: replay\n"))
        told = [line.split(" in ")[0] for line in errors.splitlines()]
        self.assertEqual(told, [
            "basefs: proving low, 0 of 3 crates done", "basefs: proving high, 1 of 3 crates done",
            "basefs: proving basefs, 2 of 3 crates done", "basefs: 3 crates are proved, and the program is built,"])
        self.assertEqual(self.start("replay"), (7, "logwords: replay\n", ""))

    def test_a_newer_source_is_proved_again(self):
        self.start("replay")
        built = os.path.join(self.folder, "crates/basefs/out/basefs")
        os.utime(built, (1, 1))
        self.assertIn("proving low", self.start("replay")[2])

    def test_a_crate_that_is_not_proved(self):
        status, out, errors = self.start("replay", BROKEN="high")
        self.assertEqual((status, out), (125, ""))
        self.assertTrue(errors.endswith("low NOT PROVED\nbasefs: the crate high could not be proved and built\n"))

    def test_unproved(self):
        said = "basefs: nothing is proved in this run\n"
        ended = "bad log at 0\nchecked: ended status=2\nrun=ended status=2 runners=1 proved=no"
        self.assertEqual(self.start("--unproved", "replay", TRY=ended), (2, "log", said + "bad log at 0\n"))
        none = "| much output\nchecked: no-answer: it wrote too much\nrun=no-answer proved=no"
        status, out, errors = self.start("--unproved", "replay", TRY=none)
        self.assertEqual((status, out), (125, ""))
        self.assertNotIn("| much", errors)
        self.assertTrue(errors.endswith("it wrote too much\nrun=no-answer proved=no\nbasefs: rt try gave no answer\n"))

    def test_bad_uses(self):
        for words, status, text in (
            ((), 1, "usage: ./basefs replay < LOG"),
            (("--unproved",), 125, "behind --unproved come the words"),
            (("--fast", "replay"), 125, "--fast is no option of this script"),
        ):
            with self.subTest(words):
                found = self.start(*words)
                self.assertEqual(found[:2], (status, ""))
                self.assertIn(text, found[2])
        self.assertIn("rt is not on the PATH", self.start("replay", path=False)[2])
        self.assertEqual(self.start("--help")[0], 0)


if __name__ == "__main__":
    unittest.main()
