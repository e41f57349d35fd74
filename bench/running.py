"""Runs of the built program over logs."""
import hashlib
import os
import subprocess
import sys
import tempfile
import time

TOP = os.path.dirname(os.path.dirname(os.path.abspath(__file__)))
PROGRAM = os.path.join(TOP, "crates", "basefs", "out", "basefs")


def build():
    """Makes the program where it is not there."""
    with open(os.path.join(TOP, "examples", "null.log"), "rb") as log:
        subprocess.run([os.path.join(TOP, "basefs"), "replay"], stdin=log, stdout=subprocess.DEVNULL, check=True)


def timed(path):
    """One run: its processor seconds, so that other work doesn't count, its exit status, the digest of its lines, and its
    text on standard error."""
    with open(path, "rb") as log, tempfile.TemporaryFile() as out, tempfile.TemporaryFile() as errors:
        child = subprocess.Popen([PROGRAM, "replay"], stdin=log, stdout=out, stderr=errors)
        _, status, used = os.wait4(child.pid, 0)
        child.returncode = os.waitstatus_to_exitcode(status)
        out.seek(0)
        errors.seek(0)
        seconds = used.ru_utime + used.ru_stime
        return seconds, child.returncode, hashlib.sha256(out.read()).hexdigest(), errors.read().decode().strip()


def peak(path, last):
    """The greatest resident set in KiB of a run up to its last record. It waits for a line that begins so before it."""
    with open(path, "rb") as log, tempfile.NamedTemporaryFile() as out:
        child = subprocess.Popen([PROGRAM, "replay"], stdin=subprocess.PIPE, stdout=out)
        text = log.read()
        child.stdin.write(text[:-4])
        child.stdin.flush()
        while True:
            with open(out.name, "rb") as found:
                found.seek(max(0, os.path.getsize(out.name) - 20000))
                tail = found.read().rsplit(b"\n", 2)
            if tail[-1] == b"" and tail[-2:-1] and tail[-2].startswith(last):
                break
            if child.poll() is not None:
                sys.exit("the program ended before the last record")
            time.sleep(0.01)
        with open("/proc/%d/status" % child.pid) as status:
            row = next(row for row in status if row.startswith("VmHWM:"))
        child.stdin.write(text[-4:])
        child.stdin.close()
        child.wait()
        return int(row.split()[1])
