"""Tests of tql-shell: the program after scripts, and that Ctrl-C does not end it."""
import os
import pty
import select
import shutil
import signal
import subprocess
import tempfile
import time
import unittest

from common import TOOLS, TOP, ran, tql

SHELL = TOOLS / "tql-shell"
# A path without rlwrap, which needs a terminal with a width.
ALONE_IN = tempfile.TemporaryDirectory(prefix="tql-shell-")
os.symlink(shutil.which("sh"), f"{ALONE_IN.name}/sh")
ALONE = {**os.environ, "PATH": ALONE_IN.name, "TERM": "dumb"}


def shown(master: int, wanted: bytes) -> bytes:
    """What a terminal shows until it ends so, or for half a minute."""
    text, end = b"", time.monotonic() + 30
    while not text.endswith(wanted) and time.monotonic() < end:
        if select.select([master], [], [], 0.1)[0]:
            text += os.read(master, 65536)
    return text


class Shell(unittest.TestCase):
    def test_scripts_come_first(self):
        got = ran([SHELL, "--format", "table", "-c", "CREATE TABLE t (n INTEGER)"], "SELECT n FROM t;", cwd=TOP, env={**ALONE, "TQL": tql()})
        self.assertEqual((got.returncode, got.stdout), (0, b"CREATE TABLE\nN\n(0 rows)\n"))

    def test_interrupts_leave_the_database(self):
        master, slave = pty.openpty()
        started = subprocess.Popen([str(SHELL)], stdin=slave, stdout=slave, stderr=slave, env={**ALONE, "TQL": tql()}, start_new_session=True)
        os.close(slave)
        shown(master, b"tql> ")
        os.write(master, b"CREATE TABLE t (n INTEGER);\n")
        self.assertIn(b"CREATE TABLE\r\n", shown(master, b"tql> "))
        os.killpg(started.pid, signal.SIGINT)
        os.write(master, b".tables\n")
        self.assertIn(b"\r\nT\r\n", shown(master, b"tql> "))
        os.write(master, b".quit\n")
        self.assertEqual(started.wait(30), 0)
        os.close(master)
