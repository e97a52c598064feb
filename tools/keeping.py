"""The bytes of a journal, by Python's hashlib; sessions on one, with what the reference model prints and holds; and a shim that notes syncs."""
import copy
import hashlib
import os
import re
import subprocess
from pathlib import Path

from copying.counter import BEGIN
from copying.crowds import Crowd
from copying.machine import At, Machine, Turn
from copying.makers import Maker
from copying.queries import Span, everything
from copying.values import MOMENT

HEAD = b"-- tql journal 1\n"
# What follows the text of a statement: the digits are the SHA-256 of all bytes before this line.
END = re.compile(rb";\n-- ([0-9a-f]{64})\n")
# How the replies begin to statements that a journal keeps.
KEPT = ("CREATE TABLE\n", "DROP TABLE\n", "INSERT ", "UPDATE ", "DELETE ", "START TRANSACTION\n", "COMMIT\n", "ROLLBACK\n", "AT\n", "PRUNE HISTORY\n")
# A library that is loaded before the C library. After each sync it writes the length of the file to the file SYNC_NOTE. With SYNC_LEFT_OUT set, a
# sync does nothing and notes nothing.
SHIM = r"""
#define _GNU_SOURCE
#include <dlfcn.h>
#include <fcntl.h>
#include <stdlib.h>
#include <sys/stat.h>
#include <unistd.h>
static void note(int fd) {
  const char *path = getenv("SYNC_NOTE");
  struct stat found;
  if (!path || fstat(fd, &found) || !S_ISREG(found.st_mode)) return;
  int to = open(path, O_WRONLY | O_CREAT, 0600);
  long length = (long)found.st_size;
  if (pwrite(to, &length, sizeof length, 0) != sizeof length) abort();
  close(to);
}
static int sync_by(const char *name, int fd) {
  if (getenv("SYNC_LEFT_OUT")) return 0;
  int result = ((int (*)(int))dlsym(RTLD_NEXT, name))(fd);
  if (!result) note(fd);
  return result;
}
int fsync(int fd) { return sync_by("fsync", fd); }
int fdatasync(int fd) { return sync_by("fdatasync", fd); }
"""


def shim_in(room: Path) -> Path:
    """Compiles the shim into a folder."""
    source, made = room / "shim.c", room / "shim.so"
    source.write_text(SHIM, encoding="utf-8")
    subprocess.run(["cc", "-O1", "-shared", "-fPIC", "-o", str(made), str(source), "-ldl"], check=True)
    return made


def texts_of(data: bytes) -> list[bytes]:
    """Returns the texts that a whole journal keeps; fails where a line is not the hash of what is before it."""
    if not data.startswith(HEAD):
        raise ValueError("the first line")
    texts, at, hashed, done = [], len(HEAD), hashlib.sha256(), 0
    while at < len(data):
        for end in END.finditer(data, at):
            hashed.update(data[done:end.start() + 2])
            done = end.start() + 2
            if hashed.hexdigest().encode() == end[1]:
                texts.append(data[at:end.start()])
                at = end.end()
                break
        else:
            raise ValueError(f"no statement with its line from byte {at} on")
    return texts


def with_statement(data: bytes, text: bytes) -> bytes:
    """Returns a journal with a further statement."""
    data += text + b";\n"
    return data + b"-- " + hashlib.sha256(data).hexdigest().encode() + b"\n"


def is_kept(reply: str) -> bool:
    """Whether a journal keeps a statement with this reply. The table of a query begins with a heading and is never kept."""
    return reply.count("\n") == 1 and reply.startswith(KEPT)


def text_of(statement) -> str:
    """Returns the text of a statement as a journal keeps it."""
    text = statement.text.lstrip(" \t\n\r")
    while text.startswith("--"):
        text = text.partition("\n")[2].lstrip(" \t\n\r")
    return text


class Session:
    """Statements on a database, each with its reply; and the state of the reference model before them."""

    def __init__(self, before: Machine, seed: int, length: int) -> None:
        self.before, self.machine = before, copy.deepcopy(before)
        self.statements: list = []
        self.replies: list[str] = []
        is_new = not before.commits and not before.next
        maker = Crowd(seed, self.machine, True, True) if is_new and seed % 2 else Maker(seed, self.machine, True, True)
        if is_new:
            self.begin(maker)
        while len(self.statements) < length or is_new and not self.kept():
            if self.machine.is_open and not self.machine.tables:
                self.add(Turn("ROLLBACK"))
            self.add(maker.picked() if self.machine.tables else maker.definitions.definition())

    def begin(self, maker: Maker) -> None:
        """Begins a database: the tables of few key values with some rows, as tools/copies.py makes them, or three tables at random."""
        self.add(At(maker.clock(BEGIN)))
        if isinstance(maker, Crowd):
            for name in ("RATE", "USE", "LOG"):
                self.add(maker.definition(name))
            for statement in maker.filled():
                self.add(statement)
            for _ in range(8):
                self.add(maker.at() if maker.one_in(8) else maker.turn() if maker.one_in(6) else maker.hot())
        while len(self.machine.tables) < 3:
            self.add(maker.definitions.definition())

    def add(self, statement) -> None:
        self.statements.append(statement)
        self.replies.append(self.machine.answer(statement))

    def script(self) -> list[bytes]:
        """Returns the statements as they are written to the program."""
        return [it.text.encode() + b";\n" for it in self.statements]

    def kept(self) -> list[int]:
        """Returns the places of the statements that a journal keeps."""
        return [at for at, reply in enumerate(self.replies) if is_kept(reply)]

    def opened_after(self, count: int) -> bool:
        """Whether a transaction is open after the first statements."""
        turns = [it for it in self.replies[:count] if it in ("START TRANSACTION\n", "COMMIT\n", "ROLLBACK\n")]
        return bool(turns) and turns[-1] == "START TRANSACTION\n"

    def state_after(self, count: int) -> Machine:
        """Returns the state that a restart finds after the first statements: readers closed, and an open transaction rolled back."""
        machine = copy.deepcopy(self.before)
        for statement in self.statements[:count]:
            machine.answer(statement)
        machine.readers = {}
        if machine.is_open:
            machine.answer(Turn("ROLLBACK"))
        return machine


def asked_in(machine: Machine, seed: int, commits: int, count: int) -> tuple[bytes, str]:
    """Returns questions to a database as a script, and the replies of the reference model: all rows of each table, now, and AS OF and FROM .. TO at
    its last commits; and so many at random."""
    machine = copy.deepcopy(machine)
    maker = Maker(seed, machine)
    moments = [max(it, machine.horizon) for it, _ in machine.commits[-commits:]] or [max(BEGIN, machine.horizon)]
    asked: list = []
    for table in machine.tables.values():
        asked.append(everything(table.name))
        if table.system:
            spans = [Span("as of", [maker.written(MOMENT, it)]) for it in moments]
            spans += [Span("from", [maker.written(MOMENT, low), maker.written(MOMENT, high)]) for low, high in zip(moments, moments[1:])]
            spans.append(Span("between", [maker.written(MOMENT, moments[0]), maker.written(MOMENT, machine.next)]))
            asked += [everything(table.name, it) for it in spans]
    asked += [maker.question() for _ in range(count if machine.tables else 0)]
    replies = [machine.answer(it) for it in asked]
    return b"".join(it.text.encode() + b";\n" for it in asked), "".join(replies)


def environment(room: Path, shim: Path | None, left_out: bool = False) -> dict:
    """Returns an environment in which the shim notes syncs in the file `note`, or leaves them out."""
    more = {"LD_PRELOAD": str(shim), "SYNC_NOTE": str(room / "note")} if shim else {}
    return dict(os.environ, **more, **({"SYNC_LEFT_OUT": "1"} if left_out else {}))
