#!/usr/bin/env python3
"""Tries --journal and --verify: restarts, what is kept, each format, damage, torn ends, a full disk, and files that are no journals.

Usage: tools/journals.py [PROGRAM]        (make lines calls it)

A journal is written and read here too, by hashlib, so a fault of the program that its reader and its writer share is seen. PROGRAM is TQL=path, or
as tools/quick.py finds it. Each trial that is wrong is printed; the status is 1 then.
"""
import ctypes
import hashlib
import os
import resource
import signal
import stat
import subprocess
import sys
import tempfile
from pathlib import Path
from typing import NamedTuple

sys.dont_write_bytecode = True

from keeping import HEAD, texts_of, with_statement

PATIENCE = 60
TABLE = "CREATE TABLE t (a INT, s VARCHAR(20))"
# A script with all that is kept and all that is not, the replies, and the texts that are kept.
SCRIPT = f"""{TABLE} ; -- a comment; with a semicolon
INSERT INTO t VALUES (1, 'x;y'), (2, 'it''s -- no comment') -- which ends the text
;SELECT a FROM t;
DROP TABLE u;
OPEN READER r; CLOSE READER r;
AT TIMESTAMP '2024-01-10 09:00:00';
START TRANSACTION;
  UPDATE t SET a = 3 WHERE a = 2;
DELETE FROM t WHERE a = 7;
COMMIT;
START TRANSACTION; DELETE FROM t; ROLLBACK;
PRUNE HISTORY BEFORE TIMESTAMP '2024-01-01 00:00:00';
"""
REPLIES = """CREATE TABLE
INSERT 2
A
1
2
(2 rows)
REFUSED E20 table unknown or already there
OPEN READER
CLOSE READER
AT
START TRANSACTION
UPDATE 1
DELETE 0
COMMIT
START TRANSACTION
DELETE 2
ROLLBACK
PRUNE HISTORY
"""
KEPT = [f"{TABLE} ", "INSERT INTO t VALUES (1, 'x;y'), (2, 'it''s -- no comment') -- which ends the text\n", "AT TIMESTAMP '2024-01-10 09:00:00'",
        "START TRANSACTION", "UPDATE t SET a = 3 WHERE a = 2", "DELETE FROM t WHERE a = 7", "COMMIT", "START TRANSACTION", "DELETE FROM t", "ROLLBACK",
        "PRUNE HISTORY BEFORE TIMESTAMP '2024-01-01 00:00:00'"]
ASKED, ANSWERED = "SELECT a, s FROM t", "A|S\n1|'x;y'\n3|'it''s -- no comment'\n(2 rows)\n"
# What the standard error says; the name of the journal is put in.
CUT = "tql: journal {}: its last {} bytes, of a statement never answered, are cut off\n"
CHANGED = "tql: journal {}: from line {} on it is not what was written; its first {} statements, {} bytes, are\n"
NO_JOURNAL = "tql: journal {}: line 1 is not '-- tql journal 1', so it is no journal\n"
NO_FILE = "tql: journal {}: it is no regular file\n"
UNKEPT = "tql: cannot write the journal {}; what was not replied to may not be kept\n"


class Ran(NamedTuple):
    """A run: its status, what it wrote to the standard output, and how the standard error begins, or the whole of it."""

    status: int
    output: str
    error: str


def journal_of(texts: list[str]) -> bytes:
    """Returns the bytes of a journal of these texts."""
    data = HEAD
    for text in texts:
        data = with_statement(data, text.encode())
    return data


def without_rights() -> None:
    """Takes the rights from a child of root to read and write each file; a file's permissions count then."""
    if not os.geteuid():
        library = ctypes.CDLL(None, use_errno=True)
        for right in (1, 2):
            if library.prctl(24, right, 0, 0, 0):
                os._exit(99)


class Trials:
    """Trials of a program in a folder, and how many were wrong."""

    def __init__(self, program: str, room: Path) -> None:
        self.program, self.room, self.file, self.count, self.wrong = program, room, room / "pay.jn", 0, 0

    def started(self, words: list[str], **more) -> subprocess.Popen:
        """The program, started."""
        return subprocess.Popen([self.program, *words], cwd=self.room, **more)

    def run(self, words: list[str], script: str = "", **more) -> Ran:
        """The program run on a script on its standard input."""
        ran = subprocess.run([self.program, *words], cwd=self.room, input=script.encode(), capture_output=True, timeout=PATIENCE, check=False, **more)
        return Ran(ran.returncode, ran.stdout.decode(errors="replace"), ran.stderr.decode(errors="replace"))

    def told(self, what: str, got, wanted) -> None:
        """Counts a trial, and says what differs."""
        self.count += 1
        if got != wanted:
            self.wrong += 1
            print(f"journal, {what}: {got!r}, not {wanted!r}")

    def kept(self) -> list[str]:
        """The texts in the journal, by hashlib."""
        return [it.decode() for it in texts_of(self.file.read_bytes())]

    def fresh(self, data: bytes) -> None:
        """Puts a new file in the journal's place."""
        self.file.unlink(missing_ok=True)
        self.file.write_bytes(data)

    def refused(self, what: str, data: bytes, error: str) -> None:
        """Tries a file that is no journal: nothing runs, the file is as it was, --verify has the same line."""
        self.fresh(data)
        self.told(what, self.run(["--journal", "pay.jn", "-c", TABLE]), Ran(3, "", error))
        self.told(f"{what}, the file", self.file.read_bytes(), data)
        self.told(f"{what}, --verify", self.run(["--verify", "pay.jn"]), Ran(1, "", error))

    # ---- the trials

    def restarts(self) -> None:
        """A run and a restart in each format, by a pipe, a file and a text; the file is its owner's alone, and is a script."""
        (self.room / "all.sql").write_text(SCRIPT, encoding="utf-8")
        for words, script in ((["--format", "table"], SCRIPT), (["all.sql"], ""), (["--plans", "all.sql"], ""), (["-i", "-c", TABLE], SCRIPT.split(";", 1)[1]),
                              (["--memory", "64M", "all.sql"], ""), *((["--format", it, "all.sql"], "") for it in ("box", "csv", "json", "jsonl"))):
            self.file.unlink(missing_ok=True)
            plain = self.run(["-q", *words], script)
            ran = self.run(["-q", "--journal", "pay.jn", *words], script)
            self.told(f"{words}", ran, plain)
            self.told(f"{words}, what is kept", self.kept(), KEPT if "-c" not in words else [f"{TABLE}\n", *KEPT[1:]])
            self.told(f"{words}, mode", stat.S_IMODE(self.file.stat().st_mode), 0o600)
            self.told(f"{words}, restart", self.run(["--journal", "pay.jn", "-c", ASKED]), Ran(0, ANSWERED, ""))
        self.told("replies", self.run(["-q", "--format", "table"], SCRIPT).output, REPLIES)
        self.told("as a script", self.run(["-q", "pay.jn", "-c", ASKED]).output.endswith(ANSWERED), True)
        self.told("--bail", self.run(["-q", "--bail", "--journal", "pay.jn", "-c", "DELETE FROM t WHERE a = 1; DROP u; DELETE FROM t"]).output,
                  "DELETE 1\nREFUSED E10 not a statement\n")
        self.told("--bail, what is kept", self.kept()[len(KEPT):], ["DELETE FROM t WHERE a = 1"])

    def checked_by_sha256sum(self) -> None:
        """Each line is what sha256sum says of the lines before it."""
        self.fresh(journal_of(KEPT))
        lines = self.file.read_bytes().splitlines(keepends=True)
        for at, line in enumerate(lines[1:], 1):
            if line.startswith(b"-- ") and len(line) == 68:
                ran = subprocess.run(["sha256sum"], input=b"".join(lines[:at]), stdout=subprocess.PIPE, check=True)
                self.told(f"line {at + 1} by sha256sum", ran.stdout[:64], line[3:67])

    def verified(self) -> None:
        """--verify prints the last line, finds each line and no other, and takes no lock."""
        data = journal_of(KEPT)
        self.fresh(data)
        last = data[-65:-1].decode()
        said = f"{len(KEPT)} statements, {len(data)} bytes\n-- {last}\n"
        self.told("--verify", self.run(["--verify", "pay.jn"]), Ran(0, said, ""))
        for it in (journal_of(KEPT[:many])[-65:-1].decode() for many in range(1, len(KEPT) + 1)):
            self.told("--verify with a line", self.run(["--verify", "pay.jn", it]), Ran(0, said, ""))
        other = hashlib.sha256(b"").hexdigest()
        self.told("--verify, another line", self.run(["--verify", "pay.jn", other]), Ran(1, "", f"tql: journal pay.jn has no line {other}\n"))
        self.fresh(HEAD)
        self.told("--verify, nothing kept", self.run(["--verify", "pay.jn"]), Ran(0, f"0 statements, {len(HEAD)} bytes\n-- tql journal 1\n", ""))
        self.file.unlink()
        none = Ran(3, "", "tql: journal pay.jn: No such file or directory (os error 2)\n")
        self.told("--verify, no file", self.run(["--verify", "pay.jn"]), none)

    def opened_once(self) -> None:
        """A second opener is refused as long as the first one runs; --verify and a copy are not."""
        self.fresh(journal_of(KEPT))
        first = self.started(["-q", "--format", "table", "--journal", "pay.jn"], stdin=subprocess.PIPE, stdout=subprocess.PIPE, bufsize=0)
        first.stdin.write(b"DELETE FROM t;\n")
        self.told("the first opener", first.stdout.readline(), b"DELETE 2\n")
        in_use = Ran(3, "", "tql: journal pay.jn is in use by another program\n")
        self.told("a second opener", self.run(["--journal", "pay.jn", "-c", ASKED]), in_use)
        self.told("--verify beside it", self.run(["--verify", "pay.jn"]).status, 0)
        (self.room / "copy.jn").write_bytes(self.file.read_bytes())
        self.told("a copy", self.run(["--journal", "copy.jn", "-c", ASKED]).output, "A|S\n(0 rows)\n")
        first.stdin.close()
        self.told("the first opener's status", first.wait(PATIENCE), 0)
        first.stdout.close()
        self.told("after it", self.run(["--journal", "pay.jn", "-c", ASKED]).status, 0)

    def read_by_itself(self) -> None:
        """A journal as an input of its own run is refused: what it keeps would be read as more of the input."""
        self.fresh(journal_of(KEPT[:2]))
        (self.room / "link.jn").symlink_to("pay.jn")
        for words, name in ((["pay.jn"], "pay.jn"), (["link.jn"], "link.jn"), ([f"{self.room}/pay.jn"], f"{self.room}/pay.jn")):
            said = f"tql: cannot read {name}: it is the journal of this run\n"
            self.told(f"{words} of its own run", self.run(["--journal", "pay.jn", *words]), Ran(3, "", said))
        with self.file.open("rb") as script:
            ran = subprocess.run([self.program, "--journal", "pay.jn"], cwd=self.room, stdin=script, capture_output=True, timeout=PATIENCE, check=False)
        self.told("as the standard input", (ran.returncode, ran.stdout, ran.stderr),
                  (3, b"", b"tql: cannot read the standard input: it is the journal of this run\n"))
        self.told("as an input, the file", self.file.read_bytes(), journal_of(KEPT[:2]))

    def transactions(self) -> None:
        """An open transaction is rolled back at the start, and that is kept."""
        self.fresh(journal_of(KEPT[:2]))
        lost = "tql: the transaction opened on line 1 of -c was not committed; its changes are lost\n"
        ran = self.run(["--journal", "pay.jn", "-c", "START TRANSACTION; DELETE FROM t"])
        self.told("an open transaction", ran, Ran(0, "START TRANSACTION\nDELETE 2\n", lost))
        self.told("after it", self.run(["--journal", "pay.jn", "-c", "SELECT COUNT(*) AS n FROM t"]), Ran(0, "N\n2\n(1 rows)\n", ""))
        self.told("what is kept of it", self.kept()[2:], ["START TRANSACTION", "DELETE FROM t\n", "ROLLBACK"])

    def torn(self) -> None:
        """A file cut anywhere, and with zeros at its end."""
        data, before = journal_of(KEPT), [len(journal_of(KEPT[:many])) for many in range(len(KEPT) + 1)]
        for length in (*range(len(HEAD)), *range(len(HEAD), len(data), 29)):
            self.fresh(data[:length])
            whole = max((it for it in before if it <= length), default=0)
            error = CUT.format("pay.jn", length - whole) if length > whole else ""
            self.told(f"cut at {length}", self.run(["--journal", "pay.jn", "-c", "COMMIT"]).error.startswith(error), True)
            texts = KEPT[:before.index(whole)] if whole else []
            turns = [it for it in texts if it in ("START TRANSACTION", "COMMIT", "ROLLBACK")]
            self.told(f"cut at {length}, what is kept", self.kept(), texts + ["ROLLBACK"] * (turns[-1:] == ["START TRANSACTION"]))
        self.fresh(data + bytes(3000))
        said = Ran(0, f"{len(KEPT)} statements, {len(data)} bytes\n-- {data[-65:-1].decode()}\n",
                   "tql: journal pay.jn: its last 3000 bytes are of a statement never answered\n")
        self.told("zeros, --verify", self.run(["--verify", "pay.jn"]), said)
        self.told("zeros", self.run(["--journal", "pay.jn", "-c", ASKED]), Ran(0, ANSWERED, CUT.format("pay.jn", 3000)))
        self.told("zeros, the file", self.file.read_bytes(), data)

    def damaged(self) -> None:
        """A flipped bit, a lost and an inserted statement or line, and files that are no journals."""
        data = journal_of(KEPT)
        ends = [len(journal_of(KEPT[:many])) for many in range(len(KEPT) + 1)]
        lines = [data[:it].count(b"\n") + 1 for it in ends]
        for at in range(len(HEAD), len(data), 41):
            many = sum(it <= at for it in ends) - 1
            bad = data[:at] + bytes([data[at] ^ 4]) + data[at + 1:]
            self.refused(f"bit flipped at {at}", bad, CHANGED.format("pay.jn", lines[many], many, ends[many]))
        third = data[ends[2]:ends[3]]
        self.refused("a lost statement", data.replace(third, b""), CHANGED.format("pay.jn", lines[2], 2, ends[2]))
        self.refused("a lost line", data.replace(third, third[:-68]), CHANGED.format("pay.jn", lines[2], 2, ends[2]))
        self.refused("an inserted statement", data[:ends[2]] + b"DELETE FROM t;\n" + data[ends[2]:], CHANGED.format("pay.jn", lines[2], 2, ends[2]))
        sealed = with_statement(data[:ends[2]], b"DELETE FROM t")
        at = sealed.count(b"\n") + 1
        self.refused("an inserted statement with its line", sealed + data[ends[2]:], CHANGED.format("pay.jn", at, 3, len(sealed)))
        for it in (b"CREATE TABLE t (a INT);\n", b"-- tql journal 2\n", b"\x00", b"-- tql journal 1;"):
            self.refused(f"{it!r}", it, NO_JOURNAL.format("pay.jn"))
        for texts, line, why in (([TABLE, "SELECT a FROM t"], 4, "no journal keeps a statement that changes nothing"),
                                 ([TABLE, TABLE], 4, "E20 table unknown or already there")):
            self.fresh(journal_of(texts))
            ran = self.run(["--journal", "pay.jn", "-c", ASKED])
            self.told(f"{texts}", ran, Ran(3, "", f"tql: journal pay.jn, line {line}: {why}\n"))
            self.told(f"{texts}, the file", self.file.read_bytes(), journal_of(texts))

    def no_files(self) -> None:
        """Folders, pipes, devices, and files without the rights to read or write them."""
        (self.room / "folder").mkdir()
        os.mkfifo(self.room / "pipe")
        for name in ("folder", "pipe", "/dev/null"):
            for words in (["--journal", name, "-c", TABLE], ["--verify", name]):
                self.told(f"{words}", self.run(words), Ran(3, "", NO_FILE.format(name)))
        for words in (["--journal", "none/pay.jn", "-c", TABLE], ["--verify", "none/pay.jn"]):
            self.told(f"{words}", self.run(words), Ran(3, "", "tql: journal none/pay.jn: No such file or directory (os error 2)\n"))
        denied = Ran(3, "", "tql: journal pay.jn: Permission denied (os error 13)\n")
        for mode, reads in ((0o400, True), (0o200, False), (0o000, False)):
            self.fresh(journal_of(KEPT))
            self.file.chmod(mode)
            told = f"mode {mode:o}"
            self.told(told, self.run(["--journal", "pay.jn", "-c", ASKED], preexec_fn=without_rights), denied)
            ran = self.run(["--verify", "pay.jn"], preexec_fn=without_rights)
            self.told(f"{told}, --verify", ran.status if reads else ran, 0 if reads else denied)
            self.told(f"{told}, the file", self.file.read_bytes(), journal_of(KEPT))

    def full(self) -> None:
        """A disk that is full after some statements, for which a limit of the file's size stands: no reply without its statement, then the end."""
        def limited() -> None:
            signal.signal(signal.SIGXFSZ, signal.SIG_IGN)
            resource.setrlimit(resource.RLIMIT_FSIZE, (30_000, 30_000))

        for size in (40, 9000):
            self.file.unlink(missing_ok=True)
            script = "CREATE TABLE t (s VARCHAR(10000));\n" + f"INSERT INTO t VALUES ('{'a' * size}');\n" * 1000
            ran = self.run(["-q", "--format", "table", "--journal", "pay.jn"], script, preexec_fn=limited)
            replies = ran.output.splitlines()
            self.told(f"a full disk, {size} bytes", (ran.status, ran.error, {*replies} <= {"CREATE TABLE", "INSERT 1"}),
                      (3, UNKEPT.format("pay.jn"), True))
            again = self.run(["--journal", "pay.jn", "-c", "SELECT COUNT(*) AS n FROM t"])
            kept = self.kept()
            self.told(f"a full disk, {size} bytes, what is kept", (again.status, len(replies) <= len(kept) <= 1001), (0 if kept else 1, True))

    def short_of_memory(self) -> None:
        """A journal that needs more memory than there is: the line, and nothing is run or written."""
        texts = ["CREATE TABLE t (s VARCHAR(60000))", *(f"INSERT INTO t VALUES ('{'a' * 60000}')" for _ in range(40))]
        data = journal_of(texts) + b"INSERT"
        self.fresh(data)
        ran = self.run(["--memory", "1M", "--journal", "pay.jn", "-c", "DELETE FROM t"])
        line = int(ran.error.partition(", line ")[2].partition(":")[0] or 0)
        self.told("--memory 1M", (ran.status, ran.output, ran.error), (3, "", f"tql: journal pay.jn, line {line}: E01 out of memory\n"))
        self.told("--memory 1M, the line", 4 <= line <= 2 * len(texts) and line % 2 == 0, True)
        self.told("--memory 1M, the file", self.file.read_bytes(), data)
        self.told("--memory 64M", self.run(["--memory", "64M", "--journal", "pay.jn", "-c", "DELETE FROM t"]).output, "DELETE 40\n")


def wrong(program: str) -> int:
    """Returns how many trials of a program differ."""
    with tempfile.TemporaryDirectory(prefix="tql-journals-") as folder:
        trials = Trials(program, Path(folder))
        for it in (trials.restarts, trials.checked_by_sha256sum, trials.verified, trials.opened_once, trials.read_by_itself, trials.transactions, trials.torn, trials.damaged,
                   trials.no_files, trials.full, trials.short_of_memory):
            it()
        print(f"{trials.count} trials of journals, {trials.wrong} wrong")
        return trials.wrong


if __name__ == "__main__":
    if len(sys.argv) > 2:
        sys.exit(__doc__)
    from quick import program as found
    sys.exit(int(wrong(str(Path(sys.argv[1]).resolve()) if sys.argv[1:] else found()) > 0))
