"""The two programs that are timed in turns, each of which answers statements through pipes: tql, and sqlite3 over a database in memory.

The speed of a shared machine changes from second to second, so a ratio is that of one turn, in which each program is asked the same.
"""
import os
import subprocess
import sys
import threading
from pathlib import Path

TOP = Path(__file__).resolve().parent.parent
TQL = os.environ.get("TQL", str(TOP / "tql"))
END = "end of the timed statements"


class Program:
    """A program that answers statements through pipes."""

    def __init__(self, who: str) -> None:
        self.is_ours = who == "tql"
        words = [TQL] if self.is_ours else ["sqlite3", ":memory:"]
        self.process = subprocess.Popen(words, stdin=subprocess.PIPE, stdout=subprocess.PIPE, text=True)
        if self.is_ours:
            self.process.stdin.write("CREATE TABLE mark (x VARCHAR(9));\nINSERT INTO mark VALUES ('x');\n")

    def run(self, lines: "list[str]") -> float:
        """Has these statements answered, and returns the processor's milliseconds for them."""
        before = self.used()
        mark = f"SELECT '{END}' FROM mark;" if self.is_ours else f"SELECT '{END}';"
        # A thread of its own writes, since a program that waits for its replies to be read does not read.
        writer = threading.Thread(target=self.write, args=["\n".join([*lines, mark]) + "\n"])
        writer.start()
        for line in self.process.stdout:
            if END in line:
                break
            if "REFUSED" in line or "rror" in line:
                sys.exit(f"changes.py: {line}")
        if self.is_ours:
            self.process.stdout.readline()
        writer.join()
        return self.used() - before

    def write(self, text: str) -> None:
        self.process.stdin.write(text)
        self.process.stdin.flush()

    def used(self) -> float:
        return int(Path(f"/proc/{self.process.pid}/schedstat").read_text().split()[0]) / 1e6

    def end(self) -> None:
        self.process.stdin.close()
        self.process.wait()


def begun(who: str) -> str:
    """Opens a transaction."""
    return "START TRANSACTION;" if who == "tql" else "BEGIN;"
