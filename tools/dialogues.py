#!/usr/bin/env python3
"""Holds the dialogues of crates/tql_main/dialogues.txt with the program at a pseudo-terminal, and compares all that it shows.

Usage: tools/dialogues.py [--write] [NAME..]        TQL names another program than ./tql-quick

A dialogue is what a person sees: `=== NAME`, then a line `$ WORDS` with the words of the command line if there are some, files as `--- FILE`,
their lines and `---`, and then the talk. A line that begins with a prompt shows what is typed after it; `^D` is Ctrl-D. The last line is the
status in brackets; after it `+++ FILE`, its lines and `+++` are what a file must hold then. `COLUMNS=N` before the words sets the width.
Times are `# s`. `--write` writes what is shown into the file, for a reader to compare. The status is 1 where a dialogue differs.

Without names it also tries `.schema`: the tables of random scripts are made anew by what it prints, and the rest of each script must reply the same.
"""
import os
import pty
import re
import select
import shlex
import subprocess
import sys
import tempfile
import termios
from pathlib import Path

TOP = Path(__file__).resolve().parent.parent
DIALOGUES = TOP / "crates" / "tql_main" / "dialogues.txt"
PROMPTS = ("tql> ", "...> ", "'...> ", '"...> ')
PATIENCE = 60
# The scripts whose tables are made anew: every so many of those made at random over the grammar.
COPIES, STEP = TOP / "crates" / "test_cases" / "data" / "cases" / "copies", 7


class Dialogue:
    """A dialogue as the file has it."""

    def __init__(self, text: str) -> None:
        self.name, _, rest = text.partition("\n")
        self.words, self.columns, self.files, self.kept = [], None, {}, {}
        talk, lines = [], iter(rest.splitlines())
        for line in lines:
            if line.startswith("$ ") and not talk:
                self.words = shlex.split(line[2:])
                if self.words and self.words[0].startswith("COLUMNS="):
                    self.columns = self.words.pop(0)[8:]
            elif line.startswith(("--- ", "+++ ")) and (line[0] == "+" or not talk):
                block = []
                for more in lines:
                    if more == line[:3]:
                        break
                    block.append(more + "\n")
                (self.files if line[0] == "-" else self.kept)[line[4:]] = "".join(block)
            else:
                talk.append(line)
        while talk and not talk[-1]:
            talk.pop()
        self.talk = talk
        self.typed = [line[len(prompt):] for line in talk for prompt in PROMPTS if line.startswith(prompt)]

    def head(self) -> list[str]:
        """The lines before the talk."""
        words = ([f"COLUMNS={self.columns}"] if self.columns else []) + self.words
        files = [it for name, text in self.files.items() for it in (f"--- {name}", *text.splitlines(), "---")]
        return [f"=== {self.name}", *(["$ " + shlex.join(words)] if words else []), *files]


def dialogues() -> list[Dialogue]:
    return [Dialogue(it) for it in re.split(r"^=== ", DIALOGUES.read_text(encoding="utf-8"), flags=re.M)[1:]]


def shown_until_prompt(master: int) -> tuple[str, bool]:
    """What a terminal shows up to the next prompt, and whether one came; without one the program has ended."""
    shown = b""
    while True:
        if not select.select([master], [], [], PATIENCE)[0]:
            return shown.decode(errors="replace") + "<nothing more>", False
        try:
            part = os.read(master, 65536)
        except OSError:
            part = b""
        if not part:
            return shown.decode(errors="replace").replace("\r\n", "\n"), False
        shown += part
        text = shown.decode(errors="replace").replace("\r\n", "\n")
        if text.rpartition("\n")[2] in PROMPTS and not select.select([master], [], [], 0.05)[0]:
            return text, True


def held(program: str, dialogue: Dialogue) -> tuple[list[str], dict[str, str]]:
    """The talk as it went, and what the files hold that it should have made."""
    with tempfile.TemporaryDirectory(prefix="tql-dialogue-") as folder:
        for name, text in dialogue.files.items():
            Path(folder, name).write_text(text, encoding="utf-8")
        master, slave = pty.openpty()
        modes = termios.tcgetattr(slave)
        modes[3] &= ~termios.ECHO
        termios.tcsetattr(slave, termios.TCSANOW, modes)
        environment = {name: it for name, it in os.environ.items() if name != "COLUMNS"}
        if dialogue.columns:
            environment["COLUMNS"] = dialogue.columns
        started = subprocess.Popen([program, *dialogue.words], stdin=slave, stdout=slave, stderr=slave, cwd=folder, env=environment)
        os.close(slave)
        talk, goes_on = shown_until_prompt(master)
        for typed in dialogue.typed:
            if not goes_on:
                break
            os.write(master, typed[:-2].encode() + b"\x04" if typed.endswith("^D") else typed.encode() + b"\n")
            shown, goes_on = shown_until_prompt(master)
            if typed.endswith("^D") and shown.startswith("\n"):
                shown = shown[1:]
            talk += typed + "\n" + shown
        if goes_on:
            os.write(master, b"\x04")
            talk += "<still open>" + shown_until_prompt(master)[0]
        status = started.wait(PATIENCE)
        os.close(master)
        kept = {name: Path(folder, name).read_text(encoding="utf-8") if Path(folder, name).exists() else "<no file>\n" for name in dialogue.kept}
    return [*re.sub(r"time: [0-9.]+ s", "time: # s", talk).splitlines(), f"[{status}]"], kept


def wrong(program: str, names: list[str] = (), write: bool = False) -> int:
    """How many dialogues differ."""
    count, written = 0, []
    for dialogue in dialogues():
        if names and dialogue.name not in names:
            written.append("\n".join([*dialogue.head(), *dialogue.talk, *(it for name, text in dialogue.kept.items() for it in (f"+++ {name}", *text.splitlines(), "+++"))]))
            continue
        talk, kept = held(program, dialogue)
        written.append("\n".join([*dialogue.head(), *talk, *(it for name, text in kept.items() for it in (f"+++ {name}", *text.splitlines(), "+++"))]))
        if [it for it in dialogue.talk if it] != [it for it in talk if it] or kept != dialogue.kept:
            count += 1
            if not write:
                print(f"the dialogue {dialogue.name} went so:")
                print("\n".join(talk + [f"+++ {name}: {text}" for name, text in kept.items()]))
    if write:
        head = DIALOGUES.read_text(encoding="utf-8").partition("=== ")[0]
        DIALOGUES.write_text(head + "\n\n".join(written) + "\n", encoding="utf-8")
    return count


def replies(program: str, script: str) -> list[str]:
    """The replies to a script, in JSON without the numbers and lines of statements and the details of refusals."""
    ran = subprocess.run([program, "-q", "--format", "json", "-c", script], stdout=subprocess.PIPE, text=True, check=False)
    return [re.sub(r'^\{"statement": \d+, "line": \d+, |, "detail": .*', "", line) for line in ran.stdout.splitlines()]


def remade(program: str) -> int:
    """How many scripts differ once `.schema` has made their tables."""
    count = 0
    for path in sorted(COPIES.glob("*.sql"))[::STEP]:
        lines = path.read_text(encoding="utf-8").splitlines()
        last = next(place for place, line in enumerate(lines) if not line.startswith(("--", "AT ", "CREATE TABLE")))
        head, rest = "\n".join(lines[:last]), "\n".join(lines[last:])
        made = Dialogue("made\n$ -q -i head.sql\n--- head.sql\n" + head + "\n---\ntql> .output made.sql\ntql> .schema\ntql> .quit")
        made.kept = {"made.sql": ""}
        tables = held(program, made)[1]["made.sql"]
        started = "\n".join(line for line in lines[:last] if line.startswith("AT "))
        one, other = replies(program, head + "\n" + rest), replies(program, started + "\n" + tables + rest)
        behind = len(replies(program, rest))
        made_well = not any("refused" in line for line in replies(program, started + "\n" + tables))
        if not made_well or one[-behind:] != other[-behind:] or not tables.startswith("CREATE TABLE"):
            count += 1
            print(f"{path.name}: the script goes another way over these tables:\n{tables}")
    return count


def main() -> int:
    words = sys.argv[1:]
    names = [it for it in words if it != "--write"]
    program = str(Path(os.environ.get("TQL", TOP / "tql-quick")).resolve())
    count = wrong(program, names, "--write" in words) + (0 if words else remade(program))
    print(f"{len(dialogues())} dialogues, {count} wrong")
    return 1 if count and "--write" not in words else 0


if __name__ == "__main__":
    sys.exit(main())
