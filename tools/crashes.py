#!/usr/bin/env python3
"""Kills the program at random moments of sessions with a journal, and compares what is recovered with the reference model. Outside the gate.

Usage: tools/crashes.py COUNT [FIRST]               kills COUNT sessions, by the counters from FIRST (by default 1) on
       tools/crashes.py --restarts COUNT [FIRST]    runs COUNT scripts to their ends, starts again, and asks each database the same questions

(make try-crashes COUNT=1000 does the first, then some with the syncs left out, where it has to find faults, and 500 restarts.)

A session is made by a counter as tools/copies.py makes scripts: with portions, keys, references, transactions, readers, pruning and refused
statements. It goes to the program through a pipe, in pieces of random lengths, on the journal that earlier sessions left. The program is ended by
SIGKILL. In most runs the file is then cut to a random length from that of the last sync on, as a loss of power may leave it; a shim, which is
loaded before the C library, notes that length. Then:
- replies    what came is a beginning of what the model prints;
- kept       the journal (read here by hashlib) has the statements of earlier sessions, and then some first ones of those that this session kept, and
             a ROLLBACK where a transaction was open; with all of which a byte of a reply came, but for those in a transaction that was open then;
- state      after a restart every table has, now and in the past, what the model has after these statements.
With the syncs left out (COUNT / 20 runs) the same has to find faults. The program is TQL=path, or as tools/quick.py finds it; `cc` compiles the
shim. The status is 1 where something is wrong, and what is wrong is kept in a folder, which is named.
"""
import os
import random
import shutil
import signal
import subprocess
import sys
import tempfile
import threading
import time
from concurrent.futures import ProcessPoolExecutor
from functools import partial
from itertools import accumulate
from pathlib import Path

sys.dont_write_bytecode = True

from copying.machine import Machine
from keeping import Session, asked_in, environment, shim_in, text_of, texts_of
from quick import program

# How many sessions at most a journal has, and how many statements a session; how many of the last commits are asked for, and how many questions are
# asked at random after a crash and after a restart.
SESSIONS, FEWEST, MOST = 4, 5, 60
AFTER_CRASH, AFTER_RESTART, ALL = (8, 5), (10**9, 20), 10**9
PATIENCE = 60


def run(words: list[str], script: bytes = b"", **more) -> subprocess.CompletedProcess:
    """The program run on a script on its standard input."""
    return subprocess.run([program(), "-q", "--format", "table", *words], input=script, capture_output=True, timeout=PATIENCE, check=False, **more)


def killed(session: Session, journal: Path, chance: random.Random, env: dict) -> bytes:
    """Runs a session until it is killed, and returns the replies that came."""
    words = [program(), "-q", "--format", "table", "--journal", str(journal)]
    started = subprocess.Popen(words, stdin=subprocess.PIPE, stdout=subprocess.PIPE, stderr=subprocess.DEVNULL, env=env, bufsize=0)
    came, begun, is_over = [], threading.Event(), threading.Event()

    def read() -> None:
        while piece := os.read(started.stdout.fileno(), 65536):
            came.append(piece)
            begun.set()

    def write() -> None:
        script = session.script()
        try:
            while script and not is_over.is_set():
                count = chance.choice((1, 1, 2, 3, 10, 60))
                started.stdin.write(b"".join(script[:count]))
                script = script[count:]
                time.sleep(chance.random() * 0.003 * chance.randint(0, 1))
        except OSError:
            pass

    threads = [threading.Thread(target=it) for it in (read, write)]
    for it in threads:
        it.start()
    if chance.random() < 0.9:
        begun.wait(5)
    time.sleep(chance.random() ** 2 * 0.1)
    started.send_signal(signal.SIGKILL)
    is_over.set()
    started.wait()
    for it in threads:
        it.join()
    started.stdin.close()
    started.stdout.close()
    return b"".join(came)


def cut_back(journal: Path, note: Path, start: int, chance: random.Random) -> None:
    """Cuts a file to a random length from that of the last sync on; what a session finds is synced before it answers."""
    size = journal.stat().st_size if journal.exists() else 0
    synced = int.from_bytes(note.read_bytes(), "little") if note.exists() else start
    if size and chance.random() < 0.6:
        os.truncate(journal, chance.randint(min(synced, size), size))


def wrong_with(session: Session, came: bytes, before: list[bytes], after: list[bytes]) -> tuple[str, int]:
    """Returns what is wrong with a recovered journal, or nothing; and how many statements of the session it stands for."""
    ends = [*accumulate(len(it.encode()) for it in session.replies)]
    if not "".join(session.replies).encode().startswith(came):
        return f"replies: {came!r}", 0
    answered = sum(begin < len(came) for begin in [0, *ends][:-1])
    while session.opened_after(answered):
        answered -= 1
    kept = session.kept()
    if after[:len(before)] != before:
        return "kept: what earlier sessions kept is changed", 0
    new = after[len(before):]
    for many in (len(new), len(new) - 1):
        texts = [text_of(session.statements[it]).encode() for it in kept[:max(many, 0)]]
        count = kept[many - 1] + 1 if 0 < many <= len(kept) else 0
        if many >= 0 and new == texts + [b"ROLLBACK"] * session.opened_after(count):
            lost = sum(it < answered for it in kept) - many
            return (f"kept: {lost} statements that were answered are lost" if lost > 0 else ""), count
    return f"kept: {new!r}", 0


def wrong_state(journal: Path, machine: Machine, seed: int, many: tuple[int, int]) -> str:
    """Returns what is wrong with the answers to questions after a restart, or nothing."""
    asked, wanted = asked_in(machine, seed, *many)
    ran = run(["--journal", str(journal)], asked)
    return "" if ran.stdout.decode() == wanted else f"state: {ran.stdout!r}, not {wanted!r}; {ran.stderr!r}"


def crash(seed: int, shim: Path, left_out: bool) -> tuple[int, int, int, list[str]]:
    """Sessions on one journal, each of which is killed: how many there were, how many statements had to be there, how many ends were torn, and what
    is wrong."""
    chance, machine, texts, wrong = random.Random(seed), Machine(), [], []
    had, torn, sessions = 0, 0, chance.randint(1, SESSIONS)
    room = Path(tempfile.mkdtemp(prefix="crashes."))
    journal, note = room / "journal", room / "note"
    for at in range(sessions):
        session = Session(machine, seed * 10 + at, chance.randint(FEWEST, MOST))
        start = journal.stat().st_size if journal.exists() else 0
        came = killed(session, journal, chance, environment(room, shim, left_out))
        cut_back(journal, note, start, chance)
        note.unlink(missing_ok=True)
        if journal.exists():
            shutil.copy(journal, room / "found")
        recovered = run(["--journal", str(journal), "-c", ""])
        torn += b"are cut off" in recovered.stderr
        if recovered.returncode or recovered.stdout:
            wrong.append(f"seed {seed}, session {at}: recovery: {recovered.stderr!r}")
            break
        found = texts_of(journal.read_bytes())
        fault, count = wrong_with(session, came, texts, found)
        machine = session.state_after(count)
        fault = fault or wrong_state(journal, machine, seed, AFTER_CRASH)
        if fault:
            wrong.append(f"seed {seed}, session {at}: {fault}")
            break
        had, texts = had + count, found
    if wrong:
        wrong.append(f"kept in {room}")
    else:
        shutil.rmtree(room)
    return sessions, had, torn, wrong


def restart(seed: int) -> list[str]:
    """A script to its end, and a restart: what is wrong with the answers to the same questions, before and after."""
    session = Session(Machine(), seed, MOST)
    machine = session.state_after(len(session.statements))
    asked, wanted = asked_in(machine, seed, *AFTER_RESTART)
    closing = b"".join(b"CLOSE READER " + it.text.split(None, 2)[2].encode() + b";\n" for it in session.statements if it.text.startswith("OPEN READER"))
    wrong = []
    with tempfile.TemporaryDirectory(prefix="restarts.") as folder:
        journal = Path(folder) / "journal"
        before = run(["--journal", str(journal)], b"".join(session.script()))
        plain = run([], b"".join(session.script()) + b"ROLLBACK;\n" * session.opened_after(len(session.statements)) + closing + asked)
        if before.stdout.decode() != "".join(session.replies) or not plain.stdout.decode().endswith(wanted):
            wrong.append(f"seed {seed}: before: {before.stdout!r}")
        fault = wrong_state(journal, machine, seed, AFTER_RESTART)
        if fault:
            wrong.append(f"seed {seed}: {fault}")
        if run(["--verify", str(journal)]).returncode:
            wrong.append(f"seed {seed}: --verify finds a fault")
    return wrong


def restarts(count: int, first: int = 1) -> int:
    """Restarts after scripts; returns how many are wrong."""
    with ProcessPoolExecutor(os.cpu_count()) as pool:
        wrong = [it for it in pool.map(restart, range(first, first + count)) if it]
    for it in wrong:
        print(*(line[:2000] for line in it), sep="\n")
    print(f"{count} scripts from {first}, each with its questions after a restart: {len(wrong)} wrong", flush=True)
    return len(wrong)


def crashes(count: int, first: int = 1, left_out: bool = False) -> int:
    """Kills sessions until there were so many; returns how many journals are wrong."""
    sessions = had = torn = wrong = 0
    with tempfile.TemporaryDirectory(prefix="crashes-shim.") as folder, ProcessPoolExecutor(os.cpu_count()) as pool:
        shim, seed = shim_in(Path(folder)), first
        while sessions < count:
            seeds = range(seed, seed + max(1, (count - sessions) // SESSIONS))
            for many, there, ends, found in pool.map(partial(crash, shim=shim, left_out=left_out), seeds):
                sessions, had, torn, wrong = sessions + many, had + there, torn + ends, wrong + bool(found)
                if found and not left_out:
                    print(*(line[:2000] for line in found), sep="\n")
            seed = seeds.stop
    print(f"{sessions} sessions killed{' with the syncs left out' if left_out else ''}: {wrong} journals wrong; {torn} torn ends, {had} statements "
          f"recovered", flush=True)
    return wrong


def main() -> int:
    words = sys.argv[1:]
    is_restart = words[:1] == ["--restarts"]
    numbers = words[is_restart:]
    if not 1 <= len(numbers) <= 2 or not all(it.isdigit() for it in numbers):
        sys.exit(__doc__)
    program()
    if is_restart:
        return int(restarts(*map(int, numbers)) > 0)
    wrong = crashes(*map(int, numbers))
    unseen = crashes(max(40, int(numbers[0]) // 20), left_out=True) == 0
    if unseen:
        print("with the syncs left out nothing was found wrong, so this finds nothing")
    return int(wrong > 0 or unseen)


if __name__ == "__main__":
    sys.exit(main())
