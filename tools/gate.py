#!/usr/bin/env python3
"""Runs the gate, rt ci, and says before its last line what it cost: processor seconds of each crate and task, and their sum.

Usage: tools/gate.py [--plain]        (a part of make test; make test PLAIN=1)

What rt ci prints is passed on as it comes. Without RT_JOBS in the environment it gets as many lanes as there are processors, or as fit into the memory
that is free: a check that is given more processors than one ends sooner, but takes a fifth more of their time. Every SECONDS its checks are looked up
in /proc, so of each the seconds after the last look are missed, some two of a hundred. Only checks that this gate started are counted. A check belongs
to the crate that it names; it is a test where it reads tests, and an edit where it runs in a copy of the crate.
Shared processors are slower, so a fixed loop is timed too: 'by pace' is the sum as it would be on a machine where the loop takes PACE seconds. The
status is that of rt ci.

Some kits look up the libraries below a crate, and sum up their sources, again for each path that crates.txt has to a library. This repository has half
a million of these paths, at an estimated 10 ms each. Neither changes while rt ci runs, so each crate's answer is remembered (see REMEMBERED): the
kit's rt is loaded here, two of its methods are replaced by ones that remember, and its 'ci' is called. With --plain the kit's own command rt ci is
run as it is, which takes hours with such a kit.
"""
import functools
import importlib.machinery
import importlib.util
import os
import re
import shutil
import statistics
import subprocess
import sys
import threading
import time
from pathlib import Path

SECONDS, PACE, LEAST = 2, 0.15, 30
# The most memory that a check takes, in bytes.
MEMORY = 3 << 30
TICKS = os.sysconf("SC_CLK_TCK")
# What rt asks a crate again and again: the libraries below it, and a sum of its sources and theirs, which rt ci keeps nowhere.
REMEMBERED = ("below", "stamp")
# The table has a line for each that took LEAST seconds or more.
NAMED = re.compile(rb"--crate-name\0(\w+)\0")


def loop() -> float:
    """The processor seconds that a fixed loop takes now."""
    began, total = time.thread_time(), 0
    for it in range(2_000_000):
        total += it * it
    return time.thread_time() - began


def lanes() -> int:
    """How many checks run side by side."""
    free = re.search(r"MemAvailable: +(\d+) kB", Path("/proc/meminfo").read_text())
    fit = int(free[1]) * 1024 // MEMORY if free else 1
    return max(1, min(len(os.sched_getaffinity(0)), fit))


def processes() -> "dict[int, list[str]]":
    """The processes that run now, each with the fields of its line in /proc after its name."""
    found = {}
    for folder in Path("/proc").iterdir():
        if folder.name.isdigit():
            try:
                found[int(folder.name)] = (folder / "stat").read_text().rpartition(")")[2].split()
            except OSError:
                pass
    return found


def is_own(process: int, running: "dict[int, list[str]]") -> bool:
    """Whether this program started a process, or started one that did."""
    while process in running and process != os.getpid():
        process = int(running[process][1])
    return process == os.getpid()


def checks() -> "list[tuple[str, tuple[str, str], float]]":
    """The checks of this gate that run now: which process, of which crate and task, and its processor seconds."""
    found, running = [], processes()
    for process, fields in running.items():
        folder = Path(f"/proc/{process}")
        try:
            words, place = (folder / "cmdline").read_bytes(), os.readlink(folder / "cwd")
        except OSError:
            continue
        named = NAMED.search(words)
        if not named or b"rattle" not in words.split(b"\0")[0] or not is_own(process, running):
            continue
        task = "edits" if "rt-edit" in place else "tests" if b"\0--test\0" in words else "proof"
        used = (int(fields[11]) + int(fields[12])) / TICKS
        found.append((f"{process}.{fields[19]}", (named[1].decode(), task), used))
    return found


class Meter(threading.Thread):
    """Looks at the checks until it is told to end."""

    def __init__(self) -> None:
        super().__init__(daemon=True)
        self.ended, self.used, self.paces = threading.Event(), {}, [loop()]

    def run(self) -> None:
        looks = 0
        while not self.ended.wait(SECONDS):
            looks += 1
            self.used.update({process: (of, used) for process, of, used in checks()})
            if looks % 15 == 0:
                self.paces.append(loop())

    def report(self) -> str:
        """The table and the sums."""
        found = {}
        for of, used in self.used.values():
            found[of] = found.get(of, 0.0) + used
        lines = [f"gate: {used:6.0f} s  {crate} {task}" for (crate, task), used in sorted(found.items(), key=lambda it: -it[1]) if used >= LEAST]
        minutes, pace = sum(found.values()) / 60, statistics.median(self.paces)
        sums = {task: sum(used for (_, at), used in found.items() if at == task) / 60 for task in ("proof", "tests", "edits")}
        lines.append("gate: " + ", ".join(f"{task} {used:.0f}" for task, used in sums.items()) + " processor minutes")
        lines.append(f"gate: in all {minutes:.0f} processor minutes, by pace {minutes * PACE / pace:.0f} (the loop took {pace:.3f} s)")
        return "\n".join(lines)


def kit():
    """The kit's rt as a module, where each crate remembers its answers."""
    loader = importlib.machinery.SourceFileLoader("rt", os.path.realpath(shutil.which("rt")))
    rt = importlib.util.module_from_spec(importlib.util.spec_from_loader("rt", loader))
    loader.exec_module(rt)
    for name in REMEMBERED:
        if hasattr(rt.rtlib.Crate, name):
            setattr(rt.rtlib.Crate, name, functools.cache(getattr(rt.rtlib.Crate, name)))
    return rt


def main(words: "list[str]") -> int:
    if words == ["--ci"]:
        return kit().main(["ci"])
    if words not in ([], ["--plain"]):
        sys.exit(__doc__)
    meter = Meter()
    meter.start()
    # The last line is held back, so that it stays the last.
    last = ""
    how = {"env": {"RT_JOBS": str(lanes()), **os.environ}, "stdout": subprocess.PIPE, "text": True, "errors": "replace"}
    with subprocess.Popen(["rt", "ci"] if words else [sys.executable, __file__, "--ci"], **how) as ran:
        for line in ran.stdout:
            print(last, end="", flush=True)
            last = line
    meter.ended.set()
    meter.join()
    print(meter.report(), flush=True)
    print(last, end="", flush=True)
    return ran.returncode


if __name__ == "__main__":
    sys.exit(main(sys.argv[1:]))
