#!/usr/bin/env python3
"""Makes the C library in build/: libtql.so.0, its copy libtql.so, libtql.a and tql.pc. Does nothing where they are newer than their sources.

Usage: tools/library.py [--quick] [--silent]        (make lib; with --quick make quick-lib)

make lib proves tql_c and all crates below it, as make build proves those of the program, and links what `rt lib` leaves with bindings/c/tql.c.
make quick-lib links the module that make quick compiles, which has the checks of `rt try` and no proof. tql_version() then says "unproved",
else the commit. With --silent nothing is said where the library is there already.

libtql.so is a copy and no link, since the gate takes no links. Both libraries define tql_* alone, and need nothing but the C library. CC is the
compiler, else gcc or cc is.
"""
import os
import shutil
import signal
import subprocess
import sys
import tempfile
import time
from pathlib import Path

sys.dont_write_bytecode = True

import quick
from quick import EXPORTS, OBJECT, PROGRAM, TOP, crates_of, is_new, run, warn_of_kit

C, BUILD = TOP / "bindings" / "c", TOP / "build"
FILES = ("libtql.so.0", "libtql.so", "libtql.a", "tql.pc")
UNPROVED = "unproved"
FLAGS = ("-std=c11", "-Wall", "-Wextra", "-O2", "-fPIC", "-ffunction-sections", "-fdata-sections")
PC = """prefix={prefix}
libdir=${{prefix}}/{lib}
includedir=${{prefix}}/{include}

Name: tql
Description: In-memory SQL engine for bitemporal tables
Version: {version}
Libs: -L${{libdir}} -ltql
Cflags: -I${{includedir}}
"""


def compiler() -> str:
    """Returns the C compiler; empty if there is none."""
    return shutil.which(os.environ.get("CC", "")) or shutil.which("gcc") or shutil.which("cc") or ""


def version() -> str:
    """Returns the version, as tql.h has it."""
    return next(it.split()[2].strip('"') for it in (C / "tql.h").read_text(encoding="utf-8").splitlines() if it.startswith("#define TQL_VERSION "))


def pc(above: str, lib: str, include: str) -> str:
    """Returns a file for pkg-config. It finds the library and the header in folders of that which is `above` its own."""
    return PC.format(prefix=f"${{pcfiledir}}/{above}", lib=lib, include=include, version=version())


def is_unproved(folder: Path) -> bool:
    """Whether the library of a folder says that it is unproved."""
    return f"{version()} {UNPROVED}\0".encode() in (folder / FILES[0]).read_bytes()


def is_there(proved: bool) -> bool:
    """Whether build/ has a library that is newer than its sources; with `proved` one that was proved."""
    parts, sources = ("src", "specs", "proofs") if proved else ("src",), [C / "tql.c", C / "tql.h"]
    made = BUILD / FILES[0]
    return (all((BUILD / it).exists() for it in FILES) and is_new(made, *parts, crates=(EXPORTS,)) and not (proved and is_unproved(BUILD))
            and all(it.stat().st_mtime < made.stat().st_mtime for it in sources))


def linked(objects: "list[str]", build: str, room: Path, began: float) -> None:
    """Links objects that have the exports with tql.c, and leaves the libraries in build/."""
    kit = quick.kit()
    objects = ["tql.o", *objects, *(str(kit / "c" / it) for it in ("libos_c.a", "liblibc_c.a"))]
    failed = "make lib: the library was not linked"
    run([compiler(), *FLAGS, f'-DTQL_BUILD="{build}"', "-c", str(C / "tql.c"), "-o", "tql.o"], room, failed)
    (room / "tql.map").write_text("TQL_0 { global: tql_*; local: *; };\n", encoding="utf-8")
    run([compiler(), "-shared", "-o", "libtql.so.0", *objects, "-Wl,-soname,libtql.so.0", "-Wl,--version-script=tql.map", "-Wl,--gc-sections",
         "-Wl,-z,relro,-z,now", "-Wl,--no-undefined", "-s"], room, failed)
    # One object, in which tql_* alone is global, so that nothing clashes with what a host links.
    named = run(["nm", "--defined-only", "--format=posix", "tql.o"], room, failed).splitlines()
    kept = [f"--undefined={it.split()[0]}" for it in named if it.startswith("tql_") and it.split()[1] == "T"]
    run(["ld", "-r", "--gc-sections", *kept, "-o", "whole.o", *objects], room, failed)
    run(["objcopy", "--strip-unneeded", "--wildcard", "--keep-global-symbol=tql_*", "whole.o"], room, failed)
    run(["ar", "rcsD", "libtql.a", "whole.o"], room, failed)
    (room / "tql.pc").write_text(pc("..", "build", "bindings/c"), encoding="utf-8")
    BUILD.mkdir(exist_ok=True)
    for name in FILES:
        quick.leave(room / (FILES[0] if name == FILES[1] else name), BUILD / name, began)


def commit() -> str:
    """Returns the commit of the sources, with a mark if they were changed; "proved" where that is not known."""
    ran = subprocess.run(["git", "describe", "--always", "--dirty", "--exclude=*"], cwd=TOP, capture_output=True, text=True, check=False)
    return ran.stdout.strip() or "proved"


def prove() -> str:
    """Proves the crate of the exports over those below it, and returns the path of what `rt lib` leaves."""
    from build import prove as proved
    crates = crates_of(EXPORTS)
    print(f"make lib: proving {len(crates)} crates", flush=True)
    for number, crate in enumerate(crates, 1):
        print(f"proved {number} of {len(crates)}: {crate}, {proved(crate)}", flush=True)
    return str(TOP / "crates" / EXPORTS / "out" / f"lib{EXPORTS}.a")


def main(words: "list[str]") -> int:
    if set(words) - {"--quick", "--silent"}:
        sys.exit(__doc__)
    is_quick, is_silent = "--quick" in words, "--silent" in words
    name = "make quick-lib" if is_quick else "make lib"
    if is_there(proved=not is_quick):
        if not is_silent:
            print(f"{name}: build/ has the library, newer than its sources")
        return 0
    if not shutil.which("rt") or not compiler():
        sys.exit(f"{name}: there is no {'C compiler' if shutil.which('rt') else 'rt'} on the path")
    signal.signal(signal.SIGTERM, lambda number, _: sys.exit(128 + number))
    with tempfile.TemporaryDirectory(prefix="tql-lib-") as folder:
        if is_quick:
            quick.main(["--silent"])
            is_still_new = is_new(OBJECT, "src", crates=(PROGRAM, EXPORTS))
            linked([str(OBJECT)], UNPROVED, Path(folder), time.time() if is_still_new else OBJECT.stat().st_mtime)
        else:
            warn_of_kit(name)
            began = time.time()
            linked([prove()], commit(), Path(folder), began)
    print(f"{name}: build/ has libtql.so.0, libtql.a and tql.pc, {'compiled without a proof; make lib proves them' if is_quick else 'proved'}")
    return 0


if __name__ == "__main__":
    try:
        sys.exit(main(sys.argv[1:]))
    except KeyboardInterrupt:
        sys.exit(130)
