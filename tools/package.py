#!/usr/bin/env python3
"""Packs the program with its tools and documents: an archive, a package for Debian, and the sums of both.

Usage: tools/package.py PROGRAM [FOLDER]        (make package; the folder is dist/)

The folder gets tql-VERSION-linux-x86_64.tar.gz, tql_VERSION_amd64.deb and SHA256SUMS. The same files give the same bytes: names are sorted, owners are root,
and each time is that of the last commit, or SOURCE_DATE_EPOCH. The archive has a SHA256SUMS of its own files.
"""
import gzip
import hashlib
import io
import os
import re
import subprocess
import sys
import tarfile
from pathlib import Path

sys.dont_write_bytecode = True
import install  # noqa: E402

TOP = Path(__file__).resolve().parent.parent
CONTROL = """Package: tql
Version: {version}
Architecture: amd64
Maintainer: the Wazgrid developers <tql@wazgrid.invalid>
Installed-Size: {size}
Depends: libc6 (>= {libc})
Recommends: python3
Section: database
Priority: optional
Description: in-memory SQL engine for bitemporal tables
 It records for each row when it was true in the world and when the database knew it (ISO/IEC 9075-2:2011).
 {proof}
"""
PROOFS = ("Compiled without a proof (make quick).", "Each function was proved to meet its contract (make build).")


def epoch() -> int:
    """Returns the time that all files have."""
    if "SOURCE_DATE_EPOCH" in os.environ:
        return int(os.environ["SOURCE_DATE_EPOCH"])
    ran = subprocess.run(["git", "-C", str(TOP), "log", "-1", "--format=%ct"], stdout=subprocess.PIPE, text=True, check=False)
    return int(ran.stdout.strip() or 0)


def packed(files: list, when: int) -> bytes:
    """Returns a compressed archive of files (path, bytes, mode), with the folders that they are in."""
    folders = sorted({str(it) for path, _, _ in files for it in path.parents if str(it) != "."})
    out = io.BytesIO()
    with gzip.GzipFile("", "wb", 9, out, mtime=when) as zipped, tarfile.open(fileobj=zipped, mode="w", format=tarfile.USTAR_FORMAT) as archive:
        for name in folders:
            entry = tarfile.TarInfo(f"./{name}/")
            entry.type, entry.mode, entry.mtime = tarfile.DIRTYPE, 0o755, when
            archive.addfile(entry)
        for path, content, mode in sorted(files):
            entry = tarfile.TarInfo(f"./{path}")
            entry.size, entry.mode, entry.mtime = len(content), mode, when
            archive.addfile(entry, io.BytesIO(content))
    return out.getvalue()


def sums(files: list, name: str) -> bytes:
    """Returns a line for each file with its hash."""
    return "".join(f"{hashlib.new(name, content).hexdigest()}  {path}\n" for path, content, *_ in sorted(files)).encode()


def debian(files: list, version: str, is_proved: bool, when: int) -> bytes:
    """Returns the package: an archive of ar with the form, the control files and the data."""
    below = [(Path("usr") / path, content, mode) for path, content, mode in files]
    licences = b"".join(content for path, content, _ in files if path.name == "LICENSE-MIT")
    below.append((Path("usr/share/doc/tql/copyright"), b"Apache License 2.0 (/usr/share/common-licenses/Apache-2.0), or:\n\n" + licences, 0o644))
    needed = [it for path, content, _ in files if path.parts[0] in ("bin", "lib") for it in re.findall(rb"GLIBC_(2\.[0-9]+)", content)]
    libc = max((tuple(map(int, it.split(b"."))) for it in needed), default=(2, 17))
    control = CONTROL.format(version=version, size=sum(len(it[1]) for it in below) // 1024 + 1, libc=".".join(map(str, libc)), proof=PROOFS[is_proved])
    about = [(Path("control"), control.encode(), 0o644), (Path("md5sums"), sums(below, "md5"), 0o644)]
    package = b"!<arch>\n"
    for name, content in (("debian-binary", b"2.0\n"), ("control.tar.gz", packed(about, when)), ("data.tar.gz", packed(below, when))):
        package += f"{name:16}{when:<12}{0:<6}{0:<6}{'100644':8}{len(content):<10}`\n".encode() + content + b"\n" * (len(content) % 2)
    return package


def main(words: list) -> int:
    if len(words) not in (1, 2):
        sys.exit(__doc__)
    program, folder = Path(words[0]), Path(words[1]) if words[1:] else TOP / "dist"
    if not os.access(program, os.X_OK):
        print(f"make package: there is no {program} yet; make build leaves ./tql, and TQL=./tql-quick packs that of make quick", file=sys.stderr)
        return 2
    told = subprocess.run([str(program.resolve()), "--version"], stdout=subprocess.PIPE, text=True, check=True).stdout
    version, when = told.split()[1], epoch()
    files = list(install.installed(program))
    name = f"tql-{version}-linux-x86_64"
    whole = [(Path(name) / path, content, mode) for path, content, mode in [*files, (Path("SHA256SUMS"), sums(files, "sha256"), 0o644)]]
    made = {f"{name}.tar.gz": packed(whole, when),
            f"tql_{version}_amd64.deb": debian(files, version, program.resolve() == TOP / "tql", when)}
    folder.mkdir(exist_ok=True)
    for it, content in made.items():
        (folder / it).write_bytes(content)
    (folder / "SHA256SUMS").write_bytes(sums([(Path(it), content) for it, content in made.items()], "sha256"))
    print((folder / "SHA256SUMS").read_text(encoding="utf-8"), end="")
    return 0


if __name__ == "__main__":
    sys.exit(main(sys.argv[1:]))
