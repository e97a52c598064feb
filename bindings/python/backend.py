"""Builds the wheel of the module tql (PEP 517), for which pip needs nothing but Python.

The wheel has the C library in it: that at TQL_LIBRARY, else build/libtql.so.0 of this repository. Where there is neither, it has none, and the
module looks for an installed one.
"""
import base64
import hashlib
import io
import os
import re
import sysconfig
import tarfile
import zipfile
from pathlib import Path

HERE = Path(__file__).resolve().parent
MODULE = HERE / "tql"
LIBRARY = "libtql.so.0"
VERSION = re.search(r'^__version__ = "(.+)"', (MODULE / "__init__.py").read_text(encoding="utf-8"), re.M)[1]
METADATA = f"""Metadata-Version: 2.1
Name: tql
Version: {VERSION}
Summary: DB-API 2.0 module for tql, an in-memory SQL engine for bitemporal tables
License: MIT OR Apache-2.0
Requires-Python: >=3.9
Classifier: Operating System :: POSIX :: Linux
Classifier: Topic :: Database
Classifier: Typing :: Typed
"""


def library():
    """Returns the C library, or None."""
    found = Path(os.environ.get("TQL_LIBRARY") or HERE.parent.parent / "build" / LIBRARY)
    return found if found.exists() else None


def build_wheel(wheel_directory, config_settings=None, metadata_directory=None):
    tag = "py3-none-" + (re.sub(r"[.-]", "_", sysconfig.get_platform()) if library() else "any")
    files = {f"tql/{it.name}": it.read_bytes() for it in sorted(MODULE.iterdir()) if it.suffix == ".py" or it.name == "py.typed"}
    if library():
        files[f"tql/{LIBRARY}"] = library().read_bytes()
    info = f"tql-{VERSION}.dist-info"
    files[f"{info}/METADATA"] = METADATA.encode()
    files[f"{info}/WHEEL"] = f"Wheel-Version: 1.0\nGenerator: tql\nRoot-Is-Purelib: {'false' if library() else 'true'}\nTag: {tag}\n".encode()
    digest = {it: base64.urlsafe_b64encode(hashlib.sha256(data).digest()).rstrip(b"=").decode() for it, data in files.items()}
    record = "".join(f"{it},sha256={digest[it]},{len(data)}\n" for it, data in files.items()) + f"{info}/RECORD,,\n"
    name = f"tql-{VERSION}-{tag}.whl"
    with zipfile.ZipFile(Path(wheel_directory) / name, "w", zipfile.ZIP_DEFLATED) as wheel:
        for path, data in {**files, f"{info}/RECORD": record.encode()}.items():
            wheel.writestr(zipfile.ZipInfo(path, (1980, 1, 1, 0, 0, 0)), data, zipfile.ZIP_DEFLATED)
    return name


def build_sdist(sdist_directory, config_settings=None):
    name = f"tql-{VERSION}"
    with tarfile.open(Path(sdist_directory) / f"{name}.tar.gz", "w:gz") as made:
        for it in (HERE / "pyproject.toml", HERE / "backend.py", *sorted(MODULE.glob("*.py")), MODULE / "py.typed"):
            made.add(it, f"{name}/{it.relative_to(HERE)}")
        info = tarfile.TarInfo(f"{name}/PKG-INFO")
        info.size = len(METADATA.encode())
        made.addfile(info, io.BytesIO(METADATA.encode()))
    return f"{name}.tar.gz"
