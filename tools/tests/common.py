"""What the tests of the tools share: the program, a folder of their own, and how a tool is run."""
import functools
import subprocess
import sys
from pathlib import Path

TOOLS = Path(__file__).resolve().parent.parent
TOP = TOOLS.parent
CASES = TOP / "crates" / "test_cases" / "data" / "cases"
sys.dont_write_bytecode = True
sys.path.insert(0, str(TOOLS))
import quick  # noqa: E402


@functools.cache
def tql() -> str:
    """Returns the program that the tests run (see tools/quick.py)."""
    return str(Path(quick.program()).resolve())


def ran(words: list, given: "bytes | str" = b"", **more) -> subprocess.CompletedProcess:
    """Runs a command on an input. What it writes is bytes."""
    given = given.encode() if isinstance(given, str) else given
    return subprocess.run([str(it) for it in words], input=given, capture_output=True, check=False, **more)
