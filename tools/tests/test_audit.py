"""Runs examples/audit.sh, which has what it prints at its end."""
import re
import unittest

from common import TOP, ran, tql

AUDIT = TOP / "examples" / "audit.sh"


class Audit(unittest.TestCase):
    def test_a_changed_byte_is_found(self):
        told = ran([str(AUDIT), str(tql())], cwd=TOP)
        wanted = re.search(r"\n\n((?:# .*\n)+)$", AUDIT.read_text(encoding="utf-8"))[1].replace("# ", "")
        self.assertEqual((told.returncode, told.stdout.decode()), (0, wanted))


if __name__ == "__main__":
    unittest.main()
