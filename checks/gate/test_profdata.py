"""`pgo merge` and `pgo summary` beside llvm-profdata, on the same texts."""
import unittest

from common import TOP, Case, needs, python


class Profdata(Case):
    @needs("llvm-profdata")
    def test_beside_it(self):
        ran = python(TOP / "checks" / "profdata", limit=600)
        self.assertEqual(ran.status, 0, (ran.out + ran.err).decode(errors="replace"))
        self.assertRegex(ran.out.decode(), r"(?m)^[1-9][0-9]* passed, 0 failed$")


if __name__ == "__main__":
    unittest.main()
