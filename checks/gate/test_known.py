"""The built programs on files of which each byte is known, and on drawn ones that second programs answer too."""
import unittest

from common import COLD, PGO, TOP, Case, takes

import cold
import judged
import judging
import known
import merges


@judging.parts(PGO, *known.PARTS)
class Known(unittest.TestCase):
    pass


@judging.parts(PGO, *merges.PARTS)
class Merges(unittest.TestCase):
    pass


@judging.parts(COLD, *cold.PARTS)
class Cold(unittest.TestCase):
    pass


class ColdInOnePass(Case):
    def test_both_ways(self):
        """What `pgo-cold profile` writes is what `pgo-cold` makes of what `pgo profile` writes, and the report of that."""
        for options in ((), ("--base",)):
            with self.subTest(options):
                files = [TOP / "demo/words", TOP / "demo/words.txt"]
                made = self.run_here(PGO, "profile", *options, *files).out
                lines = self.run_here(COLD, *options, files[0], self.file("prof", made)).out
                self.assertIn(b": 0\n", lines)
                self.expect(self.run_here(COLD, "profile", *options, *files), 0, lines + made[made.index(b"#"):])


class Drawn(unittest.TestCase):
    @takes(40)
    def test_merges_and_summaries(self):
        if judging.drawn(self, PGO, 400, merges.at_random):
            merges.kinds_at_random()

    @takes(40)
    def test_checked_repairs(self):
        judging.drawn(self, PGO, 1000, judged.one)
        judged.all_at_once()


if __name__ == "__main__":
    unittest.main()
