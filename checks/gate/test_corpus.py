"""The files that the fuzzers began with and those that found something, corpus.tar.xz: each run ends as it did when it was kept."""
import unittest

from common import Case

try:
    import corpus
except ImportError as lacking:
    raise unittest.SkipTest(f"there is no {lacking.name}")

# In how many tests the runs are done, side by side.
PARTS = 4


class Corpus(Case):
    def try_part(self, part):
        files, runs = corpus.unpacked()
        for name, content in files.items():
            self.file(name, content)
        for kept in runs[part::PARTS]:
            with self.subTest(" ".join(kept.words)):
                self.assertEqual(corpus.ended(kept.words, self.folder), kept)

    def test_runs_0(self):
        self.try_part(0)

    def test_runs_1(self):
        self.try_part(1)

    def test_runs_2(self):
        self.try_part(2)

    def test_runs_3(self):
        self.try_part(3)


if __name__ == "__main__":
    unittest.main()
