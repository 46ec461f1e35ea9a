"""bench/gain: its statistics on times that are known, its table of programs, and all builds of a small program."""
import unittest

from common import BAD_WORDS, DONE, MISSING, REFUSED, TOP, Case, loaded, needs, takes

GAIN = TOP / "bench" / "gain"


class Statistics(unittest.TestCase):
    """A gain is reported only if the interval excludes zero."""

    def test_verdicts(self):
        gain = loaded(GAIN)
        plain = [1.0 + 0.01 * (k % 7) for k in range(31)]
        noise = [1.0 + 0.3 * (k * 7 % 31) / 31 for k in range(31)]
        for factor, times, verdict in ((0.9, plain, "gain"), (1.1, plain, "loss"), (1.0, plain, "no difference shown"),
                                       (0.99, noise, "no difference shown")):
            with self.subTest(factor=factor, verdict=verdict):
                found = gain.gain_of([factor * each for each in reversed(times)], times)
                self.assertEqual(found.verdict(), verdict)
                self.assertLessEqual(found.low, found.difference + 1e-9)
                self.assertLessEqual(found.difference, found.high + 1e-9)


@takes(15)
class Gain(Case):
    def gain(self, *words):
        return self.run_here(GAIN, *words, limit=300)

    def test_words(self):
        self.file("bad.ini", "no section\n")
        for words, status in (
            (("none", "words"), MISSING), ((".", "words", "--time=0"), BAD_WORDS),
            ((".", "words", "--table=bad.ini"), REFUSED),
        ):
            with self.subTest(words):
                ran = self.gain(*words, "--compiler=cc")
                self.assertEqual((ran.status, ran.out), (status, b""), ran.said)

    @needs("clang-19", "llvm-profdata-19", "qemu-x86_64", "cc")
    def test_each_build(self):
        """The table of a program that a section names, with times."""
        self.file("demo/words.c", (TOP / "demo" / "words.c").read_bytes())
        self.file("table.ini", "[text]\nsources = %(here)s/demo\n")
        ran = self.gain(".", "text", "--table=table.ini", "--time=2")
        self.assertEqual(ran.status, DONE, ran.said)
        rows = [line.split("|")[1:-1] for line in ran.out.decode().splitlines() if line.startswith("|")]
        names = [build.name for build in loaded(GAIN).BUILDS]
        self.assertEqual([cell.strip() for cell in rows[0][1:]], names)
        self.assertRegex(rows[2][2], r"^ [+-]\d+\.\d%, [+-]\d+\.\d% $")
        self.assertEqual([row[0].strip() for row in rows[-len(names):]], names)


if __name__ == "__main__":
    unittest.main()
