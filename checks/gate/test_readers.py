"""Our readers of programs beside pyelftools and capstone, on two programs. checks/by_hand/readers does so for any."""
import unittest

from common import MISSING, TOP, WORDS, Case, needs, run, takes

READERS = TOP / "checks" / "by_hand" / "readers"


@takes(20)
@needs("objdump")
class Readers(Case):
    def test_same(self) -> None:
        for path, least in ((WORDS, 200), (TOP / "release" / "pgo", 100000)):
            with self.subTest(path.name):
                ran = run(READERS, path)
                if ran.status == MISSING:
                    self.skipTest("there is no pyelftools, or no capstone")
                self.assertEqual((ran.status, ran.err), (0, b""), ran.out.decode()[:2000])
                counts = rb"\A1 files, [0-9]+ instructions, [0-9]+ jumps and the like: 0 differences, 0 "
                self.assertRegex(ran.out, counts)
                self.assertGreater(int(ran.out.split()[2]), least)


if __name__ == "__main__":
    unittest.main()
