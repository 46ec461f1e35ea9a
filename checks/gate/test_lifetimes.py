"""Programs that must not compile. For each pair NAME.good and NAME.bad in must_not_compile/, which differ in one line, the good one has to
be proved and the bad one refused for a lifetime alone. The first line of each names the crates that it stands on: // crates: A B
"""
import re
import shutil
import unittest

from common import HERE, TOP, Case, needs, run, takes

PAIRS = sorted(path.stem for path in (HERE / "must_not_compile").glob("*.good"))
# The errors of a value that is moved or ends while a reference to it is kept.
LIFETIME = re.compile(r"error\[borrow-e0(505|515|597|621|716)\]")


@needs("rt")
class Lifetimes(Case):
    def checked(self, program, crate):
        """Checks a program as a crate of the copy."""
        source = self.folder / "crates" / crate / "src" / "lib.rt"
        source.parent.mkdir(parents=True)
        text = program.read_text()
        source.write_text(text)
        with open(self.folder / "crates.txt", "a", encoding="utf-8") as file:
            file.write(f"{crate}: {text.splitlines()[0].removeprefix('// crates: ')}\n")
        ran = run("rt", "check", folder=source.parent.parent, limit=1800)
        return ran.status, (ran.out + ran.err).decode(errors="replace")

    def judge(self, name):
        good, bad = (HERE / "must_not_compile" / f"{name}.{kind}" for kind in ("good", "bad"))
        lines = list(zip(good.read_text().splitlines(), bad.read_text().splitlines()))
        self.assertEqual(sum(one != other for one, other in lines), 1, "the pair differs in other than one line")
        status, said = self.checked(good, f"{name}_good")
        self.assertEqual(status, 0, said[-2000:])
        self.assertRegex(said, "(?m)^logic=proved", "the good program is refused")
        status, said = self.checked(bad, f"{name}_bad")
        self.assertNotEqual(status, 0, "the bad program is accepted")
        errors = [line for line in said.splitlines() if "error[" in line]
        self.assertTrue(errors and all(LIFETIME.search(line) for line in errors), f"it is refused for other than a lifetime: {errors[:5]}")

    @takes(300)
    def test_pairs(self):
        self.assertTrue(PAIRS)
        if not (TOP / "out" / "built").is_file():
            self.skipTest("nothing was proved here, which takes an hour: these programs are tried behind `make prove`")
        for name in ("crates.txt", "HANDLES"):
            shutil.copy(TOP / name, self.folder)
        shutil.copytree(TOP / "crates", self.folder / "crates", symlinks=True, ignore=shutil.ignore_patterns("out"))
        for name in PAIRS:
            with self.subTest(name):
                self.judge(name)


if __name__ == "__main__":
    unittest.main()
