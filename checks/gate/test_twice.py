"""checks/by_hand/twice: what it says of two clones, here of small ones with programs that no gate built."""
import shutil
import unittest

from common import DONE, FAILED, BAD_WORDS, MISSING, TOP, Case, needs, run

TWICE = TOP / "checks" / "by_hand" / "twice"
PLACES = {"pgo": "crates/pgo_cli/out/pgo_cli", "pgo-cold": "crates/pgo_cold/out/pgo_cold"}


@needs("sha256sum", "awk", "find")
class Twice(Case):
    def setUp(self):
        super().setUp()
        self.one, self.other = self.clone("one"), self.clone("the other")

    def clone(self, name, code="fn main() {}\n", kit="a kit", **programs):
        """A clone with these programs, and with out/built that tells of them."""
        folder = self.folder / name
        self.file(f"{name}/crates.txt", "# Programs\npgo_cli:\npgo_cold:\n")
        self.file(f"{name}/HANDLES", "files\n")
        (folder / "contrib").mkdir()
        shutil.copy(TOP / "contrib" / "release", folder / "contrib" / "release")
        for crate in ("pgo_cli", "pgo_cold"):
            self.file(f"{name}/crates/{crate}/src/main.rt", code)
        for program, place in PLACES.items():
            self.file(f"{name}/{place}", programs.get(program.replace("-", "_"), f"{program} is this"))
        sums = "".join(f"{program} {run('sha256sum', given=(folder / place).read_bytes()).out.decode().split()[0]}\n" for program, place in PLACES.items())
        sources = run(folder / "contrib" / "release", "--sources").out.decode()
        self.file(f"{name}/out/built", f"kit {kit}\nsources {sources}{sums}")
        return folder

    def says(self, status, pattern, *folders):
        self.tells(run(TWICE, *(folders or (self.one, self.other))), status, pattern)

    def test_the_same(self):
        ran = run(TWICE, self.one, self.other)
        self.assertEqual((ran.status, ran.err), (DONE, b""))
        self.assertRegex(ran.out.decode(), r"\Apgo: the same 11 bytes, [0-9a-f]{64}\npgo-cold: the same 16 bytes, [0-9a-f]{64}\n\Z")

    def test_others(self):
        """A byte, an end, and a program that knows where it was built."""
        for name, told in (("pgo is thus", "pgo: 11 and 11 bytes, which differ at byte 9"), ("pgo is", "pgo: 11 and 6 bytes, which differ at byte 6")):
            with self.subTest(name):
                shutil.rmtree(self.other)
                self.other = self.clone("the other", pgo=name)
                ran = run(TWICE, self.one, self.other)
                self.assertEqual((ran.status, ran.out.decode().splitlines()[0]), (FAILED, told))
                self.assertIn(b"pgo-cold: the same", ran.out)
        shutil.rmtree(self.other)
        self.other = self.clone("the other", pgo_cold=f"of {self.folder.resolve()}/the other/crates")
        ran = run(TWICE, self.one, self.other)
        self.assertEqual(ran.status, FAILED)
        self.assertIn(f"pgo-cold: {self.folder.resolve()}/the other stands in its own\n".encode(), ran.out)

    def test_what_says_nothing(self):
        self.says(BAD_WORDS, "it is one clone", self.one, self.folder / "one" / "." / "crates" / "..")
        self.says(FAILED, "sources: [0-9a-f]{64} in .*one, and [0-9a-f]{64} in", self.one, self.clone("new", code="fn main() { }\n"))
        self.says(FAILED, "kit: a kit in .*one, and another in", self.one, self.clone("of another kit", kit="another"))
        self.says(MISSING, "none/out/built: No such file.*ci/run", self.one, self.folder / "none")

    def test_clones_that_changed_since(self):
        self.file("one/crates/pgo_cli/src/main.rt", "fn main() { loop {} }\n")
        self.says(FAILED, "one: its programs were built of other sources")
        (self.other / PLACES["pgo-cold"]).write_text("pgo-cold is thus")
        self.says(FAILED, "pgo_cold: it is another program than out/built tells of", self.other, self.clone("third"))
        (self.other / PLACES["pgo"]).unlink()
        self.says(MISSING, "pgo_cli: No such file", self.other, self.folder / "third")


if __name__ == "__main__":
    unittest.main()
