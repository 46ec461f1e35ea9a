"""release/ is of the sources that stand here, and holds what was proved and built of them."""
import os
import re
import shutil
import unittest

from common import TOP, Case, needs, run


def record(path):
    """What release/made or out/built says."""
    return dict(line.split(" ", 1) for line in path.read_text().splitlines())


@needs("sha256sum")
class Release(Case):
    def setUp(self):
        super().setUp()
        self.made = record(TOP / "release" / "made")
        self.sources = run(TOP / "contrib" / "release", "--sources").out.decode().strip()

    def sum_of(self, path):
        with open(path, "rb") as file:
            return run("sha256sum", given=file).out.decode().split()[0]

    def test_sources(self):
        self.assertEqual(self.sources, self.made["sources"], "release/ was made of other sources; contrib/release fills it behind the gate")

    def test_sums(self):
        for name in ("pgo", "pgo-cold"):
            with self.subTest(name):
                self.assertEqual(self.sum_of(TOP / "release" / name), self.made[name])

    def test_what_was_built_here(self):
        """Byte by byte, behind the gate of the same kit, which says in out/built what it built."""
        if not (TOP / "out" / "built").is_file():
            self.skipTest("nothing was proved and built here: rt ci is behind `make prove`")
        built = record(TOP / "out" / "built")
        if built.get("kit") != self.made["kit"]:
            self.skipTest(f"release/ was made with {self.made['kit']}, and what was built here with {built.get('kit')}")
        if built["sources"] != self.sources:
            self.skipTest("what was proved and built here is of other sources than those that stand here")
        for name, crate in (("pgo", "pgo_cli"), ("pgo-cold", "pgo_cold")):
            with self.subTest(name):
                ours = (TOP / "crates" / crate / "out" / crate).read_bytes()
                self.assertTrue(ours == (TOP / "release" / name).read_bytes(), f"release/{name} is another program")


class OlderSystems(Case):
    """What docs/USING.md says of systems with an older C library."""

    def test_by_a_loader_and_a_library_carried_along(self):
        loader, library = "/lib64/ld-linux-x86-64.so.2", "/lib/x86_64-linux-gnu/libc.so.6"
        for path in (loader, library):
            if not os.path.exists(path):
                self.skipTest(f"there is no {path}")
            shutil.copy(path, self.folder)
        words = [self.folder / "ld-linux-x86-64.so.2", "--library-path", self.folder]
        for name in ("pgo", "pgo-cold"):
            self.expects(name, run(*words, TOP / "release" / name, "--version"), 0, f"{name} 1.0.0\n")


class Installed(Case):
    """`make install`: the programs, the scripts with their package, and the man pages."""

    @needs("make", "install")
    def test_install(self):
        stage = self.folder / "stage dir"
        ran = run("make", "-C", TOP, "install", f"DESTDIR={stage}", "PREFIX=/opt/pgo")
        self.assertEqual(ran.status, 0, ran.said)
        bin_folder = stage / "opt" / "pgo" / "bin"
        for name in ("pgo", "pgo-cold"):
            self.expect(run(bin_folder / name, "--version"), 0, f"{name} 1.0.0\n")
        made = stage / "opt" / "pgo" / "share" / "pgo" / "made"
        self.assertEqual(made.read_bytes(), (TOP / "release" / "made").read_bytes())
        for name in ("LICENSE", "NOTICE"):
            self.assertTrue((made.parent / name).is_file(), name)
        self.try_tables(stage / "opt" / "pgo" / "share", sorted(path.name for path in bin_folder.iterdir()))
        # Pages, with what they link to.
        doc = stage / "opt" / "pgo" / "share" / "doc" / "pgo"
        pages = [path.relative_to(TOP) for path in [*TOP.glob("*.md"), *TOP.glob("docs/*.md"), *TOP.glob("docs/*.svg")]]
        self.assertEqual([str(page) for page in pages if not (doc / page).is_file()], [])
        scripts = sorted(path.name for path in bin_folder.iterdir())
        self.assertLessEqual({"pgo-profile", "pgo-record"}, set(scripts))
        # Each finds what it needs, and the programs, where they stand now.
        for name in scripts:
            with self.subTest(name):
                ran = run(bin_folder / name, "--help", environment={"PGO": None, "PGO_COLD": None}, folder=self.folder)
                self.assertEqual(ran.status, 0, ran.said)
                # The texts of the two programs are proved, and name a clone's.
                if name not in ("pgo", "pgo-cold"):
                    self.assertNotIn(b"contrib/", ran.out)
        self.file("empty", b"")
        self.file("contexts", b"[main:1 @ f]:1:1\n")
        page = f'{doc}/docs/USING.md, "Profiles of other tools"'
        for name, helps in (("empty", "pgo-profile tells why"), ("contexts", page)):
            ran = run(bin_folder / "pgo-hot", name, folder=self.folder)
            self.assertIn(f"what helps: {helps}\n" if name == "empty" else helps, ran.said)
        ended = run(
            bin_folder / "pgo-profile", "--base", TOP / "demo" / "words", TOP / "demo" / "words.txt", self.folder / "prof",
            environment={"PGO": None, "PGO_COLD": None, "PATH": "/usr/bin:/bin"}, folder=self.folder,
        )
        self.assertEqual(ended.status, 0, ended.said)
        self.assertIn(b"count_word", (self.folder / "prof").read_bytes())
        if shutil.which("qemu-x86_64") and shutil.which("gcc"):
            ran = run(
                bin_folder / "pgo-record", "-q", TOP / "demo" / "words", folder=self.folder,
                environment={"XDG_CACHE_HOME": str(self.folder)},
            )
            self.assertEqual((ran.status, ran.err), (0, b""))
            self.assertIn(b"/demo/words\n", (self.folder / "recorded.txt").read_bytes())
        ran = run("make", "-C", TOP, "uninstall", f"DESTDIR={stage}", "PREFIX=/opt/pgo")
        self.assertEqual((ran.status, [str(path) for path in stage.rglob("*") if not path.is_dir()]), (0, []), ran.said)
        shutil.rmtree(stage)

    def try_tables(self, share, names):
        """Each command has a man page and completions, with all options of its --help."""
        for name in names:
            page = share / "man" / "man1" / f"{name}.1"
            completions = (
                share / "bash-completion" / "completions" / name, share / "zsh" / "site-functions" / f"_{name}",
                share / "fish" / "vendor_completions.d" / f"{name}.fish",
            )
            told = run(share.parent / "bin" / name, "--help").out.decode()
            options = set(re.findall(r"(?m)^ +(?:-\w(?: [A-Z]+)?, )?(--[a-z-]+)|\[(--[a-z]+)", told))
            options = {one or other for one, other in options}
            with self.subTest(name):
                self.assertGreater(len(options), 0)
                for path in (page, *completions):
                    text = path.read_text(encoding="utf-8").replace("\\-", "-").replace("-l ", "--")
                    self.assertEqual([option for option in sorted(options) if option not in text], [], path.name)
                for tool, words in (("groff", ("-ww", "-man", "-Tutf8", "-z", page)), ("bash", ("-n", completions[0])),
                                    ("zsh", ("-n", completions[1])), ("fish", ("-n", completions[2]))):
                    if shutil.which(tool):
                        ran = run(tool, *words)
                        self.assertEqual((ran.status, ran.said), (0, ""))
        if shutil.which("bash"):
            asked = 'source "$0"; _pgo_merge_tree pgo-merge-tree "$1" "$2"; echo "${COMPREPLY[@]}"'
            tried = (("--pl", "x", "--plan"), ("m", "--print", "make"), ("--part", "x", "--part --part-size"))
            for begun, before, answer in tried:
                ran = run("bash", "-c", asked, share / "bash-completion" / "completions" / "pgo-merge-tree", begun, before)
                self.expect(ran, 0, answer + "\n")

    @needs("make", "install")
    def test_a_changed_program_is_not_installed(self):
        copy = self.folder / "copy"
        for name in ("release", "contrib", "docs", "bench"):
            shutil.copytree(TOP / name, copy / name, symlinks=True)
        for name in ("Makefile", "LICENSE", "README.md", "CHANGELOG.md", "SECURITY.md"):
            shutil.copy2(TOP / name, copy)
        with open(copy / "release" / "pgo-cold", "ab") as program:
            program.write(b"!")
        ran = run("make", "-C", copy, "install", f"DESTDIR={self.folder / 'stage'}")
        self.assertNotEqual(ran.status, 0)
        self.assertIn("release/pgo-cold has not the sum", ran.said)
        self.assertFalse((self.folder / "stage").exists())


if __name__ == "__main__":
    unittest.main()
