"""./pgo and ./pgo-cold, in a small copy of the repository: which program they run, what they say, and that they build nothing unasked.

Each fault that was met is planted: a source or a program that was changed and bears an old date, a source that is gone, what editors
leave, a link in the way, tools that are missing, folders with odd names. `rt` is a script here, which tells that it was called.
"""
import os
import shutil
import stat
import time
import unittest

from common import COLD, PGO, TOP, Case, needs, run, path_of

KIT = "rattle-kit-13f logic 0123456789abcdef"
RT = f"""#!/bin/sh
[ "$1" = version ] || echo "${{PWD##*/}} $*" >>"$CALLED"
case $1 in
version) echo '{KIT}' ;;
all) printf '== low\\n== %s\\n== summary\\n' "${{PWD##*/}}" && [ ! -e "$BREAKS" ] ;;
run) mkdir -p out && cp "$BUILDS" "out/${{PWD##*/}}" && chmod +x "out/${{PWD##*/}}" ;;
ci)
    for crate in pgo_cli pgo_cold; do mkdir -p crates/$crate/out && cp "$BUILDS" crates/$crate/out/$crate; done
    chmod +x crates/*/out/pgo_*
    echo '5 passed, 0 failed'
    [ ! -e "$BREAKS" ] || exit 3
    ;;
esac
"""
VERSION, COLD_VERSION = b"pgo 1.0.0\n", b"pgo-cold 1.0.0\n"
OTHERS = "pgo: the sources here are not those of release/pgo, which runs as it is; ./pgo --build proves and builds them: "


class Launcher(Case):
    def setUp(self):
        super().setUp()
        self.top = self.tree(self.folder / "top")
        self.bin = self.folder / "bin"
        self.bin.mkdir()
        self.script(self.bin / "rt", RT)
        self.called = self.folder / "called"
        # What rt builds prints this.
        self.builds = self.script(self.folder / "builds", "#!/bin/sh\necho built\n")

    def script(self, path, text):
        path.write_text(text)
        path.chmod(0o755)
        return path

    def tree(self, top):
        """A repository of three crates, with the programs that are tried as its release."""
        for crate in ("low", "pgo_cli", "pgo_cold"):
            for name in ("src/lib.rt", "specs/Lib.antt", "proofs/Lib.antt", "must-fail/other.edit"):
                path = top / "crates" / crate / name
                path.parent.mkdir(parents=True)
                path.write_text(f"// {crate} {name}\n")
        (top / "crates.txt").write_text("# the crates\nlow: std\npgo_cli: low std\npgo_cold: low\n")
        (top / "HANDLES").write_text("Handles allowed: none.\n")
        (top / "release").mkdir()
        (top / "contrib").mkdir()
        shutil.copy(TOP / "contrib" / "release", top / "contrib" / "release")
        shutil.copy(TOP / "pgo", top / "pgo")
        (top / "pgo-cold").symlink_to("pgo")
        shutil.copy(PGO, top / "release" / "pgo")
        shutil.copy(COLD, top / "release" / "pgo-cold")
        self.made(top)
        return top

    def sum_of(self, path):
        return run("sha256sum", given=path.read_bytes()).out.decode().split()[0]

    def sources(self, top):
        return run(top / "contrib" / "release", "--sources").out.decode().strip()

    def made(self, top):
        """Says in release/made what stands in release/."""
        release = top / "release"
        sums = "".join(f"{name} {self.sum_of(release / name)}\n" for name in ("pgo", "pgo-cold"))
        (release / "made").write_text(f"kit {KIT}\nsources {self.sources(top)}\n{sums}")

    def environment(self, path=None):
        return {
            "PATH": path or f"{self.bin}:{os.environ['PATH']}", "CALLED": str(self.called), "BUILDS": str(self.builds),
            "BREAKS": str(self.folder / "breaks"),
        }

    def call(self, *words, name="pgo", top=None, path=None, **how):
        return run((top or self.top) / name, *(words or ["--version"]), environment=self.environment(path), **how)

    def kept(self, top=None):
        """Waits until the sources are old enough, and lets a call keep what they are."""
        time.sleep(2.1)
        self.runs_release(top=top)
        self.assertTrue(((top or self.top) / "out" / "seen").is_file())

    def runs_release(self, **how):
        self.expect(self.call(**how), 0, COLD_VERSION if how.get("name") == "pgo-cold" else VERSION)
        self.assertFalse(self.called.exists(), "rt was called")

    def tells_others(self, **how):
        """One line says that the sources are others; the release runs as it is, and nothing is built."""
        ran = self.call(**how)
        self.assertEqual((ran.status, ran.out), (0, VERSION))
        self.assertTrue(ran.said.startswith(OTHERS), ran.said)
        self.assertEqual(ran.err.count(b"\n"), 1, ran.said)
        self.assertFalse(self.called.exists(), "rt was called")

    def refuses(self, status, pattern, *words, **how):
        ran = self.call(*words, **how)
        self.assertEqual((ran.status, ran.out), (status, b""), ran.said)
        self.assertEqual(ran.err.count(b"\n"), 1, ran.said)
        self.assertRegex(ran.said, pattern)


class Releases(Launcher):
    def test_it_runs(self):
        for _ in range(3):
            self.runs_release()
        self.runs_release(name="pgo-cold")
        self.kept()
        self.runs_release()
        self.runs_release(name="pgo-cold")

    def test_status_and_streams_pass(self):
        ran = self.call("counts", "/dev/stdin", given=b"0x1/0x2\n")
        self.expect(ran, 0, "0x1 0x2 1\n# branches 1\n")
        self.assertEqual(self.call("counts").status, 2)
        self.expect(self.call("counts", "none"), 3, "", "pgo: note: no such file: none\nno such file: 1\n")
        (self.folder / "text").write_text("0x1/0x2\n")
        closed = self.call("counts", self.folder / "text", prepare=lambda: os.close(1))
        self.expect(closed, 6, "", "write fault\n")

    def test_from_elsewhere_and_by_a_link(self):
        (self.folder / "pgo").symlink_to(self.top / "pgo")
        self.runs_release(top=self.folder)
        self.runs_release(folder=self.top / "crates")
        ran = run("sh", "-c", 'cd "$1" && PATH=.:$PATH && exec pgo --version', "sh", self.top)
        self.expect(ran, 0, VERSION)

    def test_odd_folders(self):
        for name in ("a\\nb", "a\nb", "a\n", " a 'b\" $c", "-a"):
            with self.subTest(repr(name)):
                top = self.tree(self.folder / name / "top")
                self.runs_release(top=top)
                self.runs_release(top=top, name="pgo-cold")
                renamed = self.folder / name / "top\n"
                top.rename(renamed)
                self.runs_release(top=renamed)

    def test_a_folder_that_cannot_be_written_to(self):
        for path in self.top.rglob("*"):
            if not path.is_symlink():
                path.chmod(path.stat().st_mode & ~0o222)
        self.top.chmod(0o555)
        self.addCleanup(run, "chmod", "-R", "u+w", self.top)
        self.runs_release()
        self.runs_release()

    def test_another_program(self):
        """Whatever date it bears, and also behind a call that saw the one before."""
        self.kept()
        for age in (0, 10**6):
            with self.subTest(age):
                run_as = self.folder / "ran"
                self.script(self.folder / "other", f"#!/bin/sh\ntouch '{run_as}'\n")
                os.utime(self.folder / "other", (time.time() - age,) * 2)
                os.replace(self.folder / "other", self.top / "release" / "pgo")
                self.refuses(126, "release/pgo is not the program that release/made names.*git status.*--build")
                self.assertFalse(run_as.exists(), "it was run")
                self.runs_release(name="pgo-cold")

    def test_what_is_missing(self):
        (self.top / "release" / "pgo").rename(self.folder / "pgo")
        self.refuses(126, "release/pgo is not there.*git status")
        (self.folder / "pgo").rename(self.top / "release" / "pgo")
        (self.top / "release" / "pgo").chmod(0o644)
        self.refuses(126, "release/pgo may not be executed")
        (self.top / "release" / "made").unlink()
        (self.top / "release" / "pgo").chmod(0o755)
        self.refuses(126, "release/pgo stands without release/made")

    def test_it_does_not_run_here(self):
        """As with an older C library the program is whole, and ends before it begins."""
        self.script(self.top / "release" / "pgo", "#!/bin/sh\nexit 1\n")
        self.made(self.top)
        self.refuses(126, "release/pgo does not run on this machine: it needs x86-64 Linux with glibc.*docs/USING.md")
        self.refuses(126, "does not run on this machine")

    def test_little_memory_is_no_other_machine(self):
        self.script(self.top / "release" / "pgo", "#!/bin/sh\nexit 7\n")
        self.made(self.top)
        self.assertEqual(self.call().status, 7)

    def test_without_sha256sum(self):
        tools = self.only_tools(
            "sh", "readlink", "find", "xargs", "stat", "cmp", "sort", "awk", "cut", "date", "mktemp", "mkdir", "mv", "cat", "rm")
        self.refuses(126, "there is no sha256sum.*It runs without: release/pgo", path=tools["PATH"])


class Sources(Launcher):
    def setUp(self):
        super().setUp()
        self.source = self.top / "crates" / "low" / "src" / "lib.rt"

    def change(self):
        """Other bytes, as many as before, and the old date, as `cp -p`, `rsync -t` and `tar x` leave it."""
        before = self.source.stat()
        self.source.write_bytes(self.source.read_bytes().swapcase())
        os.utime(self.source, ns=(before.st_atime_ns, before.st_mtime_ns))
        self.assertEqual(self.source.stat().st_size, before.st_size)

    def test_changed_with_its_date_kept(self):
        self.kept()
        self.change()
        self.tells_others()
        self.tells_others()

    def test_changed_before_the_first_call(self):
        self.change()
        self.tells_others()

    def test_changed_at_once_behind_a_call(self):
        self.runs_release()
        self.change()
        self.tells_others()

    def test_replaced_with_its_date_kept(self):
        self.kept()
        other = self.source.with_name("other")
        shutil.copy2(self.source, other)
        before = self.source.stat()
        other.write_bytes(self.source.read_bytes().swapcase())
        os.utime(other, ns=(before.st_atime_ns, before.st_mtime_ns))
        os.replace(other, self.source)
        self.tells_others()

    def test_deleted(self):
        self.kept()
        self.source.unlink()
        self.tells_others()

    def test_a_link_in_its_place(self):
        self.kept()
        self.source.rename(self.folder / "lib.rt")
        self.source.symlink_to(self.folder / "lib.rt")
        self.tells_others()

    def test_changed_back(self):
        self.kept()
        before = self.source.read_bytes()
        self.change()
        self.tells_others()
        self.source.write_bytes(before)
        self.runs_release()

    def test_what_cannot_be_summed_up(self):
        """Nothing is said of such sources, and nothing is built of them. As with a small stack a stand-in does not take their names."""
        self.change()
        self.tells_others()
        for name, text in (("sha256sum", '#!/bin/sh\n[ $# = 0 ] || exit 1\nexec "$REAL"\n'), ("xargs", "#!/bin/sh\nexit 1\n"), ("sort", "#!/bin/sh\nexit 1\n")):
            with self.subTest(name):
                self.script(self.bin / name, text.replace("$REAL", path_of(name)))
                self.runs_release()
                self.runs_release()
                self.assertNotIn("seen", self.names("top/out"))
                self.refuses(126, "^pgo: the sources could not be summed up.*contrib/release --sources", "--build")
                self.assertFalse(self.called.exists(), "rt was called")
                (self.bin / name).unlink()
        self.tells_others()

    def test_touched(self):
        self.kept()
        os.utime(self.source)
        self.runs_release()

    def test_a_copy_of_all(self):
        """What was kept of other files says nothing of their copies."""
        self.kept()
        copy = self.folder / "copy"
        shutil.copytree(self.top, copy, symlinks=True)
        self.runs_release(top=copy)
        source = copy / "crates" / "low" / "src" / "lib.rt"
        source.write_bytes(source.read_bytes().swapcase())
        shutil.copystat(self.source, source)
        self.tells_others(top=copy)

    def test_handles(self):
        self.kept()
        (self.top / "HANDLES").write_text("Handles allowed: all.\n")
        self.tells_others()

    def test_what_editors_leave(self):
        self.kept()
        near = self.source.parent
        for name in (".lib.rt.swp", "lib.rt~", "#lib.rt#", ".lib.rt.kate-swp", "4913", "lib.rt.orig", "lib.rt.bak", ".hidden.rt"):
            (near / name).write_text("left\n")
        (near / ".#lib.rt").symlink_to("someone@somewhere.1:2")
        self.runs_release()
        (self.top / "crates" / "low" / "must-fail" / "new.edit").write_text("an edit\n")
        (self.top / "notes").write_text("mine\n")
        self.runs_release()

    def test_without_rt(self):
        self.change()
        (self.bin / "rt").unlink()
        path = f"{self.bin}:{self.path_without_rt()}"
        self.tells_others(path=path)
        self.assertIn("needs rt of the Rattle kit", self.call(path=path).said)

    def path_without_rt(self):
        return os.pathsep.join(it for it in os.environ["PATH"].split(os.pathsep) if not os.path.exists(os.path.join(it, "rt")))


class Notes(Launcher):
    """A line before the program's own names the command or the file that is not there."""

    USAGE = "usage: pgo counts, where, profile, build, check, make, merge, summary or lift\n"

    def notes(self, note, status, line, *words, **how):
        ran = self.call(*words, folder=self.folder, **how)
        self.assertEqual((ran.status, ran.out, ran.said), (status, b"", note + line))

    def test_commands(self):
        for word, note in (
            ("profil", "profil; did you mean profile?"), ("merg", "merg; did you mean merge?"), ("help", "help"), ("Build", "Build; did you mean build?"),
            ("\033[2Jcounts", "?[2Jcounts"), ("../pgo", "../pgo"), ("-", None), ("--base", None), ("", ""),
        ):
            with self.subTest(word=word):
                self.notes("" if note is None else f"pgo: note: no such command: {note}\n", 2, self.USAGE, word, "a", "b")

    def test_files(self):
        for name in ("perf", "cfg"):
            (self.folder / name).write_text("\n")
        for words, file, number in (
            ("counts gone", "gone", 1), ("where gone 401000", "gone", 1), ("profile --base gone perf", "gone", 1), ("check gone lost", "gone", 1),
            ("lift --base gone cfg perf", "gone", 1), ("merge 1 gone 2 perf", "gone", 1), ("summary sub/gone", None, 1), ("build gone perf cfg", "gone", 1),
        ):
            with self.subTest(words=words):
                self.notes(f"pgo: note: no such file: {file}\n" if file else "", 3, f"no such file: {number}\n", *words.split())
        for words, number in (("gone perf", 1), ("profile gone perf", 1)):
            with self.subTest(words=words):
                self.notes("pgo-cold: note: no such file: gone\n", 3, f"no such file: {number}\n", *words.split(), name="pgo-cold")

    def test_no_note(self):
        """If the number of words is wrong, the program's own line is all."""
        self.notes("", 2, self.USAGE, "profile", "gone")
        self.notes("", 2, self.USAGE, "where", "gone", "gone", "gone")
        self.notes("", 2, self.USAGE, "make", "many", "bin")


class Links(Launcher):
    """Nothing is written through a link, and nothing elsewhere."""

    def elsewhere(self):
        folder = self.folder / "elsewhere"
        folder.mkdir()
        return folder

    def test_in_place_of_the_folder(self):
        (self.top / "out").symlink_to(self.elsewhere())
        time.sleep(2.1)
        self.runs_release()
        self.assertEqual(self.names("elsewhere"), [])
        self.refuses(126, "out is a link, and nothing is written through one", "--build")
        self.assertEqual(self.names("elsewhere"), [])

    def test_in_place_of_what_is_kept(self):
        target = self.file("elsewhere", "mine\n")
        (self.top / "out").mkdir()
        for name in ("seen", "sources"):
            (self.top / "out" / name).symlink_to(target)
        time.sleep(2.1)
        self.runs_release()
        self.runs_release()
        self.assertEqual(target.read_text(), "mine\n")

    def test_in_place_of_what_a_build_writes(self):
        target = self.file("elsewhere", "mine\n")
        (self.top / "out").mkdir()
        for name in ("lock", "build.log", "proved", "built"):
            with self.subTest(name):
                link = self.top / "out" / name
                link.symlink_to(target)
                self.refuses(126, f"out/{name} is a link", "--build")
                link.unlink()
                self.assertEqual(target.read_text(), "mine\n")
        self.assertFalse(self.called.exists())

    def test_nothing_is_left_behind(self):
        self.kept()
        self.assertEqual(self.names(self.top / "out"), ["seen", "sources"])


class Builds(Launcher):
    def setUp(self):
        super().setUp()
        self.source = self.top / "crates" / "low" / "src" / "lib.rt"

    def build(self, *words, **how):
        return self.call("--build", *words, **how)

    def calls(self):
        return self.called.read_text().splitlines() if self.called.exists() else []

    def test_it_builds_once(self):
        self.source.write_text("// other\n")
        ran = self.build()
        self.assertEqual((ran.status, ran.out), (0, b""), ran.said)
        self.assertIn("proving and building the program: half an hour", ran.said)
        self.assertIn("2 of 3 crates: pgo_cli", ran.said)
        self.assertEqual([call.split()[:2] for call in self.calls()], [["pgo_cli", "all"], ["pgo_cold", "all"], ["pgo_cli", "run"], ["pgo_cold", "run"]])
        before = self.calls()
        self.expect(self.build(), 0)
        self.expect(self.build("--version"), 0, "built\n")
        # The sources are those that were built, and the release is of others: what was built runs, and nothing is said.
        self.expect(self.call(), 0, "built\n")
        self.expect(self.call(name="pgo-cold"), 0, "built\n")
        self.assertEqual(self.calls(), before)

    def test_what_was_built_is_looked_at_as_the_release(self):
        self.source.write_text("// other\n")
        self.build()
        built = self.top / "crates" / "pgo_cli" / "out" / "pgo_cli"
        before = built.stat()
        self.script(built, "#!/bin/sh\necho other\n")
        os.utime(built, (before.st_mtime - 10**6,) * 2)
        self.called.unlink()
        self.tells_others()
        self.build()
        self.expect(self.call(), 0, "built\n")
        self.source.write_text("// another\n")
        self.called.unlink()
        self.tells_others()

    def test_in_place_of_a_release_that_is_not_whole(self):
        self.build()
        self.expect(self.call(), 0, VERSION)
        self.script(self.top / "release" / "pgo", "#!/bin/sh\nexit 1\n")
        self.expect(self.call(), 0, "built\n")
        self.made(self.top)
        self.expect(self.call(), 0, "built\n")

    def test_it_fails(self):
        self.file("breaks")
        ran = self.build()
        self.assertEqual((ran.status, ran.out), (126, b""))
        self.assertIn("the program could not be built. out/build.log says why.", ran.said)
        self.assertEqual(self.call().out, VERSION)

    def test_without_rt(self):
        (self.bin / "rt").unlink()
        path = os.pathsep.join(it for it in os.environ["PATH"].split(os.pathsep) if not os.path.exists(os.path.join(it, "rt")))
        self.refuses(127, "rt is not on the PATH. It is the command of the Rattle kit", "--build", path=path)

    def test_sources_that_change_meanwhile(self):
        self.script(self.bin / "rt", RT.replace("run) ", f"run) echo >>'{self.source}'; "))
        ran = self.build()
        self.assertEqual(ran.status, 126)
        self.assertIn("the sources were changed while", (self.top / "out" / "build.log").read_text())

    def test_two_at_once(self):
        self.script(self.bin / "rt", RT.replace("all) ", "all) sleep 1; "))
        both = run("sh", "-c", '"$1" --build & "$1" --build & wait', "sh", self.top / "pgo", environment=self.environment())
        self.assertIn("another call is building the program. This one waits for it.", both.said)
        self.assertEqual(len(self.calls()), 4)

    def test_nothing_can_be_written(self):
        (self.top / "out").write_text("a file\n")
        self.refuses(126, "nothing can be written to out/", "--build")

    def test_release_is_filled(self):
        """contrib/release puts what was built in place of what stood there, and of links there."""
        target = self.file("elsewhere", "mine\n")
        (self.top / "release" / "pgo").unlink()
        (self.top / "release" / "pgo").symlink_to(target)
        ran = run(self.top / "contrib" / "release", environment=self.environment())
        self.assertEqual(ran.status, 0, ran.said)
        self.assertEqual(target.read_text(), "mine\n")
        mode = (self.top / "release" / "pgo").lstat().st_mode
        self.assertTrue(stat.S_ISREG(mode) and mode & 0o111)
        self.assertEqual(self.names(self.top / "release"), ["made", "pgo", "pgo-cold"])
        self.called.unlink()
        self.expect(self.call(), 0, "built\n")


@needs("bash", "make")
class Gate(Launcher):
    """.ci/run, with a gate and checks that are scripts here."""

    def setUp(self):
        super().setUp()
        (self.top / ".ci").mkdir()
        shutil.copy(TOP / ".ci" / "run", self.top / ".ci" / "run")
        (self.top / "Makefile").write_text("check-all:\n\t@echo 'checks: 7 passed, 0 failed'; test ! -e unchecked\n")

    def gate(self):
        return run("bash", self.top / ".ci" / "run", environment=self.environment())

    def test_it_passes(self):
        ran = self.gate()
        self.assertEqual(ran.status, 0, ran.said)
        lines = ran.out.decode().splitlines()
        self.assertEqual((lines[0], lines[-1]), ("5 passed, 0 failed", "checks: 7 passed, 0 failed"))
        # What the gate built is known as such, and runs where the sources are its own.
        (self.top / "release" / "pgo").unlink()
        self.expect(self.call(), 0, "built\n")

    def test_a_gate_that_leaves_no_program(self):
        """What it proved is built then, and marked."""
        self.script(self.bin / "rt", RT.replace("for crate in pgo_cli pgo_cold", "for crate in").replace("chmod +x crates/*/out/pgo_*", ":"))
        ran = self.gate()
        self.assertEqual(ran.status, 0, ran.said)
        self.assertIn("the programs are not built here; nothing is marked", ran.said)
        self.assertIn("pgo_cli run -- --version", self.called.read_text())
        self.assertTrue((self.top / "out" / "built").is_file())

    def test_the_gate_fails(self):
        self.file("breaks")
        ran = self.gate()
        self.assertEqual((ran.status, ran.out), (3, b"5 passed, 0 failed\n"))
        self.assertFalse((self.top / "out" / "built").exists())

    def test_the_checks_fail(self):
        (self.top / "unchecked").write_text("")
        self.assertNotEqual(self.gate().status, 0)

    def test_make_prove(self):
        shutil.copy(TOP / "Makefile", self.top)
        ran = run("make", "-C", self.top, "prove", environment=self.environment())
        self.assertEqual(ran.status, 0, ran.said)
        self.assertTrue((self.top / "out" / "built").is_file())


if __name__ == "__main__":
    unittest.main()
