"""bench/peers: its table of small files, what it says of programs that fail or print other bytes, and what it leaves behind."""
import os
import sys
import unittest

from common import BAD_WORDS, COLD, DONE, FAILED, MISSING, PGO, TOP, WRITE_FAULT, Case, takes

PEERS = TOP / "bench" / "peers"
NO_PROGRAM = 127
JOBS = [
    "`profile`", "`pgo-cold profile`", "`pgo-cold` of that profile", "`build` beyond `profile`", "`build --edges` beyond `profile`",
    "`build --scaled` beyond `profile`", "`check`", "`lift`", "`profile`, five lines", "`where`, one address", "`merge`", "`merge 1`",
    "`summary`", "`make 64 sum`",
]


def rows_of(table):
    """The cells of each row of a table in Markdown, by the job; a job that stands twice has the last one."""
    lines = [line.split("|")[1:-1] for line in table.splitlines() if line.startswith("|")]
    return {cells[0].strip(): [cell.strip() for cell in cells[1:]] for cells in lines}


@takes(10)
class Peers(Case):
    def setUp(self):
        super().setUp()
        self.programs("before", f'exec {PGO} "$@"', f'exec {COLD} "$@"')

    def programs(self, folder, pgo, cold="exit 3"):
        """A folder with programs that are scripts of the shell."""
        for name, script in (("pgo", pgo), ("pgo-cold", cold)):
            self.file(f"{folder}/{name}", f"#!/bin/sh\n{script}\n").chmod(0o755)
        return self.folder / folder

    def peers(self, *words, **more):
        return self.run_here(PEERS, "--turns=1", *words, environment={"TMPDIR": str(self.folder), **more})

    def table(self, *words, status=DONE, **more):
        """What is printed."""
        ran = self.peers(*words, **more)
        self.assertEqual(ran.status, status, ran.said)
        return ran.out.decode()

    def test_each_row(self):
        ran = self.peers("--small", "--before=before", "--solver=none", "-o", "table")
        self.assertEqual((ran.status, ran.out), (DONE, b""), ran.said)
        table = (self.folder / "table").read_text()
        rows = rows_of(table)
        self.assertEqual(rows["Job"], ["Input", "pgo", "before", "Beside it"])
        for job in JOBS:
            with self.subTest(job):
                for cell in rows[job][1:3]:
                    self.assertRegex(cell, r"^-?\d+\.\d\d s, (below )?[0-9,]+ MB")
        self.assertNotIn("Other bytes", table)
        self.assertEqual(self.names(), ["before", "table"])

    def test_time_and_bytes(self):
        """A program that takes longer and prints more is told by both."""
        spin = f"{sys.executable} -c 'import time\nwhile time.process_time() < %s: pass'"
        now = self.programs("now", f'{spin % 0.2}; exec {PGO} "$@"')
        self.programs("before", f'{spin % 0.6}; {PGO} "$@"; echo more')
        table = self.table("--small", "--only=make", "--before=before", PGO=f"{now}/pgo")
        _, ours, before, _ = rows_of(table)["`make 64 sum`"]
        self.assertRegex(ours, r"^0\.[2-4]\d s")
        self.assertRegex(before, r"^0\.[6-9]\d s.* \([1-4]\.\d\d")
        self.assertIn("Other bytes than pgo's:\n\n- `make 64 sum` by before\n", table)

    def test_alone(self):
        rows = rows_of(self.table("--small", "--alone", "--only=merge", "--only=make"))
        self.assertEqual([cells[-1] for cells in rows.values()], ["Beside it", "---", "", ""])

    def test_what_fails_is_named(self):
        self.programs("before", "echo no such word >&2; exit 2")
        ran = self.peers("--small", "--only=make", "--before=before")
        self.tells(ran, DONE, "turn 1: pgo: [0-9.]+ s, .* turn 1: before: it ended with 2: no such word")
        table = ran.out.decode()
        self.assertIn("\nLeft out:\n\n- `make 64 sum` by before: it ended with 2: no such word\n", table)
        self.assertEqual(rows_of(table)["`make 64 sum`"][2], "")
        # It is pgo itself.
        table = self.table("--small", "--only=make", status=FAILED, PGO=str(self.folder / "before/pgo"))
        self.assertIn("- `make 64 sum` by pgo: it ended with 2: no such word\n", table)

    def test_what_lacks_is_named(self):
        table = self.table("--only=profile", "--only=five", "--only=solver", "--solver=none")
        for line in ("the rows of `profile`: no BIN and TEXT are given", "the rows of `solver`: there is no none: "):
            self.assertIn(f"- {line}", table)

    def test_solver(self):
        """A stand-in for solver_bench, which takes half a thousandth of a second each time beside what it takes to start; and none for a compiler."""
        spin = f"{sys.executable} -c 'import time\nend = time.process_time() + 0.0005 * '$3'\nwhile time.process_time() < end: pass'"
        self.file("solver", f'#!/bin/sh\n{spin}\necho "$3 times solved, of cost 1"\n').chmod(0o755)
        self.file("bin/c++", "#!/bin/sh\necho no lemon >&2\nexit 1\n").chmod(0o755)
        table = self.table("--small", "--only=solver", "--solver=solver", PATH=f"{self.folder}/bin:{os.environ['PATH']}")
        _, ours, beside = rows_of(table)["`solve`, 100 blocks of choices of two ways"]
        self.assertRegex(ours, r"^0\.[4-7]\d\d ms$")
        self.assertRegex(beside, r"^solve_scaled: 0\.[4-7]\d\d ms \([01]\.\d\d\)$")
        self.assertRegex(table, r"(?m)^- LEMON: .*/lemon\.cc is not compiled: no lemon \(Debian: liblemon-dev\)$")

    def test_files_are_kept(self):
        words = ["--small", "--only=merge", "--files=kept"]
        self.table(*words)
        (self.folder / "kept/fleet.300/1.prof").write_text("main:1:1\n 1: 1\n")
        self.assertIn("eight profiles, 0 KB each", self.table(*words))
        self.assertEqual(self.names("kept"), ["fleet.300"])

    def test_bad_words(self):
        for words, status, said in (
            (["--small", "a", "b"], BAD_WORDS, "--small takes no BIN and TEXT"), (["a"], BAD_WORDS, "a BIN and its TEXT, or neither"),
            (["--turns=0"], BAD_WORDS, "a number from 1 up"), (["--only=all"], BAD_WORDS, "invalid choice"), (["a", "b"], MISSING, "a: No such file"),
            (["--small", "--before=none"], NO_PROGRAM, "there is no program none/pgo"), (["--small", "-o", "."], WRITE_FAULT, "it is a folder"),
        ):
            with self.subTest(words):
                self.tells(self.peers(*words), status, said)
        self.assertEqual(self.names(), ["before"])

    def test_full_device(self):
        ran = self.run_here("sh", "-c", f"{PEERS} --turns=1 --small --only=make >/dev/full")
        self.tells(ran, WRITE_FAULT, "output: No space left on device$")

    def test_a_signal_leaves_nothing(self):
        self.leaves_nothing_behind("env", f"TMPDIR={self.folder}", PEERS, "--small", "--turns=1000")


if __name__ == "__main__":
    unittest.main()
