"""contrib/blocks on blocks that hardly ever run: which are marked, and that `never` takes no function its last way out."""
import random
import shutil
import unittest
from typing import Any, List, Optional

from common import CONTRIB, MISSING, PGO, REFUSED, BAD_WORDS, Case, takes
from pgo_tools.blocks import rare
from pgo_tools.blocks.touched import Spans

MAKER = CONTRIB / "blocks"
PROGRAM = """
#include <stdio.h>
#include <stdlib.h>
#include <string>
struct Held { std::string name; ~Held() { puts(name.c_str()); } };
__attribute__((noinline)) static int checked(int n) {
    if (n < 0) { fprintf(stderr, "below 0\\n"); abort(); }
    return n * 3;
}
__attribute__((noinline)) int risky(int n) { if (n == 7) throw n; return checked(n); }
__attribute__((noinline)) int around(int n) {
    Held held{std::to_string(n)};
    try { return risky(n); } catch (int) { return -1; }
}
int main(int argc, char **) { return around(argc) + around(argc + 1); }
"""


class Graph(unittest.TestCase):
    """Drawn graphs of blocks, each judged by a search of its own."""

    @staticmethod
    def has_way(follow, first, lasts, without):
        work, seen = ([first] if first not in without else []), {first}
        while work:
            here = work.pop()
            if here in lasts:
                return True
            for there in follow[here]:
                if there not in seen and there not in without:
                    seen.add(there)
                    work.append(there)
        return False

    def test_never_leaves_a_way_out_and_one_through_each_block_that_was_touched(self):
        drawn, told = random.Random(5), 0
        for _ in range(3000):
            count = drawn.randint(1, 9)
            follow = [sorted(drawn.sample(range(count), drawn.randint(0, min(3, count)))) for _ in range(count)]
            exits = [not there or drawn.random() < 0.2 for there in follow]
            marks = {n for n in range(count) if drawn.random() < 0.5}
            touched = {n for n in range(count) if drawn.random() < 0.3}
            barred = rare.barred(follow, exits, set(marks), set(touched))
            self.assertLessEqual(barred, marks - touched)
            ends = {n for n, leaves in enumerate(exits) if leaves and n not in barred}
            if barred:
                self.assertTrue(self.has_way(follow, 0, ends, barred))
                for n in touched:
                    self.assertTrue(self.has_way(follow, 0, {n}, barred) and self.has_way(follow, n, ends, barred))
                told += 1
        self.assertGreater(told, 200)

    def test_what_is_marked(self):
        # 0 calls with a pad (2), goes on at 1, which returns or goes on at 3, a call of abort; 2 unwinds further.
        kinds = rare.Kinds({(0, 20)}, {30, 20})
        self.assertEqual(rare.marked([0, 10, 20, 30], [[1, 2], [3], [], []], [False, True, True, True], kinds), ({2}, {3}))
        # A function that never returns has no block of this kind: its entry would be one.
        self.assertEqual(rare.marked([0, 10], [[1], []], [False, True], rare.Kinds(set(), {10})), (set(), set()))


class Touched(unittest.TestCase):
    """Spans that are drawn, each number being of the last one that was put over it."""

    def test_the_later_span_counts(self):
        drawn = random.Random(5)
        for most in (Spans.MOST, 2, 3, 5):
            for _ in range(100):
                spans: Any = Spans()
                held: List[Optional[int]] = [None] * 70
                spans.MOST = most
                for what in range(drawn.randint(1, 40)):
                    start, size = drawn.randrange(60), drawn.randrange(11)
                    spans.put(start, size, what)
                    held[start:start + size] = [what] * size
                self.assertEqual([spans.at(number) for number in range(-1, 70)], [None] + held)
                rows = [row for piece in spans.pieces for row in piece]
                self.assertTrue(all(one[1] <= other[0] for one, other in zip(rows, rows[1:])))
                self.assertEqual(spans.starts, [piece[0][0] for piece in spans.pieces])
                self.assertTrue(all(len(piece) <= most for piece in spans.pieces))


class Programs(Case):
    """A program that throws, by each compiler that is here."""

    def texts(self, compiler):
        """The block text without samples, and with a text of one branch, which touches nothing of the program."""
        source = self.file("program.cc", PROGRAM)
        made = self.run_here(compiler, "-O2", "-w", "-no-pie", source, "-o", "program")
        self.assertEqual(made.status, 0, made.said)
        self.file("text", "0x10/0x20/P/-/-/1\n")
        plain, barred = self.run_here(MAKER, "program"), self.run_here(MAKER, "--perf", "text", "program")
        self.assertEqual(plain.status, 0, plain.said)
        self.tells(barred, 0, "no sample of text is in program.*--map=NAME")
        return plain.out.decode(), barred.out.decode()

    @staticmethod
    def function(text, part):
        return next(it for it in text.split("\nend\n") if any(line.startswith("func ") and part in line for line in it.splitlines()))

    @takes(20)
    def test_pads_and_ways_to_abort_are_told(self):
        found = [it for it in ("g++", "clang++-14", "clang++-19") if shutil.which(it)]
        if not found:
            self.skipTest("there is no compiler of C++")
        for compiler in found:
            with self.subTest(compiler=compiler):
                plain, barred = self.texts(compiler)
                self.assertNotIn(" never\n", plain)
                self.assertRegex(self.function(plain, "around"), r"\n# rare: only unwinding comes to [0-9 ]+\n")
                self.assertRegex(self.function(plain, "checked" if "checked" in plain else "risky"), r"\n# rare: every way from [0-9 ]+ leads to what never returns\n")
                self.assertRegex(self.function(barred, "around"), r"\nblock [1-9][0-9]* 0x[0-9a-f]+ 0x[0-9a-f]+( exit)? never\n")
                self.assertEqual(barred.replace(" never\n", "\n"), plain)
                self.no_cut_comes_of_it(plain, barred)

    def no_cut_comes_of_it(self, plain, barred):
        """Each function is called once, so that it has to have a way out."""
        entries = [line.split()[2] for line in plain.splitlines() if line.startswith("block 0 ")]
        self.file("text", "".join(f"0x10/{at}/P/-/-/1\n" for at in entries))
        self.file("plain", plain)
        for name, text in (("plain", plain), ("barred", barred)):
            self.file(name, text)
            self.expect(self.run_here(CONTRIB / "lined", "program", name, "-o", "lined"), 0, b"",
                        "lined: for pgo build, people and contrib/draw; a profile made with it is not for clang\n")
            built = self.run_here(PGO, "build", "--edges", "lined", "text", name)
            self.assertNotRegex(built.out.decode(), "# function .* cut ")

    def test_a_block_that_was_touched_is_not_told(self):
        compiler = next((it for it in ("g++", "clang++-14", "clang++-19") if shutil.which(it)), None)
        if not compiler:
            self.skipTest("there is no compiler of C++")
        plain, barred = self.texts(compiler)
        told = [line.split()[2] for line in barred.splitlines() if line.endswith(" never")]
        for at in told:
            self.file("text", f"{at} {at}/0x10/P/-/-/1\n")
            again = self.run_here(MAKER, "--perf", "text", "program").out.decode()
            self.assertNotRegex(again, f"block [0-9]+ {at} 0x[0-9a-f]+( exit)? never")

    def test_words_that_do_not_fit(self):
        self.tells(self.run_here(MAKER, "--map", "x", PGO), BAD_WORDS, "--map goes with --perf")
        compiler = next((it for it in ("g++", "clang++-14", "clang++-19") if shutil.which(it)), None)
        if not compiler:
            self.skipTest("there is no compiler of C++")
        self.texts(compiler)
        self.tells(self.run_here(MAKER, "--perf", "absent", "program"), MISSING, "absent: No such file")
        self.file("bad", "no branch text\n")
        self.tells(self.run_here(MAKER, "--perf", "bad", "program"), REFUSED, "bad: refused at 1: BadLine")


if __name__ == "__main__":
    unittest.main()
