"""contrib/layout: orders of blocks beside all orders of small functions, and programs of clang 19 that are laid out and run again."""
import bisect
import collections
import itertools
import json
import random
import time
import unittest
from typing import Any, Dict

from common import BLOCKS, CONTRIB, MISSING, PGO, REFUSED, TEXT, WORDS, BAD_WORDS, Case, needs, run
from test_lined import drawn_run, functions_of
from pgo_tools.blocks import block_order, layout as maker

LAYOUT, MAKER, LINED = CONTRIB / "layout", CONTRIB / "blocks", CONTRIB / "lined"
BUILD = ["clang-19", "-O2", "-w", "-no-pie", "-fuse-ld=lld", "-B/usr/lib/llvm-19/bin"]
PROGRAM = """
#include <stdio.h>
static __attribute__((noinline)) long step(long n, int k) {
    switch (k % 5) {
    case 0: if (n % 7 == 3) { puts("rare"); return n / 3; } return n + k;
    case 1: for (int i = 0; i < k % 11; i++) n ^= n << 3 | i; return n;
    case 2: return n * 3;
    case 3: if (n & 1) return n >> 1; return n - k;
    }
    return n + 1;
}
int main(void) {
    long n = 1;
    for (int k = 0; k < 1000; k++) n = step(n, k);
    printf("%ld\\n", n);
}
"""
TWINS = "static __attribute__((noinline)) long twin(long n) { return n % 3 ? n + NUMBER : n / 2; } long NAME(long n) { return twin(n) + twin(n + 1); }\n"


def score(row, sizes, edges):
    """What an order is worth, by the definition alone."""
    begins, at = {}, 0
    for block in row:
        begins[block] = at
        at += sizes[block]
    total = 0
    for (tail, head), times in edges.items():
        far = begins[head] - begins[tail] - sizes[tail]
        if tail != head:
            total += times if far == 0 else times / 10 * max(0, 1 - far / 1024 if far > 0 else 1 + far / 640)
    return total


def drawn(draw, most):
    """Sizes and edges of a function of a few blocks."""
    blocks = range(draw.randint(2, most))
    sizes = {block: draw.choice([1, 5, 16, 60, 300]) for block in blocks}
    ends = [(draw.choice(blocks), draw.choice(blocks)) for _ in range(2 * len(blocks))]
    return sizes, {end: draw.choice([1, 10, 100, 1000]) for end in ends}


class Orders(unittest.TestCase):
    def test_what_ran_most_falls_through(self):
        sizes = dict.fromkeys(range(4), 10)
        self.assertEqual(block_order.ordered(sizes, {(0, 1): 10, (0, 2): 90, (1, 3): 10, (2, 3): 90}, 0), [0, 2, 3, 1])
        # Of a loop the least frequent jump stays one, wherever it begins.
        self.assertEqual(block_order.ordered(sizes, {(0, 1): 1, (1, 2): 100, (2, 1): 99, (2, 3): 1}, 0), [0, 1, 2, 3])
        self.assertEqual(block_order.ordered(sizes, {(0, 1): 9, (1, 2): 90, (2, 3): 100, (3, 1): 99, (3, 2): 1}, 0)[0], 0)
        order = block_order.Order(sizes, {(1, 2): 90, (2, 3): 100, (3, 1): 99}, 0)
        order.join_sure()
        self.assertIn([2, 3, 1], [chain.row for chain in order.chains.values()])
        self.assertEqual(block_order.ordered({7: 3}, {(7, 7): 5}, 7), [7])

    def test_beside_all_orders(self):
        draw, got, best = random.Random(67), 0, 0
        for _ in range(150):
            sizes, edges = drawn(draw, 6)
            row = block_order.ordered(sizes, edges, 0)
            self.assertEqual((row[0], sorted(row)), (0, sorted(sizes)))
            got += score(row, sizes, edges)
            best += max(score((0, *rest), sizes, edges) for rest in itertools.permutations(range(1, len(sizes))))
        self.assertGreater(got, 0.95 * best)

    def test_a_gain_is_what_the_score_gains(self):
        draw = random.Random(67)
        for _ in range(300):
            sizes, edges = drawn(draw, 12)
            order = block_order.Order(sizes, edges, 0)
            order.join_sure()
            for one, other in itertools.combinations(sorted(order.chains), 2):
                gained, row = order.best(one, other)
                parts = [order.chains[it].row for it in (one, other)]
                inside = {end: times for end, times in edges.items() if set(end) <= set(itertools.chain(*parts))}
                before = sum(score(part, sizes, {end: it for end, it in edges.items() if set(end) <= set(part)}) for part in parts)
                if row:
                    self.assertAlmostEqual(gained, score(row, sizes, inside) - before, 6)

    def test_many_blocks_end_soon(self):
        blocks = range(2 * block_order.MOST_BLOCKS)
        row = block_order.ordered(dict.fromkeys(blocks, 4), {(0, it): it for it in blocks[1:]}, 0)
        self.assertEqual(sorted(row), list(blocks))
        blocks = range(100)
        row = block_order.ordered(dict.fromkeys(blocks, 4), {(0, it): it for it in blocks[1:]}, 0)
        self.assertEqual(row[:2], [0, 99])

    def test_a_hub_and_a_switch_of_a_thousand_blocks(self):
        """All neighbours of a chain were tried at each of its joins: 24 and 19 seconds of a processor."""
        blocks = range(1000)
        hub = {end: block for block in blocks[1:] for end in ((0, block), (block, 0))}
        switch = {end: block for block in blocks[1:-1] for end in ((0, block), (block, 999))}
        for name, edges in (("hub", hub), ("switch", switch)):
            with self.subTest(name):
                begun = time.process_time()
                row = block_order.ordered(dict.fromkeys(blocks, 8), edges, 0)
                self.assertLess(time.process_time() - begun, 8)
                self.assertEqual((row[0], sorted(row)), (0, list(blocks)))


@needs("clang-19", "ld.lld-19", "llvm-readobj-19")
class OfClang(Case):
    """Programs with clang's map of blocks, sampled by drawn ways."""

    def built(self, *words):
        made = self.run_here(*BUILD, *words)
        self.assertEqual(made.status, 0, made.said)

    def repaired(self, *sources):
        """Builds the program with its map, and has cfg and out made of drawn ways."""
        self.built("-fbasic-block-address-map", *sources, "-o", "program")
        cfg = self.run_here(MAKER, "program").out
        self.file("cfg", cfg)
        self.file("text", drawn_run(functions_of(cfg.decode()), 0)[0])
        self.assertEqual(self.run_here(LINED, "program", "cfg", "-o", "lined").status, 0)
        self.file("out", self.run_here(PGO, "build", "--edges", "lined", "text", "cfg").out)

    def numbers(self, program):
        """Each function's blocks as (address, number), as another reader of the map has them."""
        told = self.run_here("llvm-readobj-19", "--bb-addr-map", "--elf-output-style=JSON", program)
        found = {}
        for function in json.loads(told.out)[0]["BBAddrMap"]:
            it = function["Function"]
            found[it["Name"]] = [(part["Base Address"] + row["Offset"], row["ID"]) for part in it["BB Ranges"] for row in part["BB Entries"]]
        return found

    @staticmethod
    def rows(text):
        lines = text.decode().splitlines()
        assert lines[0] == "v1"
        return {name[2:]: [int(it) for it in row[2:].split()] for name, row in zip(lines[1::2], lines[2::2])}

    def test_a_program_is_laid_out_so_and_does_the_same(self):
        source = self.file("program.c", PROGRAM)
        self.repaired(source)
        self.expect(self.run_here(LAYOUT, "program", "cfg", "out", "-o", "list"), 0)
        listed, before = self.rows((self.folder / "list").read_bytes()), self.numbers("program")
        self.assertIn("step", listed)
        for name, row in listed.items():
            self.assertEqual(row[0], before[name][0][1], name)
            self.assertLessEqual(set(row), {number for _, number in before[name]}, name)
            self.assertEqual(len(set(row)), len(row), name)
        self.built("-fbasic-block-address-map", "-fbasic-block-sections=list=list", source, "-o", "laid")
        after = self.numbers("laid")
        for name, row in listed.items():
            first = dict((number, at) for at, number in after[name])
            self.assertEqual(sorted(row, key=first.__getitem__), row, name)
        self.assertEqual(self.run_here("./laid"), self.run_here("./program"))

    def wanted(self, numbers):
        """How often control went from each numbered block to each, by what `build` wrote: a block goes on to where the next begins."""
        found: Dict[Any, Any] = {}
        functions, at = functions_of((self.folder / "cfg").read_text()), -1
        for words in map(str.split, (self.folder / "out").read_text().splitlines()):
            at += words[:2] == ["#", "function"]
            known = sorted(numbers.get(functions[at].name, [])) if at >= 0 else []
            if words[:2] == ["#", "edge"] and known and int(words[-1]):
                (_, end), (start, _) = (functions[at].blocks[int(it)] for it in words[2:4])
                tail, head = known[bisect.bisect(known, (end - 1, 1 << 32)) - 1], dict(known).get(start)
                if head is not None:
                    found.setdefault(known[0][0], collections.Counter())[tail[1], head] += int(words[-1])
        return found

    def test_each_count_of_an_edge_is_taken(self):
        self.repaired(self.file("program.c", PROGRAM))
        cfg, out, program = (str(self.folder / name) for name in ("cfg", "out", "program"))
        wanted = self.wanted(self.numbers("program"))
        self.assertEqual(maker.counts_of(cfg, out, maker.Places(program)), wanted)
        self.assertGreater(sum(sum(edges.values()) for edges in wanted.values()), 50)

    def test_functions_of_one_name_stay_as_they_were(self):
        halves = [self.file(f"{name}.c", TWINS.replace("NAME", name).replace("NUMBER", str(number))) for number, name in enumerate(["a", "b"])]
        source = self.file("main.c", "long a(long), b(long); int main(int n, char **v) { return a(n) + b(n) > 9; }\n")
        self.repaired(source, *halves)
        ran = self.run_here(LAYOUT, "program", "cfg", "out")
        self.assertNotIn("twin", self.rows(ran.out))
        self.tells(ran, 0, "left as they were, since their names are not theirs alone: twin, twin what helps: -funique-internal-linkage-names")


class Refusals(Case):
    def test_what_has_no_map(self):
        self.file("out", run(PGO, "build", "--edges", "--base", WORDS, TEXT, BLOCKS).out)
        words: Any
        for words, status, pattern in (
            ([WORDS, BLOCKS, "out"], REFUSED, "has no map of its blocks what helps: clang 19 with -fbasic-block-address-map"),
            ([TEXT, BLOCKS, "out"], REFUSED, "is no ELF file of 64 bits"),
            ([self.folder / "absent", BLOCKS, "out"], MISSING, "absent: No such file"),
            ([WORDS, BLOCKS], BAD_WORDS, "usage: layout"),
        ):
            with self.subTest(words=words):
                before = self.names()
                self.tells(self.run_here(LAYOUT, *words, "-o", "list"), status, pattern)
                self.assertEqual(self.names(), before)


if __name__ == "__main__":
    unittest.main()
