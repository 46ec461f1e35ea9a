"""contrib/lined: counts of blocks by their own addresses, on the demo beside exact counts, and on programs of each compiler that is
here, position-independent or not, stripped or not, walked through by drawn ways whose counts are known."""
import collections
import random
import shutil
import struct
import unittest
from typing import Any, Counter, List, Optional

from common import BLOCKS, CONTRIB, HERE, MISSING, PGO, REFUSED, TEXT, TOP, WORDS, BAD_WORDS, Case, needs, run, takes
from make import elf
from pgo_tools.commands import lined
from pgo_tools.dwarf import writer as dwarf_writer

LINED, MAKER = CONTRIB / "lined", CONTRIB / "blocks"
NOTE = "lined: for pgo build, people and contrib/draw; a profile made with it is not for clang\n"
COMPILERS = ["gcc", "clang-14", "clang-19"]
OUTSIDE = 0x10
BASE = 0x7F0000000000

Function = collections.namedtuple("Function", "name blocks edges exits")


def functions_of(text):
    """The functions of a block text: name, blocks as (low, high), the blocks behind each block, the numbers of the exits."""
    found: List[Any] = []
    for words in (line.split() for line in text.splitlines() if line and not line.startswith("#")):
        if words[0] == "func":
            found.append(Function(words[1], [], collections.defaultdict(list), set()))
        elif words[0] == "block":
            found[-1].blocks.append((int(words[2], 16), int(words[3], 16)))
            found[-1].exits.update([int(words[1])] if "exit" in words else [])
        elif words[0] == "edge":
            found[-1].edges[int(words[1])].append(int(words[2]))
    return found


def repairs_of(built):
    """What `pgo build` tells of each function's blocks: their weights (None where unknown) and counts (None in a cut)."""
    found: List[Any] = []
    for words in (line.split() for line in built.decode().splitlines()):
        if words[:2] == ["#", "function"]:
            found.append(([], []))
        elif words[:2] == ["#", "block"]:
            found[-1][0].append(None if words[4] == "?" else int(words[4]))
            found[-1][1].append(int(words[6]) if words[5] == "count" else None)
    return found


def overlap(some, others):
    """The degree of overlap: the sum of the smaller of the two shares."""
    return sum(min(a / sum(some), b / sum(others)) for a, b in zip(some, others))


def walk(function, drawn) -> Optional[List[int]]:
    """A way through a function from its entry to an exit, as numbers of blocks; none where it finds no exit soon."""
    way = [0]
    while len(way) < 300:
        there = function.edges[way[-1]]
        if way[-1] in function.exits and (not there or drawn.random() < 0.5):
            return way
        if not there:
            return None
        way.append(drawn.choice(there))
    return None


def sample(function, way, moved):
    """The sample that a way leaves: a branch wherever it does not run on, the newest first."""
    went = [(OUTSIDE, function.blocks[0][0] + moved)]
    for tail, head in zip(way, way[1:]):
        if function.blocks[tail][1] != function.blocks[head][0]:
            went.append((function.blocks[tail][1] - 1 + moved, function.blocks[head][0] + moved))
    went.append((function.blocks[way[-1]][1] - 1 + moved, OUTSIDE))
    return " ".join(f"0x{source:x}/0x{target:x}/P/-/-/1" for source, target in reversed(went)) + "\n"


def drawn_run(functions, moved):
    """Samples of drawn ways through all functions, and how often each block ran in them."""
    drawn, counts = random.Random(67), [[0] * len(it.blocks) for it in functions]
    text = ""
    for function, ran in zip(functions, counts):
        for way in filter(None, (walk(function, drawn) for _ in range(12))):
            text += sample(function, way, moved)
            for number in way:
                ran[number] += 1
    return text, counts


class OfTheDemo(Case):
    """The demo's recording, held beside how often its blocks ran."""

    def built(self, binary, text=TEXT):
        return self.run_here(PGO, "build", "--edges", binary, text, BLOCKS)

    def overlaps(self, text=TEXT):
        """How near weights and counts come to the exact counts of the demo, by lines and by a file that is lined."""
        self.expect(self.run_here(LINED, WORDS, BLOCKS, "-o", "lined"), 0, b"", NOTE)
        exact = dict(line.split() for line in (HERE / "lined" / "words.exact").read_text().splitlines() if line[0] != "#")
        wanted = [int(exact[f"{low:#x}"]) for function in functions_of(BLOCKS.read_text()) for low, _ in function.blocks]
        near = []
        for binary in (WORDS, self.folder / "lined"):
            told = repairs_of(self.built(binary, text).out)
            near += [overlap([it or 0 for function in told for it in function[what]], wanted) for what in (0, 1)]
        return near

    def test_counts_are_nearer_to_the_exact_ones(self):
        weights, counts, own_weights, own_counts = near = self.overlaps()
        self.assertGreater(own_weights, weights + 0.1, near)
        self.assertGreater(own_counts, counts, near)
        self.assertGreater(own_counts, 0.89, near)

    @needs("qemu-x86_64", "cc")
    def test_sampled_by_branches_they_are_the_exact_ones_but_for_a_hundredth(self):
        made = run("cc", "-O2", "-shared", "-fPIC", "-o", self.folder / "recorder.so", TOP / "bench" / "repair" / "recorder.c")
        self.assertEqual(made.status, 0, made.said)
        ran = self.run_here("qemu-x86_64", "-plugin", "./recorder.so,out=text,branches=2999", WORDS)
        self.assertEqual(ran.status, 0, ran.said)
        weights, counts, own_weights, own_counts = near = self.overlaps("text")
        self.assertGreater(min(own_weights, own_counts), 0.98, near)
        self.assertLess(weights, 0.85, near)

    def test_a_weight_is_the_most_samples_of_the_blocks_own_addresses(self):
        self.expect(self.run_here(LINED, WORDS, BLOCKS, "-o", "lined"), 0, b"", NOTE)
        hits: Counter[int] = collections.Counter()
        held = {at for function in functions_of(BLOCKS.read_text()) for low, high in function.blocks for at in range(low, high)}
        for line in TEXT.read_text().splitlines():
            stack = [[int(end, 16) for end in it.split("/", 2)[:2]] for it in line.split() if "/" in it]
            for newer, older in zip(stack, stack[1:]):
                if older[1] in held and newer[0] in held:
                    hits.update(range(older[1], newer[0] + 1))
        told = repairs_of(self.built("lined").out)
        for function, (weights, _) in zip(functions_of(BLOCKS.read_text()), told):
            self.assertEqual(weights, [max(hits[at] for at in range(*block)) for block in function.blocks], function.name)

    def test_the_profile_has_a_line_for_each_block_and_functions_of_one_name_apart(self):
        text = BLOCKS.read_text().replace("func by_times\n", "func count_word\n").replace("func main\n", "func 7:main\n")
        cfg = self.file("cfg", text)
        self.expect(self.run_here(LINED, WORDS, cfg, "-o", "lined"), 0, b"", NOTE)
        out = self.run_here(PGO, "profile", "lined", TEXT).out.decode()
        entries = {it.name: it.blocks[0][0] for it in functions_of(BLOCKS.read_text())}
        self.assertIn(f"\ncount_word@{entries['count_word']:#x}:", "\n" + out)
        self.assertIn(f"\ncount_word@{entries['by_times']:#x}:", "\n" + out)
        self.assertIn("\n_7_main:", "\n" + out)
        self.assertRegex(out, r"\n 17: [0-9]+\n")

    def test_places_and_build_number_are_the_programs(self):
        self.expect(self.run_here(LINED, WORDS, BLOCKS, "-o", "lined"), 0, b"", NOTE)
        given, made = WORDS.read_bytes(), (self.folder / "lined").read_bytes()
        self.assertEqual(made[:40], given[:40])
        self.assertEqual(made[64:0x1500], given[64:0x1500])
        for function in functions_of(BLOCKS.read_text()):
            for number, (low, high) in enumerate(function.blocks):
                for at in (low, high - 1):
                    self.expect(self.run_here(PGO, "where", "lined", f"{at:x}"), 0, f"{function.name} {number}\n")

    def test_the_output_is_the_same_file(self):
        self.expect(self.run_here(LINED, WORDS, BLOCKS, "-o", "lined"), 0, b"", NOTE)
        self.expect(self.run_here(LINED, WORDS, BLOCKS), 0, (self.folder / "lined").read_bytes(), NOTE)

    @needs("llvm-dwarfdump")
    def test_another_reader_finds_no_fault(self):
        self.expect(self.run_here(LINED, WORDS, BLOCKS, "-o", "lined"), 0, b"", NOTE)
        ran = self.run_here("llvm-dwarfdump", "--verify", "lined")
        self.assertEqual(ran.status, 0, ran.out[-500:])


class Names(unittest.TestCase):
    """Each function has a name of its own, which a profile can hold."""

    def test_names(self):
        given = [("f", 1), ("f", 2), ("f", 2), ("type:.eq.x1", 3), ("9p", 4), ("[x", 5), ("#", 6), ("a\x7f b", 7), ("f@0x1", 8), ("g", 9)]
        wanted = ["f@0x1.2", "f@0x2", "f@0x2.2", "type_.eq.x1", "_9p", "_[x", "_#", "a__b", "f@0x1", "g"]
        self.assertEqual(dwarf_writer.own_names(given), wanted)


class OfCompilers(Case):
    """Programs of each compiler: what is drawn is found again, count by count."""

    def agrees(self, *flags, compiler, strip=()):
        name = str(self.folder / "program")
        made = run(compiler, "-O2", "-w", *flags, TOP / "demo" / "words.c", "-o", name)
        self.assertEqual(made.status, 0, made.said)
        cfg = run(MAKER, name)
        self.assertEqual(cfg.status, 0, cfg.said)
        if strip:
            self.assertEqual(run(*strip, name).status, 0)
        functions = functions_of(cfg.out.decode())
        is_moved = "-pie" in flags
        text, wanted = drawn_run(functions, BASE if is_moved else 0)
        load = f"words 1 PERF_RECORD_MMAP2 1/1: [{BASE:#x}(0x100000) @ 0 08:01 131 0]: r-xp /srv/words\n" if is_moved else ""
        self.file("cfg", cfg.out)
        self.file("text", load + text)
        self.expect(self.run_here(LINED, "program", "cfg", "-o", "lined"), 0, b"", NOTE)
        built = self.run_here(PGO, "build", "--edges", *(["--map=/srv/words"] if is_moved else []), "lined", "text", "cfg")
        self.assertEqual(built.status, 0, built.said)
        for function, (weights, counts), ran in zip(functions, repairs_of(built.out), wanted):
            self.assertEqual((weights, counts), (ran, ran), function.name)
        self.assertGreater(sum(map(sum, wanted)), 300)

    @takes(20)
    def test_counts_of_drawn_ways_are_found_again(self):
        found = [it for it in COMPILERS if shutil.which(it)]
        if not found:
            self.skipTest("there is no gcc, no clang-14 and no clang-19")
        for compiler in found:
            for flags in (["-g", "-no-pie"], ["-g", "-pie", "-fPIE"], ["-pie", "-fPIE"]):
                with self.subTest(compiler=compiler, flags=flags):
                    self.agrees(*flags, compiler=compiler)

    @needs("gcc", "strip")
    def test_a_stripped_program_has_them_too(self):
        for words in (["strip", "-g"], ["strip"]):
            with self.subTest(words=words):
                self.agrees("-no-pie", compiler="gcc", strip=words)


class Refusals(Case):
    """What it does not take, and that nothing is left behind then."""

    def test_what_is_no_program_or_of_another_one(self):
        other = self.file("other", "func f\nblock 0 0x10 0x20 exit\nend\n")
        none = self.file("none", "# nothing\n")
        for words, status, pattern in (
            ([TEXT, BLOCKS], REFUSED, "is no ELF file of 64 bits"),
            ([WORDS, TEXT], REFUSED, "refused at 1: BadLine"),
            ([WORDS, other], REFUSED, "block 0 of f is no code of the program: 0x10 to 0x20 what helps: the block text of this very"),
            ([WORDS, none], REFUSED, "it has no function"),
            ([WORDS, self.folder / "absent"], MISSING, "absent: No such file"),
            ([WORDS], BAD_WORDS, "usage: lined"),
        ):
            with self.subTest(words=words):
                before = self.names()
                self.tells(self.run_here(LINED, *words, "-o", "lined"), status, pattern)
                self.assertEqual(self.names(), before)

    def test_a_program_that_is_cut_off(self):
        whole = WORDS.read_bytes()
        for length in (30, 64, 500, 0x1100, len(whole) // 2, len(whole) - 40):
            with self.subTest(length=length):
                cut = self.file("cut", whole[:length])
                self.tells(self.run_here(LINED, cut, BLOCKS, "-o", "lined"), REFUSED, "is no ELF file|damaged or cut off")

    def test_sections_that_overlap(self):
        """Two headers of one section, which is most of the file: both would be copied."""
        raw = elf([(b".one", bytes(4000)), (b".two", b"")], 16)
        table, = struct.unpack_from("<Q", raw, 40)
        one, two = table + 64, table + 128
        self.file("cfg", "func f\nblock 0 0x401000 0x401010 exit\nend\n")
        self.expect(self.run_here(LINED, self.file("apart", raw), "cfg", "-o", "lined"), 0, b"", NOTE)
        twice = self.file("twice", raw[: two + 4] + raw[one + 4 : two] + raw[two + 64 :])
        self.tells(self.run_here(LINED, twice, "cfg", "-o", "none"), REFUSED, "twice is damaged: its sections overlap")

    def test_a_block_lies_in_one_segment(self):
        code = lined.Code([(0x30, 0x50), (0x10, 0x40), (0x50, 0x60)])
        held = [(low, high) for low in range(0x0F, 0x62) for high in range(low + 1, 0x63) if code.holds(low, high)]
        wanted = [(low, high) for low in range(0x0F, 0x62) for high in range(low + 1, 0x63)
                  if 0x10 <= low and high <= 0x40 or 0x30 <= low and high <= 0x50 or 0x50 <= low and high <= 0x60]
        self.assertEqual(held, wanted)

    def test_an_output_that_is_read_too(self):
        binary = self.file("words", WORDS.read_bytes())
        self.tells(self.run_here(LINED, binary, BLOCKS, "-o", binary), BAD_WORDS, "it is read, too")
        self.assertEqual(binary.read_bytes(), WORDS.read_bytes())

    def test_a_full_device(self):
        self.ends_on_full_device("lined", LINED, WORDS, BLOCKS)

    def test_it_says_that_the_profile_is_not_for_clang(self):
        self.assertIn(b"Its profile is NOT for clang", b" ".join(run(LINED, "--help").out.split()))


if __name__ == "__main__":
    unittest.main()
