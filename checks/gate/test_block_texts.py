"""contrib/blocks on the demo and its recording, and on the programs in blocks/cases/, built by the compilers that are there and run step
by step: each step of a function has to be one that its blocks and edges have. With clang 19 the texts by the map of basic blocks and
by the code have to agree. What it refuses is tried by test_blocks.py.
"""
import os
import shutil
import unittest

from common import BLOCKS, CONTRIB, HERE, TEXT, WORDS, Case, needs, python, takes

CASES = HERE / "blocks" / "cases"
JUDGE = HERE / "blocks" / "judge.py"
MAP = "-fbasic-block-address-map -mllvm -pgo-analysis-map=func-entry-count,bb-freq,br-prob -fuse-ld=lld -B/usr/lib/llvm-19/bin".split()
# How the cases are built: the file, and options.
WAYS = [
    ("ways.c", "-O0 -fPIE -pie"), ("ways.c", "-O2 -fPIE -pie"), ("ways.c", "-O2 -no-pie -fno-pie"),
    ("ways.c", "-O3 -fcf-protection -no-pie -fno-pie"), ("ways.c", "-Os -fPIE -pie -fno-plt"), ("throws.cpp", "-O2 -fPIE -pie"),
]


def compiler_of(case, compiler):
    """The compiler of C++ for a case of C++."""
    return compiler.replace("gcc", "g++").replace("clang", "clang++") if case.endswith(".cpp") else compiler


@needs("objdump")
class BlockTexts(Case):
    def blocks(self, *words):
        """The block text that it prints."""
        ran = self.run_here(CONTRIB / "blocks", *words)
        self.assertEqual(ran.status, 0, ran.said)
        return ran

    def judge(self, *words):
        ran = python(JUDGE, *words, folder=self.folder)
        self.assertEqual(ran.status, 0, (ran.out + ran.err).decode(errors="replace")[:3000])

    def test_the_demo(self):
        text = self.file("text", self.blocks(WORDS).out)
        self.assertEqual(text.read_bytes(), BLOCKS.read_bytes())
        self.judge(WORDS, text, TEXT)


@needs("objdump", "gcc")
class Steps(BlockTexts):
    """What the programs do, step by step."""

    test_the_demo = None

    def setUp(self):
        super().setUp()
        made = self.run_here("gcc", "-O2", "-o", "step", HERE / "blocks" / "step.c")
        self.assertEqual(made.status, 0, made.said)

    def follow(self, case, compiler, options):
        built = self.run_here(compiler_of(case, compiler), *options.split(), "-w", "-o", "program", CASES / case)
        self.assertEqual(built.status, 0, built.said)
        self.step()
        text = self.file("text", self.blocks("--code", "program").out)
        self.judge("--steps", "program", text, "steps")
        self.assertNotIn(b"leads to places that are not known", text.read_bytes())

    def step(self):
        if self.run_here("./step", "steps", "./program").status:
            self.skipTest("no program can be run step by step here")

    def by(self, compiler, *more):
        if not shutil.which(compiler):
            self.skipTest(f"there is no {compiler}")
        for case, options in [*WAYS, *more]:
            with self.subTest(f"{case} {options}"):
                if not shutil.which(compiler_of(case, compiler)):
                    self.skipTest(f"there is no {compiler_of(case, compiler)}")
                self.follow(case, compiler, options)

    @takes(60)
    def test_gcc(self):
        self.by("gcc")

    @takes(60)
    def test_clang_14(self):
        self.by("clang-14" if shutil.which("clang-14") else "clang")

    @takes(60)
    def test_clang_19(self):
        self.by("clang-19", ("throws.cpp", "-O2 -fbasic-block-sections=all"))

    @needs("clang-19", "clang++-19")
    def test_the_map(self):
        if not os.access("/usr/lib/llvm-19/bin/ld.lld", os.X_OK):
            self.skipTest("there is no lld of clang 19")
        for case in ("ways.c", "throws.cpp"):
            with self.subTest(case):
                built = self.run_here(compiler_of(case, "clang-19"), "-O2", "-w", *MAP, "-o", "program", CASES / case)
                self.assertEqual(built.status, 0, built.said)
                ran = self.blocks("program")
                self.assertIn(b"by its map", ran.out)
                mapped = self.file("mapped", ran.out)
                self.judge("--same", "program", self.file("text", self.blocks("--code", "program").out), mapped)
                self.step()
                self.judge("--steps", "program", mapped, "steps")


if __name__ == "__main__":
    unittest.main()
