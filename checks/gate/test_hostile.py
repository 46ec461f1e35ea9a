"""Hostile files: whatever a file holds, a command ends soon, by itself, and with a status that docs/FORMATS.md states; and time grows
within the bounds of growing.py.

The families of make.py are tried in small here, and those of growing.py at two sizes; checks/by_hand/hostile times both at full size.
"""
import contextlib
import io
import itertools
import os
import pathlib
import random
import re
import shutil
import struct
import sys
import tempfile
import time
import unittest
from typing import Any, List
from unittest import mock

from common import COLD, CONTRIB, DONE, PGO, REFUSED, TOP, WORDS, Case, needs, takes, within, found_in

import growing
import make
from pgo_tools.cli import Trouble, files, limits, programs
from pgo_tools.draw.source import places
from pgo_tools.texts import block_text, profile_text

SIZES = (1, 2, 7, 40)
# In how many tests the families are tried, side by side.
PARTS = 4
# What stands on the error output, by status.
SAID = {
    1: rb"check failed at line [0-9]+\n", 4: rb"refused: file [123] at [0-9]+: [A-Za-z0-9]+\n", 5: rb"read fault: file [123]\n",
    7: rb"no memory\n",
}
COMMANDS = [
    [PGO, "where", "file", "401000"], [PGO, "where", "--base", "file", "401010"], [PGO, "counts", "file"], [PGO, "merge", "1", "file"],
    [PGO, "summary", "file"], [PGO, "check", "file", "file"], [PGO, "profile", "file", "text"], [PGO, "profile", "--map=/bin/x", "good", "file"],
    [PGO, "build", "good", "text", "file"], [COLD, "good", "file"], [COLD, "file", "profile"],
]


class Hostile(Case):
    def made(self, family, size):
        """The file of a family, or None where it has none of this size."""
        try:
            return family(size)
        except (IndexError, ValueError, ZeroDivisionError, OverflowError):
            return None

    def ends(self, words):
        ran = self.run_here(*words, limit=60)
        what = f"{words[1:]}: status {ran.status}, {ran.err[:200]!r}"
        if ran.status == DONE:
            self.assertEqual(ran.err, b"", what)
        else:
            self.assertEqual(ran.out, b"", what)
            self.assertTrue(re.fullmatch(SAID.get(ran.status, b"none"), ran.err), what)

    def try_part(self, part):
        self.file("good", make.small(2))
        self.file("text", b"401036 0x401038/0x401036/P/-/-/1 0x40100c/0x401020/P/-/-/1\n")
        self.file("profile", b"f0000:1:1\n 1: 1\n")
        for family in make.CASES[part::PARTS]:
            with self.subTest(family.__name__):
                for size in SIZES:
                    held = self.made(family, size)
                    if held is not None:
                        self.file("file", held)
                        for words in COMMANDS:
                            self.ends(words)

    def test_families_0(self):
        self.try_part(0)

    def test_families_1(self):
        self.try_part(1)

    def test_families_2(self):
        self.try_part(2)

    def test_families_3(self):
        self.try_part(3)


class Farm(Case):
    """The script of SECURITY.md, which runs a command on files of strangers."""

    @needs("timeout")
    def test_the_script_of_the_page(self):
        script = self.file("farm.sh", found_in(r"(?ms)^```\n(#!/bin/sh\n.*?)^```$", (TOP / "SECURITY.md").read_text())[1])
        self.file("good", make.small(1))
        self.file("bad", b"\x7fELF")
        self.expect(self.run_here("sh", script, "told", PGO, "where", "good", "401014"), DONE)
        self.assertEqual((self.folder / "told").read_bytes(), self.run_here(PGO, "where", "good", "401014").out)
        self.tells(self.run_here("sh", script, "other", PGO, "where", "bad", "401014"), REFUSED, "^other: status 4: refused: file 1 at 0: ")
        self.assertEqual([name for name in self.names() if name.startswith("other")], ["other.said"])


class Tools(Case):
    """Tools of the system that a script calls for a stranger's program end within limits, and no more of their output is held."""

    def limited(self, *words, seconds=60, memory=1 << 30, printed=1 << 24):
        """The lines that a tool prints, and how it ended."""
        with limits.limited(list(words), limits.Limits(seconds, memory, printed)) as said:
            held = list(said.lines())
        return held, said.status

    def test_lines_come_whole_but_for_those_that_are_too_long(self):
        long = b"x" * (limits.LONGEST - 1)
        name = self.file("lines", b"a\n\n" + long + b"\n" + long + b"x\nb\n" + 3 * long + b"\nc")
        self.assertEqual(self.limited("cat", str(name)), ([b"a", b"", long, b"b", b"c"], 0))

    def test_a_tool_that_never_ends(self):
        begun = time.monotonic()
        with self.assertRaisesRegex(Trouble, "sleep takes more than 1 seconds for this file"):
            self.limited("sleep", "100", seconds=1)
        self.assertLess(time.monotonic() - begun, 20)

    def test_a_tool_that_prints_without_end(self):
        with self.assertRaisesRegex(Trouble, "yes prints too much of this file"):
            self.limited("yes")

    def test_a_tool_that_takes_memory_without_end(self):
        told, status = self.limited(sys.executable, "-c", "x = []\nwhile True: x.append(bytes(1 << 24))")
        self.assertEqual((told, status > 0), ([], True))

    def test_a_lower_limit_of_the_caller_stays(self):
        code = ("from pgo_tools.cli import limits\n"
                "with limits.limited(['sh', '-c', 'ulimit -v'], limits.limits_for('none')) as said: print(*said.lines())")
        for limit in ("ulimit -S -v 1500000", "ulimit -v 1500000", ":"):
            ran = self.run_here(*within(limit, sys.executable, "-c", code), environment={"PYTHONPATH": str(CONTRIB)})
            self.expect(ran, DONE, f"b'{limits.MEMORY >> 10 if limit == ':' else 1500000}'\n")

    @needs("clang", "llvm-symbolizer")
    def test_what_a_program_names_as_its_dwo(self):
        """A pipe that nobody writes to, and a file without end, in the place of a part of the debugging information."""
        source = self.file("a.c", "int main(int n, char **v) { return n * 3; }\n")
        self.expect(self.run_here("clang", "-g", "-gsplit-dwarf", "-no-pie", "-o", "program", source.name), DONE)
        dwo, = self.folder.glob("*.dwo")
        entry, = struct.unpack_from("<Q", (self.folder / "program").read_bytes(), 24)
        made: Any
        for made in (os.mkfifo, lambda path: os.symlink("/dev/zero", path)):
            dwo.unlink()
            made(dwo)
            with mock.patch.multiple(limits, SECONDS=3, MEMORY=1 << 29), contextlib.suppress(Trouble):
                begun = time.monotonic()
                places(str(self.folder / "program"), [entry])
            self.assertLess(time.monotonic() - begun, 30)

    @needs("printenv")
    def test_no_tool_asks_a_server(self):
        with mock.patch.dict(os.environ, DEBUGINFOD_URLS="https://example.com"):
            self.assertEqual(self.limited("printenv", "DEBUGINFOD_URLS"), ([b""], 0))
            self.assertEqual(programs.answer("printenv", "DEBUGINFOD_URLS"), "\n")


class PassedOver(Case):
    """Lines that tell nothing: blank ones and comments are passed over without a step for each."""

    PROFILE = b"main:3:1\n 1: 3\n"

    def given(self, raw, wanted, most, piece):
        """The lines, with "too large" where the text is, and how many there were."""
        found: List[Any] = []
        with mock.patch.multiple(files, MOST_TEXT=most, PIECE=piece):
            lines = files.lines_of(io.BytesIO(raw), "text", wanted)
            try:
                found.extend(lines)
            except Trouble:
                return found + ["too large"], None
        return found, lines.number

    def test_the_same_lines_as_one_by_one(self):
        draw = random.Random(1)
        for wanted in (profile_text.TOLD, block_text.TOLD, None):
            for _ in range(2000):
                raw = bytes(draw.choice(b"\n\n #a\t\r") for _ in range(draw.randrange(30)))
                most, lines = draw.choice([5, 29, 1000]), raw.splitlines(keepends=True) if b"\r" not in raw else None
                if lines is None:
                    lines = [line + b"\n" for line in raw.split(b"\n")]
                    lines[-1] = lines[-1][:-1]
                ends = list(itertools.accumulate(map(len, lines)))
                told = [(n, line.rstrip(b"\n").decode()) for n, (line, end) in enumerate(zip(lines, ends), 1)
                        if line and end <= most and (wanted is None or wanted.search(line.rstrip(b"\n")))]
                found, number = self.given(raw, wanted, most, draw.choice([1, 2, 7, 100]))
                whole = len(raw) <= most
                self.assertEqual(found, told + ([] if whole else ["too large"]), raw)
                self.assertEqual(number, sum(map(bool, lines)) if whole else None, raw)

    def test_megabytes_of_them(self):
        """A MB took more than a second of a processor."""
        for line in (b"\n", b"#\n"):
            much = self.file("much", line * (8 << 20 >> len(line) // 2) + self.PROFILE)
            cfg = self.file("cfg", line * (8 << 20 >> len(line) // 2) + b"func f\nblock 0 0x401000 0x401010 exit\nend\n")
            for script, *words in (("compare", much, much), ("hot", much), ("lined", WORDS, cfg, "-o", "lined")):
                with self.subTest(line=line, words=script):
                    ran = self.run_here(*within("ulimit -t 6", CONTRIB / str(script), *words))
                    self.assertEqual(ran.status, DONE, ran.said)


# The families of growing.py that are known to be slow, with what is known; docs/LIMITS.md has their figures. These are tried in small
# alone. A row goes with what it tells of.
KNOWN_SLOW = {
    "tails of a name": "each name is a text of its own",
    "one range list of bases": "the list is read anew for each base address that is in force",
}
# How often both sizes are run, the quickest of each being taken; once more so often where that is not enough.
TURNS = 3


class Growth(Case):
    """Twice the input takes at most three times as long (a ladder 4.5), and none of these sizes more than five seconds of a processor."""

    def folder_of(self, family, size) -> pathlib.Path:
        folder = pathlib.Path(tempfile.mkdtemp(dir=self.folder))
        family.write(folder, size)
        return folder

    def seconds(self, family, folder):
        """What a run takes, which has to have its answer."""
        ended = family.run(folder, growing.MOST_SECONDS + 1)
        self.assertLessEqual(ended.seconds, growing.MOST_SECONDS, "seconds of a processor")
        self.assertEqual(family.wrong(ended), "")
        return ended.seconds

    def try_family(self, family):
        if family.compiled and not shutil.which("cc"):
            self.skipTest("there is no cc")
        if family.name in KNOWN_SLOW:
            self.seconds(family, self.folder_of(family, family.size // 40))
            self.skipTest(f"known to be slow, tried in small alone: {KNOWN_SLOW[family.name]}")
        folders = [self.folder_of(family, size) for size in family.sizes()]
        took = []
        for turn in range(2 * TURNS):
            took.append([self.seconds(family, folder) for folder in folders])
            small, large = map(min, zip(*took))
            if turn + 1 >= TURNS and large <= family.growth * max(small, growing.LEAST_SECONDS):
                return
        self.fail(f"{family.sizes()} bytes take {small:.2f} and {large:.2f} s")

    def test_all_that_is_known_to_be_slow_is_a_family(self):
        self.assertLessEqual(set(KNOWN_SLOW), {family.name for family in growing.FAMILIES})


def trial_of(family):
    """The test of a family; the long ones are begun first."""
    return takes(1 if family.name in KNOWN_SLOW else 10)(lambda self: self.try_family(family))


for family in growing.FAMILIES:
    setattr(Growth, "test_" + re.sub("[^a-z]+", "_", family.name), trial_of(family))


if __name__ == "__main__":
    unittest.main()
