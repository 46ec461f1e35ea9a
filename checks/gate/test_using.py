"""Runs the commands of README.md and docs/USING.md as they stand, those of a page one behind the other, and looks at what they leave and
whether they print what stands there; those of the chapter on a fleet test_fleet runs. Where the processor records no branches, a recording made of demo/words.txt stands in for that of
`perf record -b`.
"""
import re
import shutil
import unittest
from typing import List, Optional, Tuple

from common import HERE, TOP, Case, needs, python


def blocks(page):
    """The fenced blocks of a page, as lists of lines."""
    inside: Optional[List[str]] = None
    for line in page.splitlines():
        if line.startswith("```"):
            if inside is not None:
                yield inside
            inside = [] if inside is None else None
        elif inside is not None:
            inside.append(line)


FLEET = "\n## A fleet"


def chapters():
    """docs/USING.md in two: up to the chapter on a fleet, and this one, which has a folder of its own."""
    page, mark, fleet = (TOP / "docs/USING.md").read_text(encoding="utf-8").partition(FLEET)
    assert mark, "docs/USING.md has no chapter on a fleet"
    return page, mark + fleet


def commands(page):
    """Each command with the lines that it has to print, `...` being anything. A line is a command, or behind one with `$ ` what this one
    prints; a block with a line in front of these that begins with `#` shows a file."""
    for block in blocks(page):
        prompts = [line.startswith("$ ") for line in block]
        if any(line.startswith("#") and not any(prompts[:at]) for at, line in enumerate(block)):
            continue
        found: List[Tuple[str, List[str]]] = []
        for at, line in enumerate(block):
            if prompts[at]:
                found.append((line[2:], []))
            elif any(prompts[:at]):
                found[-1][1].append(line)
            else:
                found.append((line, []))
        yield from found


@needs("clang", "perf", "objdump", "llvm-dwarfdump")
class Using(Case):
    def setUp(self):
        super().setUp()
        for name in ("demo", "pgo", "pgo-cold", "contrib", "bench"):
            (self.folder / name).symlink_to(TOP / name)

    def sh(self, command):
        cache = {"XDG_CACHE_HOME": str(self.folder / "cache")}
        return self.run_here("sh", "-c", f"{{ {command}\n}} 2>&1", limit=300, environment=cache)

    def records_none(self, command, ran):
        """A recording of another kind of machine, or by another user: one that is made stands in for it."""
        if not command.startswith("perf record -b") or ran.status == 0:
            return False
        made = python(HERE / "using" / "perf_data.py", "demo/words.txt", "/srv/app/words", "perf.data", folder=self.folder)
        self.assertEqual(made.status, 0, made.said)
        return True

    def follow(self, page):
        for command, wanted in commands(page):
            with self.subTest(command):
                tool = command.split()[0].replace("./contrib/pgo-record", "qemu-x86_64")
                if tool in ("cmake", "make", "qemu-x86_64") and not shutil.which(tool):
                    self.skipTest(f"there is no {tool}")
                ran = self.sh(command)
                if self.records_none(command, ran):
                    self.skipTest(f"no branches are recorded here: {' '.join(ran.out.decode(errors='replace').split())[:90]}")
                printed = ran.out.decode(errors="replace").splitlines()
                if not wanted:
                    self.assertEqual(ran.status, 0, printed[:5])
                for line in wanted:
                    pattern = ".*".join(map(re.escape, line.split("...")))
                    self.assertTrue(not line or any(re.fullmatch(pattern, each) for each in printed), f"{line}: {printed}")

    def same(self, title, one, other):
        with self.subTest(title):
            self.assertTrue((self.folder / one).read_bytes() == (self.folder / other).read_bytes(), f"{one} and {other} differ")

    def test_readme(self):
        self.follow((TOP / "README.md").read_text(encoding="utf-8"))

    def test_using(self):
        self.follow(chapters()[0])
        counts = [self.run_here("./pgo", "counts", text).out for text in ("demo/words.txt", "words.txt")]
        with self.subTest("perf script prints the branches that were recorded"):
            self.assertEqual(*counts)
        self.file("mapped.prof", self.run_here("./pgo", "profile", "--base", "--map=/srv/app/words", "demo/words", "words.txt").out)
        self.same("load lines as perf prints them", "mapped.prof", "loaded.prof")
        self.same("the profile", "words.prof", HERE / "program" / "words.expected")
        whole = (self.folder / "words.cold").read_bytes() + b"".join(line for line in (self.folder / "words.prof").read_bytes().splitlines(True) if line.startswith(b"#"))
        self.file("words.both", whole)
        self.same("the lines that never ran, at once", "words.once", "words.both")
        self.same("the block text", "words.blocks", "demo/words.blocks")
        self.same("the picture", "count_word.svg", TOP / "docs" / "count_word.svg")


if __name__ == "__main__":
    unittest.main()
