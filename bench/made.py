"""The files that rows of bench/peers need: those of the call, and those that are made once."""
import argparse
import collections
import contextlib
import os
import shutil
import sys
from typing import Callable, Counter, List, NamedTuple, Tuple

import turns
from pgo_tools import cli, elf
from pgo_tools.cli import programs
from pgo_tools.texts import branch_text

HERE = os.path.dirname(os.path.realpath(__file__))
TOP = os.path.dirname(HERE)


class Lacks(Exception):
    """Why something is left out on this machine."""


class Sizes(NamedTuple):
    """How large the made files are.

    Functions of a profile, bytes of a branch text and kinds of branches in it, functions of `make`.
    """

    functions: int
    text: int
    kinds: Tuple[int, ...]
    made: int


LARGE = Sizes(60_000, 200_000_000, (241_000, 1_600_000), 4096)
SMALL = Sizes(300, 200_000, (5000,), 64)


def key(path: str) -> str:
    """A name for what is made of a file, so that a folder that is kept may hold it for several."""
    return f"{os.path.basename(path)}.{os.path.getsize(path)}"


class Made:
    """The files that rows need: those of the call, and those that are made once, in a folder that may be kept."""

    def __init__(self, words: argparse.Namespace, folder: str, scratch: str) -> None:
        self.words, self.folder, self.scratch = words, folder, scratch
        self.sizes = SMALL if words.small else LARGE

    def made(self, name: str, make: Callable[[str], object]) -> str:
        """The file of this name in the folder, which `make` writes to a path where it is not there yet."""
        path = os.path.join(self.folder, name)
        if not os.path.exists(path):
            cli.say(f"{name} is made")
            new = f"{path}.{os.getpid()}.new"
            try:
                make(new)
                os.replace(new, path)
            finally:
                with contextlib.suppress(OSError):
                    os.unlink(new)
                shutil.rmtree(new, ignore_errors=True)
        return path

    def printed(self, words: List[str], path: str) -> None:
        """Has a program print into a file."""
        status, _ = turns.run(words, path, os.path.join(self.scratch, "err"))
        if status:
            raise Lacks(f"{os.path.basename(words[0])}: {turns.reason(status, os.path.join(self.scratch, 'err'))}")

    def compiled(self, source: str, *how: str) -> str:
        """A program of one file in C or C++."""
        compiler = programs.tool("c++") if source.endswith(".cc") else programs.tool("cc", "gcc", "clang")
        if not compiler:
            raise Lacks("there is no compiler of C")
        out = os.path.join(self.scratch, os.path.basename(source).replace(".", "-"))
        if not os.path.exists(out):
            status, _, err = programs.call([compiler, "-O2", *how, "-w", "-o", out, programs.as_file(source)])
            if status:
                raise Lacks(f"{source} is not compiled: {err.splitlines()[0] if err else status}")
        return out

    def binary(self) -> str:
        """The program of the call."""
        if not self.words.rest:
            raise Lacks("no BIN and TEXT are given")
        return str(self.words.rest[0])

    def text(self) -> str:
        """The branch text of the call."""
        self.binary()
        return str(self.words.rest[1])

    def five(self) -> str:
        """The first five lines of the text."""
        def make(new: str) -> None:
            with open(self.text(), "rb") as file, open(new, "wb") as out:
                out.writelines(line for _, line in zip(range(5), file))
        return self.made(f"{key(self.text())}.five", make)

    def address(self) -> str:
        """The end of branches in the binary's code that is most frequent in the first samples, in hexadecimal."""
        code = [it for it in elf.Elf(self.binary()).segments if it.kind == elf.LOAD and it.flags & elf.EXECUTE]
        found: Counter[int] = collections.Counter()
        with open(self.text(), "rb") as file:
            for _, sample in zip(range(1000), branch_text.samples(file, self.text())):
                ends = (end for branch in sample.branches for end in branch)
                found.update(end for end in ends if any(it.address <= end < it.address + it.size for it in code))
        if not found:
            raise Lacks("no branch of the text is in the binary as it stands in the file")
        return f"{found.most_common(1)[0][0]:x}"

    def blocks(self) -> str:
        """The block text of the program."""
        if self.words.blocks:
            return str(self.words.blocks)
        words = [f"{TOP}/contrib/blocks", "--fit", programs.as_file(self.binary())]
        return self.made(f"{key(self.binary())}.blocks", lambda new: self.printed(words, new))

    def fleet(self) -> List[str]:
        """Eight profiles of one program."""
        words = [sys.executable, f"{HERE}/fleet.py", "8", str(self.sizes.functions)]
        folder = self.made(f"fleet.{self.sizes.functions}", lambda new: self.printed([*words, new], os.devnull))
        return [f"{folder}/{number}.prof" for number in range(1, 9)]

    def kinds(self, kinds: int) -> str:
        """A branch text of so many kinds of branches at most."""
        words = [self.compiled(f"{HERE}/text.c"), str(self.sizes.text), str(kinds)]
        return self.made(f"text.{self.sizes.text}.{kinds}", lambda new: self.printed(words, new))
