"""Makes of a program and its block text an ELF file whose debugging information gives each block a line of its own.

`pgo build --edges LINED PERF CFG` then weighs each block by the samples of its own addresses, where with BIN it has the
largest number of all instructions of its lines, those in other blocks too. Function and block stand for function and
line: block N of a function is line N of it, counted from 0. So the profile in what is built is not for clang.
docs/USING.md shows it in use. """
import argparse
import bisect
import itertools
import sys
from typing import Iterable, List, NoReturn, Optional, Sequence, Tuple, Union

from pgo_tools import cli, elf
from pgo_tools.cli import files
from pgo_tools.dwarf import writer as dwarf_writer
from pgo_tools.elf import writer as elf_writer
from pgo_tools.texts import block_text


class Code:
    """The stretches of addresses in which the program's code stands: `ends` has how far those reach that begin there or
    earlier."""

    def __init__(self, stretches: Iterable[Tuple[int, int]]) -> None:
        ordered = sorted(stretches)
        self.lows = [low for low, _ in ordered]
        highs = [high for _, high in ordered]
        self.ends: List[int] = list(itertools.accumulate(highs, lambda some, more: max(some, more)))

    def holds(self, low: int, high: int) -> bool:
        """Whether one stretch has all of these addresses."""
        k = bisect.bisect_right(self.lows, low) - 1
        return k >= 0 and high <= self.ends[k]


def judge(function: block_text.Function, code: Code, path: str) -> None:
    """A Trouble where a block lies in no segment of code: it has another program."""
    for number, block in enumerate(function.blocks):
        if not block.low or not code.holds(block.low, block.high):
            what = f"block {number} of {function.name} is no code of the program: {block.low:#x} to {block.high:#x}"
            raise cli.Trouble(f"{path}: {what}", cli.REFUSED, "the block text of this very program")


def functions_of(path: str, code: Sequence[Tuple[int, int]]) -> List[dwarf_writer.Function]:
    """The functions of the block text, each by a name of its own."""
    with files.open_packed(path) as file:
        found = list(block_text.functions(file, path))
    held = Code(code)
    for function in found:
        judge(function, held, path)
    if not found:
        raise cli.Trouble(f"{path}: it has no function", cli.REFUSED, "a block text, as contrib/blocks prints it")
    names = dwarf_writer.own_names([(function.name, function.blocks[0].low) for function in found])
    return [dwarf_writer.Function(name, [(block.low, block.high) for block in function.blocks])
            for name, function in zip(names, found)]


def made(binary: str, blocks: str) -> List[Union[bytes, memoryview]]:
    """The pieces of the file."""
    program = elf.Elf(binary)
    if program.kind not in (elf.EXECUTABLE, elf.SHARED):
        raise cli.Trouble(f"{binary} is not linked", cli.REFUSED, "the program, or the shared object")
    code = [(each.address, each.address + each.size) for each in program.code()]
    if not code:
        helps = "the program itself, and no debug file of it"
        raise cli.Trouble(f"{binary} has no code that is loaded", cli.REFUSED, helps)
    pieces = elf_writer.with_sections(program, dwarf_writer.sections(functions_of(blocks, code), code))
    if sum(map(len, pieces)) > elf.LARGEST:
        what = "the file would pass 2^30 bytes, and pgo reads no larger one"
        raise cli.Trouble(what, cli.REFUSED, "a block text of fewer functions")
    return pieces


class Words(argparse.Namespace):
    """The words of a call."""

    bin: str
    cfg: str
    output: Optional[str]


def parser() -> argparse.ArgumentParser:
    words = argparse.ArgumentParser(
        prog=cli.name(), description=(__doc__ or "").split("\n\n", maxsplit=1)[0], epilog=cli.as_installed("""
        LINED has the segments of BIN, so the same load lines fit (--map=NAME, NAME being that of the program that ran).
        What is built with it is for people, for contrib/draw, and for tools that take counts of blocks. Its profile is
        NOT for clang: the lines in it are numbers of blocks."""))
    words.add_argument("bin", metavar="BIN", help="the linked program; its debugging information is not needed")
    text = "its block text, as contrib/blocks prints it, packed or not"
    words.add_argument("cfg", metavar="CFG", help=cli.as_installed(text))
    words.add_argument("-o", "--output", metavar="LINED", help="the file to make (else the output)")
    return words


def work(argv: List[str]) -> int:
    words = parser().parse_args(argv, Words())
    if not words.output and sys.stdout is not None and sys.stdout.isatty():
        raise cli.Trouble("the output is a terminal", cli.USAGE, "lined BIN CFG >LINED")
    pieces = made(words.bin, words.cfg)
    if words.output:
        with files.put_in_place(words.output, [words.bin, words.cfg]) as file:
            file.writelines(pieces)
    else:
        cli.out().writelines(pieces)
    cli.say(cli.as_installed("for pgo build, people and contrib/draw; a profile made with it is not for clang"))
    return cli.DONE


def main(argv: Optional[List[str]] = None) -> NoReturn:
    """The command, from its words to its status. It never returns."""
    cli.run(work, argv)
