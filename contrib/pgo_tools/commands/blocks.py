"""Prints a block text for an x86-64 program: its functions with their basic blocks and the edges between these.

Where clang 19 left a map of basic blocks with their successors in the program, the text is made from that. Else it is
made from what `objdump -d` prints, with the tables of jumps, of exceptions and of symbols. docs/USING.md shows it in
use, docs/FORMATS.md says what a block text is, and docs/RULES.md what the blocks, edges and exits of a program are.
"""
import argparse
import os
import tempfile
from typing import IO, List, NamedTuple, NoReturn, Optional, Sequence

from pgo_tools import cli
from pgo_tools.blocks import written
from pgo_tools.blocks.source import Named, Source, source_of
from pgo_tools.blocks.touched import Touch
from pgo_tools.cli import words as words_of
from pgo_tools.cli.files import MOST_TEXT
from pgo_tools.elf import Elf
from pgo_tools.texts.names import raw_of, text_of


class Words(NamedTuple):
    """The words of a call."""

    bin: str
    functions: List[str]
    names: Optional[str]
    known: bool
    code: bool
    perf: Optional[str]
    map: Optional[str]
    fit: bool


def names_in(path: str) -> List[str]:
    with cli.given() if path == "-" else open(path, "rb") as file:
        return text_of(file.read()).split()


def parsed(argv: List[str]) -> Words:
    parser = argparse.ArgumentParser(
        prog=cli.name(),
        usage="%(prog)s [--names FILE] [--known] [--code] [--perf PERF [--map NAME]] [--fit] [--] BIN [FUNCTION ..]",
        description="Print a block text for an x86-64 program: all its functions, or those that are named by their "
        "symbols. A name brings its clones (NAME.constprop.0).", epilog="""
        The text is made from the program's map of basic blocks, where clang 19 left one with successors
        (-fbasic-block-address-map -mllvm -pgo-analysis-map=func-entry-count,bb-freq,br-prob, linked by lld 19), else
        from what objdump prints of it. All of BIN is read in both cases. The text is printed whole or not at all; a
        line on the error output says why not. Names that begin with - stand behind --.""")
    parser.add_argument("--names", metavar="FILE",
                        help="print the functions that stand in this file too (- is the input)")
    parser.add_argument("--known", action="store_true", help="pass over names that the program does not have")
    parser.add_argument("--code", action="store_true", help="take the disassembly, also where there is a map")
    parser.add_argument("--perf", metavar="PERF",
                        help="a branch text: of the blocks that only unwinding reaches, or that lead to calls which "
                        "never return, those that no sample touched have a count of 0 (never)")
    parser.add_argument("--map", metavar="NAME", help="the program's name in the load lines of PERF, as for pgo build")
    parser.add_argument("--fit", action="store_true", help="leave out the functions that go beyond 2^28 bytes")
    words = words_of.taken(parser, argv)
    if not words.rest:
        parser.error("no program is named")
    if words.map is not None and not words.perf:
        parser.error("--map goes with --perf")
    return Words(words.rest[0], words.rest[1:], words.names, words.known, words.code, words.perf, words.map, words.fit)


def work(argv: List[str]) -> int:
    words = parsed(argv)
    cli.out()
    source = source_of(words.bin, words.code)
    names = words.functions + (names_in(words.names) if words.names else [])
    every = not words.functions and not words.names
    wanted = source.wanted(None if every else names, words.known)
    if not every and not wanted:
        none = f"the program's {source.kind} has none of the functions that were named"
        raise cli.Trouble(none if names else "no function is named")
    source.settle(it.entry for it in wanted)
    touch = Touch(words.perf, words.bin, words.map) if words.perf else None
    if touch and not any(touch.holds(it.address, it.address + it.size) for it in Elf(words.bin).code()):
        cli.say(f"no sample of {words.perf} is in {words.bin}, so each rare block is told never",
                "the text of this very program; where it is position-independent, --map=NAME and load lines")
    with tempfile.TemporaryFile() as text:
        put_text(text, source, wanted, words, touch)
        text.seek(0)
        while piece := text.read(1 << 20):
            cli.out().write(piece)
    return cli.DONE


def put_text(text: IO[bytes], source: Source, wanted: Sequence[Named], words: Words, touch: Optional[Touch]) -> None:
    """Writes the functions that are wanted."""
    size = text.write(raw_of(f"# Blocks of {written.one_field(os.path.basename(words.bin))}, by its {source.kind}\n"))
    left = 0
    for at, name in wanted:
        found = source.rows(at)
        lines = written.lines_of(written.one_field(name), found, source.kinds(at, found.rows), touch)
        piece = raw_of("\n".join(lines) + "\n")
        if size + len(piece) > MOST_TEXT - 100:
            if not words.fit:
                raise cli.Trouble("the text passes 2^28 bytes", helps="name fewer functions, or --fit")
            left += 1
            continue
        size += text.write(piece)
    if left:
        text.write(f"# {left} functions are left out, for the size of the text\n".encode())


def main(argv: Optional[List[str]] = None) -> NoReturn:
    """The command, from its words to its status. It never returns."""
    cli.run(work, argv)
