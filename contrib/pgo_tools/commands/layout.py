"""Lays out the blocks of a program by repaired counts, as a list for clang's -fbasic-block-sections=list=LIST.

BIN was built by clang 19 with -fbasic-block-address-map, CFG is its block text, and OUT what `pgo build --edges` made
of that, best of a file by contrib/lined. The blocks of a function that ran stand in one row, those that did not apart
from it. docs/USING.md shows it in use.
"""
import argparse
from typing import List, NoReturn, Optional

from pgo_tools import cli
from pgo_tools.blocks.layout import Places, counts_of, listed
from pgo_tools.cli import files


class Words(argparse.Namespace):
    """The words of a call."""

    bin: str
    cfg: str
    out: str
    output: Optional[str]


def parser() -> argparse.ArgumentParser:
    words = argparse.ArgumentParser(
        prog=cli.name(), description=(__doc__ or "").split("\n\n", maxsplit=1)[0], epilog="""
        The program is then built once more, as BIN was, with -fbasic-block-sections=list=LIST besides.""")
    words.add_argument("bin", metavar="BIN", help="the linked program, with clang's map of blocks")
    text = "its block text, as contrib/blocks prints it, packed or not"
    words.add_argument("cfg", metavar="CFG", help=cli.as_installed(text))
    words.add_argument("out", metavar="OUT", help="what `pgo build --edges` printed of it, packed or not")
    words.add_argument("-o", "--output", metavar="LIST", help="the file to make (else the output)")
    return words


def work(argv: List[str]) -> int:
    words = parser().parse_args(argv, Words())
    places = Places(words.bin)
    counts = counts_of(words.cfg, words.out, places)
    lines = "".join(f"{line}\n" for line in listed(places, counts)).encode("utf-8", "surrogateescape")
    left = sorted(name for entry in places.unnamed & set(counts) for name in places.names[entry][:1] or [f"{entry:#x}"])
    if words.output:
        with files.put_in_place(words.output, [words.bin, words.cfg, words.out]) as file:
            file.write(lines)
    else:
        cli.out().write(lines)
    if left:
        helps = "-funique-internal-linkage-names"
        cli.say(f"left as they were, since their names are not theirs alone: {', '.join(left)}", helps)
    return cli.DONE


def main(argv: Optional[List[str]] = None) -> NoReturn:
    """The command, from its words to its status. It never returns."""
    cli.run(work, argv)
