"""Draws the repair of a function, as `pgo build` wrote it: a graph for Graphviz, or with --svg a picture.

Each block has its weight and its count, and is the darker the more often it ran. Edges are as wide as their share of
the calls of the busiest block. What the repair changed is red. docs/USING.md shows a picture, docs/RULES.md says what a
repair is. """
import argparse
from typing import List, NamedTuple, NoReturn, Optional

from pgo_tools import cli
from pgo_tools.cli import words as words_of
from pgo_tools.draw.graph import dot
from pgo_tools.draw.repair import add_block_text, add_source, chosen
from pgo_tools.draw.svg import svg


class Words(NamedTuple):
    """The words of a call."""

    function: str
    out: str
    svg: bool
    blocks: Optional[str]
    bin: Optional[str]
    source: str
    number: int
    least: float


def parsed(argv: List[str]) -> Words:
    parser = argparse.ArgumentParser(
        prog=cli.name(),
        usage="%(prog)s [--svg] [--blocks CFG [--bin BIN] [--source FOLDER]] [--number N] [--least PERCENT] "
        "[--] FUNCTION [OUT]",
        description="Draw the repair of a function in OUT, as `pgo build` wrote it, packed or not; without OUT in the "
        f"input. The function is named as in the block text, or as {cli.as_installed('contrib/hot')} prints it.",
        epilog="""
        Printed is a graph for Graphviz: `draw count_word words.built | dot -Tsvg`. Blocks are the darker the more often
        they ran, edges the wider; red is what the repair changed (of edges it is known where `pgo build --edges` wrote
        their weights).
        Names that begin with - stand behind --.""")
    parser.add_argument("--svg", action="store_true", help="print a picture, which needs no Graphviz")
    parser.add_argument("--blocks", metavar="CFG", help="the block text: addresses and exits, and the edges of a cut")
    parser.add_argument("--bin", metavar="BIN",
                        help="the program, with its debugging information: with CFG the line at which each block "
                        "begins")
    parser.add_argument("--source", metavar="FOLDER", default=".",
                        help="where source files are looked for, beside the folder of BIN (default: here)")
    parser.add_argument("--number", metavar="N", type=int, default=1, help="of several functions of this name the N-th")
    parser.add_argument("--least", metavar="PERCENT", type=float, default=0,
                        help="leave out blocks and edges that ran less than this share of the busiest (default: 0)")
    words = words_of.taken(parser, argv)
    if not 1 <= len(words.rest) <= 2:
        parser.error("it takes a function, and a file or its input")
    if words.bin and not words.blocks:
        parser.error("--bin needs the addresses in a block text: --blocks=CFG")
    if not 0 <= words.least <= 100:
        parser.error("--least is a number from 0 to 100")
    function, out = (words.rest + ["-"])[:2]
    return Words(function, out, words.svg, words.blocks, words.bin, words.source, words.number, words.least)


def work(argv: List[str]) -> int:
    words = parsed(argv)
    cli.out()
    function = chosen(words.out, words.function, words.number)
    if words.blocks:
        add_block_text(function, words.number, words.blocks)
    elif function.kind == "cut":
        cli.say("the edges of a cut stand in the block text alone: --blocks=CFG")
    if words.bin:
        add_source(function, words.bin, words.source)
    function.leave_out(words.least / 100)
    for line in (svg if words.svg else dot)(function):
        cli.put(line)
    return cli.DONE


def main(argv: Optional[List[str]] = None) -> NoReturn:
    """The command, from its words to its status. It never returns."""
    cli.run(work, argv)
