"""Prints the hottest functions and lines of a profile with their shares and, where program and source are at hand, the
source.

A function's share is that of its total, with what was inlined into it; a line's is that of its counts wherever it
stands. With --bin the debugging information says where functions begin, as llvm-dwarfdump prints it. With --blocks the
hottest blocks of a repair are printed in their place. docs/USING.md shows it in use.
"""
import argparse
import json
from typing import List, NoReturn, Optional

from pgo_tools import cli
from pgo_tools.reports import hot

USAGE = "%(prog)s [--bin BIN] [--source FOLDER] [--top N] [--blocks CFG] [--wide] [--json] PROFILE"


class Words(argparse.Namespace):
    """The words of a call."""

    file: List[str]
    bin: Optional[str]
    source: str
    top: int
    blocks: Optional[str]
    wide: bool
    json: bool


def parsed(argv: List[str]) -> Words:
    parser = argparse.ArgumentParser(
        prog=cli.name(), usage=USAGE,
        description="Print the hottest functions and lines of a profile, or blocks of a repair.", epilog="""
        `count_word +6` is line 6 of count_word, counted from 0 at the line where it begins; with --bin also the line in
        its file and, where that file is found below FOLDER or the folder of BIN, what stands there. Below a line of a
        library stand the calls of other functions through which it ran most. A long name of C++ or Rust is cut to its
        class and method, and names that would then be alike show where they differ.""")
    parser.add_argument("file", metavar="PROFILE", nargs="+",
                        help="a profile's text, as pgo writes it, packed or not (- is the input); with --blocks a "
                        "repair")
    parser.add_argument("--bin", metavar="BIN", help="the program, with its debugging information")
    parser.add_argument("--source", metavar="FOLDER", default=".",
                        help="where source files are looked for, beside the folder of BIN (default: here)")
    parser.add_argument("--top", metavar="N", type=int, default=10, help="how many are printed (default: 10)")
    parser.add_argument("--blocks", metavar="CFG",
                        help="print the hottest blocks of what `pgo build` wrote of this block text")
    parser.add_argument("--wide", action="store_true", help="print names whole, however long they are")
    parser.add_argument("--json", action="store_true", help="print all of it as JSON, names whole")
    words = parser.parse_args(argv, Words())
    if len(words.file) > 1:
        parser.error("it takes one profile: the program stands behind --bin=, and pgo merge adds profiles up")
    if words.top < 1:
        parser.error("at least one of each is printed")
    return words


def work(argv: List[str]) -> int:
    words = parsed(argv)
    cli.out()
    report = hot.report_of(hot.Asked(words.file[0], words.bin, words.source, words.top, words.blocks))
    for line in [json.dumps(hot.as_json(report), indent=1)] if words.json else hot.table(report, words.wide):
        cli.put(line)
    return cli.DONE


def main(argv: Optional[List[str]] = None) -> NoReturn:
    """The command, from its words to its status. It never returns."""
    cli.run(work, argv)
