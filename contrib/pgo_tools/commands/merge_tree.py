"""merge-tree -o OUT FILE..: the sum of any number of profiles, put in place whole, with a manifest of what went in.

Eight files make one, eight of these the next, and so on. In whatever order the files come, and whichever tree is made
of them, the bytes are the same. docs/USING.md ("A fleet") shows it in use. This module has its words, its files and its
output; the room `fleet` has the rest.
"""
import argparse
import os
import shlex
import shutil
import sys
from typing import List, NoReturn, Optional

from pgo_tools import cli
from pgo_tools.cli import files, programs
from pgo_tools.cli.words import at_least_one, named, percent
from pgo_tools.fleet import engines, folder, listing, parts, run_tree, tree
from pgo_tools.fleet.tree import Choices, File, Tree

LOCAL_WIDTH, ENGINE_WIDTH = 8, 64


class Words(argparse.Namespace):
    """The words of a call."""

    out: Optional[str]
    jobs: int
    null: bool
    resume: bool
    skip_bad: Optional[float]
    empty_ok: bool
    add_weights: bool
    build: str
    fetch: str
    most_seconds: int
    files: List[str]
    plan: Optional[str]
    engine: Optional[str]
    part: Optional[str]
    run: bool
    part_size: Optional[int]


def width(word: str) -> int:
    """For argparse: how many files or parts a part sums up."""
    if at_least_one(word) < 2:
        raise argparse.ArgumentTypeError("a part sums up at least two")
    return int(word)


def parser() -> argparse.ArgumentParser:
    made = argparse.ArgumentParser(
        prog=cli.name(), allow_abbrev=False, description="Print or put in place the sum of any number of profiles.",
        epilog="""
        Without a FILE the input lists them, one a line, each behind its weight and a tab where that is not 1. The sum
        is made whole or not at all: a file that is no profile is named with its first bad place, and the status is that
        of pgo merge. It needs pgo where the variable PGO says, beside this script, in the folder above, or on the PATH.
        What is summed up on the way stands in OUT.tree until all is done, and else in the folder for temporary files
        (TMPDIR).""")
    made.add_argument("-o", "--out", metavar="OUT", type=named,
                      help="put the sum there, and OUT.manifest beside it, in place of printing it")
    made.add_argument("-j", "--jobs", metavar="N", type=at_least_one, default=len(os.sched_getaffinity(0)),
                      help="how many merges are made side by side (default: one for each processor)")
    made.add_argument("-0", "--null", action="store_true",
                      help="names in the input end with a NUL, as find -print0 writes them")
    made.add_argument("--resume", action="store_true",
                      help="go on where an earlier call for OUT stopped: what is merged already is not merged anew")
    made.add_argument("--skip-bad", metavar="PERCENT", type=percent,
                      help="leave out files that are no profiles and name them, if they are at most so many; "
                           "--skip-bad alone: 1")
    made.add_argument("--empty-ok", action="store_true",
                      help="take a file in which no line says anything for a good one")
    made.add_argument("--add-weights", action="store_true",
                      help="take a file that is listed twice as often as its lines say together")
    made.add_argument("--build", metavar="ID", default="",
                      help="take the profiles of this build, by their line `# build ID`, and leave the others out; "
                           "any: all")
    made.add_argument("--fetch", metavar="COMMAND", default="",
                      help="the words of a command that copies a file by its name to a path: COMMAND NAME PATH")
    made.add_argument("--most-seconds", metavar="N", type=at_least_one, default=0,
                      help="refuse a file whose merge takes more than so many seconds of a processor; "
                           "--skip-bad leaves it out")
    made.add_argument("files", metavar="FILE", nargs="*", help="a profile's text")
    add_tasks(made)
    return made


def add_tasks(made: argparse.ArgumentParser) -> None:
    """What is done by parts, on other machines too."""
    tasks = made.add_argument_group("by parts, on other machines too").add_mutually_exclusive_group()
    tasks.add_argument("--plan", metavar="TREE", type=named,
                       help="only describe the tree of OUT, in a folder that all machines see")
    tasks.add_argument("--print", dest="engine", choices=sorted(engines.ENGINES),
                       help="print what an engine runs of the tree in the folder FILE")
    tasks.add_argument("--part", metavar="LEVEL.N", type=named,
                       help="make one part of the tree in the folder FILE, unless that is done")
    tasks.add_argument("--run", action="store_true",
                       help="make on this machine what is missing of the tree in the folder FILE")
    made.add_argument("--part-size", metavar="N", type=width, default=None,
                      help="how many files or parts a part sums up "
                           f"(default: {LOCAL_WIDTH}, with --plan {ENGINE_WIDTH})")


def with_percent(argv: List[str]) -> List[str]:
    """The words with what --skip-bad alone stands for. A word behind it is a file."""
    end = argv.index("--") if "--" in argv else len(argv)
    return ["--skip-bad=1" if word == "--skip-bad" else word for word in argv[:end]] + argv[end:]


def choices_of(words: Words) -> Choices:
    """What a call asks for."""
    try:
        fetch = shlex.split(words.fetch)
    except ValueError as reason:
        raise cli.Trouble(f"--fetch: {reason}", cli.USAGE) from None
    return Choices(words.skip_bad, words.empty_ok, words.build, fetch, most_seconds=words.most_seconds)


def described(words: Words, place: str, out: str) -> Tree:
    """The tree that was asked for, in this folder."""
    choices = choices_of(words)
    names = [File(name, 1) for name in words.files] or listing.from_input(words.null, not choices.fetch)
    if not names:
        raise cli.Trouble("there is no file to merge", cli.USAGE)
    if choices.fetch:
        names = listing.once(listing.fetchable(names), words.add_weights, lambda name: name)
    else:
        names = listing.once(listing.absolute(names), words.add_weights, listing.identity)
    here = [] if choices.fetch else names
    if words.out:
        listing.check_out(here, out)
        listing.check_folder(here, out, place)
    if choices.build in ("", tree.ANY):
        builds = listing.builds_of(here)
        choices = choices._replace(tells_build=listing.most_tell(builds))
        if not choices.build:
            listing.check_builds(builds)
    size = words.part_size or (ENGINE_WIDTH if words.plan else LOCAL_WIDTH)
    return Tree(os.path.abspath(place), out, tree.fresh_id(), size, choices, names)


def put(words: Words, out: str, pgo: str) -> int:
    """Puts the sum in place, by a tree beside it."""
    out = files.target_of(out)
    place = out + ".tree"
    planned = described(words, place, out)
    if words.resume and parts.is_out(planned):
        folder.tidy(place)
        return cli.DONE
    folder.take(place)
    with folder.locked(place):
        status = run_tree.run(folder.begun(planned, words.resume), words.jobs, pgo)
        if status == cli.DONE:
            folder.remove(place)
        return status


def show(words: Words, pgo: str) -> int:
    """Prints the sum, by a tree that goes with this call."""
    output = cli.out()
    with files.scratch_folder("merge-tree.") as place:
        planned = described(words, place, os.path.join(place, "sum"))
        tree.write(planned)
        status = run_tree.run(planned, words.jobs, pgo, lasting=False)
        if status == cli.DONE:
            with open(planned.out, "rb") as file:
                shutil.copyfileobj(file, output)
            output.flush()
        return status


def plan(words: Words, place: str) -> int:
    """Describes the tree, for whatever engine."""
    if not words.out:
        raise cli.Trouble("a tree needs -o OUT, where its sum is to stand", cli.USAGE)
    planned = described(words, place, files.target_of(words.out))
    folder.take(planned.folder)
    with folder.locked(planned.folder):
        folder.begun(planned, words.resume)
    return cli.DONE


def of_tree(words: Words) -> int:
    """Does one of the tasks that take a tree that is there."""
    if len(words.files) != 1:
        raise cli.Trouble("it takes one folder, that of a tree", cli.USAGE)
    known = tree.read(words.files[0])
    if words.engine:
        for line in engines.printed(words.engine, known, os.path.realpath(sys.argv[0])):
            cli.put(line)
        return cli.DONE
    pgo = programs.pgo()
    if words.part:
        return parts.do(known, tree.part_of(known, words.part), pgo)
    with folder.locked(known.folder):
        return run_tree.run(known, words.jobs, pgo)


def work(argv: List[str]) -> int:
    """Does what the words ask for: the status."""
    words = parser().parse_args(with_percent(argv), namespace=Words())
    if words.engine or words.part or words.run:
        return of_tree(words)
    if words.plan:
        return plan(words, words.plan)
    if words.resume and not words.out:
        raise cli.Trouble("--resume needs -o OUT: what is printed leaves nothing to go on with", cli.USAGE)
    pgo = programs.pgo()
    return put(words, words.out, pgo) if words.out else show(words, pgo)


def main(argv: Optional[List[str]] = None) -> NoReturn:
    """The command, from its words to its status. It never returns."""
    cli.run(work, argv)
