"""The list of profiles that are to be merged: names with weights, and what the files show before any is merged."""
import collections
import os
import re
from typing import Callable, Counter, Dict, Hashable, List

from pgo_tools.cli import FAILED, USAGE, WRITE_FAULT, Trouble, given
from pgo_tools.cli.files import target_of
from pgo_tools.fleet import manifest
from pgo_tools.fleet.tree import File
from pgo_tools.texts.names import text_of
from pgo_tools.texts.numbers import decimal

MOST_WEIGHT = 65535
# A line of a list in which a weight may stand in the wrong place.
ENDS_IN_WEIGHT = re.compile(r"\t[0-9]+\Z")
# The line that tells a profile's build stands at its end.
TAIL = 4096
# How many bytes a file's name may have, and those that it has more than its place while it is written.
LONGEST_NAME, LONGEST_END = 255, len(".4194304.999.new")


def weighed(line: str, are_here: bool = True) -> File:
    """A line of a list: a name, or a weight, a tab and a name. It is refused if the whole line is a file's name."""
    weight, tab, name = line.partition("\t")
    is_weighed = bool(tab) and weight.isascii() and weight.isdigit()
    if are_here and (is_weighed or ENDS_IN_WEIGHT.search(line)) and os.path.lexists(line):
        helps = "./ before the weight for the file, ./ after the tab for the weight"
        raise Trouble(f"{line}: a file has this name, which looks like a name with a weight", USAGE,
                      helps if is_weighed else "the weight before the name; or the file as an argument, not in a list")
    if not is_weighed:
        return File(line, 1)
    match = re.fullmatch(decimal(5), weight)
    if not match or not 1 <= int(match[1]) <= MOST_WEIGHT:
        raise Trouble(f"{name}: a weight of {weight}", USAGE, f"weights are from 1 to {MOST_WEIGHT}")
    return File(name, int(match[1]))


def from_input(zeros: bool, are_here: bool = True) -> List[File]:
    """The files that the input lists, one a line, or each up to a NUL; here, or where a command fetches them."""
    text = os.fsdecode(given().read())
    if not zeros and "\0" in text:
        raise Trouble("the list has NULs", USAGE, "-0, for names as find -print0 prints them")
    # A line of blanks is no name, but of names that end with a NUL it may be one.
    lines = [line for line in text.split("\0" if zeros else "\n") if (line if zeros else line.strip())]
    return [weighed(line, are_here) for line in lines]


def fetchable(files: List[File]) -> List[File]:
    """The files, none of whose names would be an option of the command that fetches them."""
    for name, _ in files:
        if name.startswith("-"):
            raise Trouble(f"{name}: the name begins with -, which --fetch would hand over as an option", USAGE,
                          "names that begin otherwise")
    return files


def absolute(files: List[File]) -> List[File]:
    """The files by names that hold wherever a part is made."""
    return [File(os.path.abspath(name), weight) for name, weight in files]


def identity(name: str) -> Hashable:
    """What two names of one file share."""
    try:
        seen = os.stat(name)
        return seen.st_dev, seen.st_ino
    except OSError:
        return name


def once(files: List[File], add_weights: bool, identity_of: Callable[[str], Hashable]) -> List[File]:
    """Each file once. One that is listed twice is refused, unless its weights are to be added up."""
    held: Dict[Hashable, int] = {}
    first: Dict[Hashable, str] = {}
    for name, weight in files:
        key = identity_of(name)
        if key in held and not add_weights:
            also = "" if first[key] == name else f", as {first[key]} too"
            raise Trouble(f"{name} is listed twice{also}", USAGE,
                          "each file once; --add-weights takes it as often as its lines say together")
        held[key] = held.get(key, 0) + weight
        first.setdefault(key, name)
        if held[key] > MOST_WEIGHT:
            raise Trouble(f"{name}: its weights add up to {held[key]}", USAGE, f"weights are from 1 to {MOST_WEIGHT}")
    return [File(first[key], weight) for key, weight in held.items()]


def build_at_end(name: str) -> str:
    """The build that the last lines of a file tell, or nothing."""
    try:
        if not os.path.isfile(name):
            return ""
        with open(name, "rb") as file:
            file.seek(max(0, os.stat(name).st_size - TAIL))
            lines = file.read(TAIL).splitlines()
    except OSError:
        return ""
    told = [line[8:] for line in lines if line.startswith(b"# build ")]
    return text_of(told[-1]) if told else ""


def builds_of(files: List[File]) -> Counter[str]:
    """Counts the files of each build, by their last lines; "" for those that tell none there."""
    return collections.Counter(build_at_end(name) for name, _ in files)


def check_builds(builds: Counter[str]) -> None:
    """Refuses files of several builds before any of them is merged, and says how many there are of each."""
    counts = collections.Counter({build: count for build, count in builds.items() if build})
    if len(counts) > 1:
        said = ", ".join(f"{build} ({count} file{'s' * (count > 1)})" for build, count in counts.most_common(5))
        raise Trouble(f"the profiles are of {len(counts)} builds: {said}", FAILED,
                      "--build=ID takes those of one and leaves the others out, --build=any adds up all")


def most_tell(builds: Counter[str]) -> bool:
    """Returns whether more than half of the files tell a build. Any that does not was then probably cut off."""
    return 2 * builds[""] < sum(builds.values())


def check_out(files: List[File], out: str) -> None:
    """Refuses an output that is listed, or in whose place another file would be lost.

    The sum of last night would go into that of this one.
    """
    beside = manifest.beside(out)
    if len(os.fsencode(os.path.basename(beside))) + LONGEST_END > LONGEST_NAME:
        raise Trouble(f"{out}: the name is too long to have a manifest beside it", WRITE_FAULT, "a shorter name")
    target_of(beside)
    listed = {identity(name): name for name, _ in files}
    for place in (out, beside):
        if os.path.exists(place) and identity(place) in listed:
            raise Trouble(f"{place} is listed to be merged, too: {listed[identity(place)]}", USAGE,
                          "a folder of its own for it, or a list without it")
    manifest.check_place(out)


def check_folder(files: List[File], out: str, folder: str) -> None:
    """Refuses a tree whose folder is, or contains, the sum or a listed file: all there comes and goes with the tree."""
    inside = os.path.join(os.path.realpath(folder), "")
    above = {os.path.dirname(name) for name in [os.path.abspath(out), *(name for name, _ in files)]}
    for place in [out, manifest.beside(out), *above]:
        if os.path.join(os.path.realpath(place), "").startswith(inside):
            raise Trouble(f"{folder} is the folder of the tree, and has files that go in or come out", USAGE,
                          "a folder of its own for the tree")
