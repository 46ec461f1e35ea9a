"""Profiles in LLVM's text form (docs/FORMATS.md, "Profile text"): read line by line, or whole as a tree.

The rules and the causes are pgo's own: what it refuses is refused here at the same line, by the same kind.
"""
import dataclasses
import os
import re
from typing import IO, Dict, Iterator, List, NamedTuple, Optional, Tuple, Union

from pgo_tools.cli import REFUSED, Trouble
from pgo_tools.cli.files import CutLine, lines_of
from pgo_tools.texts.numbers import number_of

MOST_SPACES = 256
# The start of a line that is neither blank nor a comment.
TOLD = re.compile(rb"^(?! *#|[ \t]*$)", re.M)
NAME = r"[^\x00-\x20\x7f:#!0-9][^\x00-\x20\x7f:]*"
FUNCTION = re.compile(rf"({NAME}):([0-9]+):([0-9]+)")
BODY = re.compile(rf"([0-9]+)(?:\.([0-9]+))?: ([0-9]+)((?: {NAME}:[0-9]+)*)")
CALL = re.compile(rf"([0-9]+)(?:\.([0-9]+))?: ({NAME}):([0-9]+)")


class FunctionLine(NamedTuple):
    """`NAME:TOTAL:HEAD`"""

    name: str
    total: int
    head: int


class Target(NamedTuple):
    """`CALLEE:TIMES`: how often a line called a function."""

    name: str
    times: int


@dataclasses.dataclass
class BodyLine:
    """` OFFSET[.DISC]: COUNT CALLEE:TIMES..`"""

    __slots__ = "offset", "disc", "count", "targets"

    offset: int
    disc: int
    count: int
    targets: Tuple[Target, ...]


class CallLine(NamedTuple):
    """` OFFSET[.DISC]: CALLEE:TOTAL`: an inlined call."""

    offset: int
    disc: int
    callee: str
    total: int


Said = Union[FunctionLine, BodyLine, CallLine]


class Entry(NamedTuple):
    """A line that is neither blank nor a comment: its number, its depth, and its content."""

    number: int
    depth: int
    said: Said


class Place(NamedTuple):
    """Where a line of a function is."""

    offset: int
    disc: int


class CallPlace(NamedTuple):
    """Where an inlined call is, and of which function."""

    offset: int
    disc: int
    callee: str


# What helps with a line that is none of a profile, by how it looks.
LOOKS = [(re.compile(form), said) for form, said in [
    (r"\x7fELF", "it is a program: a profile of it, as contrib/pgo-profile makes one"),
    (r"PERFILE2|.*PERF_RECORD_| *(0x)?[0-9a-f]+ +0x[0-9a-f]+/0x",
     "it is a recording: contrib/pgo-profile makes a profile of it"),
    (r"func [^ ]+$|block [0-9]+ 0x", "it is a block text: a profile, or what pgo build printed of it"),
    (r"PK\x03\x04|7z|\x04\x22M|\x1f\udc8b|\udcfd7zXZ|BZh|\(\udcb5/\udcfd", "it is packed: unpack it"),
    (r"\[|!", 'it has calling contexts or probes: docs/USING.md, "Profiles of other tools"'),
    (r".*\r$", 'take away the CR at its end: tr -d "\\r"'),
]]
OTHERWISE = "a profile's text, as pgo prints it; of one in binary form llvm-profdata merge --sample --text makes one"


CUT = "it is the last line, and was cut off: take it away (sed '$d'), or make the profile again"


def remedy(line: str, is_cut: bool = False) -> str:
    """What helps with a bad line, by how it looks."""
    return next((said for form, said in LOOKS if form.match(line)), CUT if is_cut else OTHERWISE)


def refused(path: str, number: int, kind: str, line: str = "", is_cut: bool = False) -> Trouble:
    return Trouble(f"{path}: refused at {number}: {kind}", REFUSED, remedy(line, is_cut) if kind == "BadLine" else "")


def parsed(depth: int, line: str) -> Optional[Said]:
    """What a line says, its spaces taken away, or None where it has none of the forms."""
    try:
        if depth == 0:
            match = FUNCTION.fullmatch(line)
            return FunctionLine(match[1], number_of(match[2], 64), number_of(match[3], 64)) if match else None
        match = CALL.fullmatch(line)
        if match:
            offset, disc = number_of(match[1], 16), number_of(match[2] or "0", 32)
            return CallLine(offset, disc, match[3], number_of(match[4], 64))
        match = BODY.fullmatch(line)
        if not match:
            return None
        targets = [each.rpartition(":") for each in match[4].split(" ")[1:]]
        told = tuple(Target(name, number_of(times, 64)) for name, _, times in targets)
        return BodyLine(number_of(match[1], 16), number_of(match[2] or "0", 32), number_of(match[3], 64), told)
    except ValueError:
        return None


def entries(file: IO[bytes], path: str = "the profile") -> Iterator[Entry]:
    """Each line of a stream of bytes that is an Entry; a Trouble at the first bad form, depth or indent.

    Lines that are there twice are not looked for: `read` does that.
    """
    opened = 0
    for number, line in lines_of(file, path, TOLD):
        shown = line.lstrip(" ")
        if not line.strip(" \t") or shown.startswith("#"):
            continue
        depth = len(line) - len(shown)
        said = parsed(depth, shown)
        if said is None:
            raise refused(path, number, "BadLine", line[:4096], number > 1 and isinstance(line, CutLine))
        if depth > MOST_SPACES:
            raise refused(path, number, "TooDeep")
        if depth > opened:
            raise refused(path, number, "BadIndent")
        opened = depth if isinstance(said, BodyLine) else depth + 1
        yield Entry(number, depth, said)


def is_at(path: str) -> bool:
    """The file at a path begins as a profile does, or has nothing but comments; so does one that cannot be read."""
    try:
        with open(path, "rb") as file:
            head = file.read(1 << 16)
    except OSError:
        return True
    told = (line for line in head.split(b"\n") if line.strip(b" \t") and not line.lstrip(b" ").startswith(b"#"))
    return FUNCTION.fullmatch(next(told, b"f:0:0").decode("latin-1")) is not None


def would_go(path: str) -> bool:
    """A file is at a path that is no profile, so that a profile in its place would lose it."""
    return os.path.isfile(path) and not is_at(path)


class Node:
    """A function, or a call that was inlined: its lines and its calls by their places."""

    __slots__ = "name", "head", "lines", "calls"

    def __init__(self, name: str, head: Optional[int] = None) -> None:
        self.name, self.head = name, head
        self.lines: Dict[Place, BodyLine] = {}
        self.calls: Dict[CallPlace, Node] = {}

    def total(self) -> int:
        """The sum of the counts of its lines, with what was inlined."""
        return sum(line.count for line in self.lines.values()) + sum(call.total() for call in self.calls.values())

    def walk(self) -> "Iterator[Node]":
        """The node and the calls inlined into it, at whatever depth."""
        work = [self]
        while work:
            node = work.pop()
            yield node
            work.extend(reversed(list(node.calls.values())))


def read(file: IO[bytes], path: str = "the profile") -> Dict[str, Node]:
    """The functions of a profile by their names, in its order, as Nodes; a Trouble at its first bad line."""
    functions: Dict[str, Node] = {}
    opened: List[Node] = []
    for entry in entries(file, path):
        del opened[entry.depth :]
        if not add(functions, opened, entry.said):
            raise refused(path, entry.number, "KeyTwice")
    return functions


def add(functions: Dict[str, Node], opened: List[Node], said: Said) -> bool:
    """Adds a line's content to what is open; False where it was there before."""
    if isinstance(said, BodyLine):
        place, lines = Place(said.offset, said.disc), opened[-1].lines
        if place in lines or len(dict(said.targets)) < len(said.targets):
            return False
        lines[place] = said
        return True
    if isinstance(said, FunctionLine):
        node = Node(said.name, said.head)
        is_new = functions.setdefault(said.name, node) is node
    else:
        node = Node(said.callee)
        is_new = opened[-1].calls.setdefault(CallPlace(said.offset, said.disc, said.callee), node) is node
    if is_new:
        opened.append(node)
    return is_new
