"""Block texts (docs/FORMATS.md, "Block text"): functions with their blocks, and the edges between these."""
import bisect
import re
from typing import IO, Iterator, List, Match, NamedTuple, Optional, Set, Tuple

from pgo_tools.cli import REFUSED, Trouble
from pgo_tools.cli.files import lines_of
from pgo_tools.texts.numbers import number_of

BLOCK = re.compile(r"block ([0-9]+) 0x([0-9a-fA-F]+) 0x([0-9a-fA-F]+)( exit)?((?: [^ ]+)*)")
EDGE = re.compile(r"edge ([0-9]+) ([0-9]+)((?: [^ ]+)*)")
LIMIT = re.compile(r"(?: lo=([0-9]+))?(?: hi=([0-9]+))?")
MOST_BLOCKS, MOST_EDGES = 65536, 262144
# The start of a line that is neither blank nor a comment.
TOLD = re.compile(rb"^(?!#|[ \t]*$)", re.M)


class Bound(NamedTuple):
    """What the text says of a count: at least `low`, at most `high` (None: no bound)."""

    low: int = 0
    high: Optional[int] = None


class Block(NamedTuple):
    low: int
    high: int
    exits: bool
    bound: Bound


class Edge(NamedTuple):
    tail: int
    head: int
    bound: Bound


class Function:
    """A function: its name, its blocks in order, its edges, and the number of its first line."""

    def __init__(self, name: str, line: int) -> None:
        self.name, self.line = name, line
        self.blocks: List[Block] = []
        self.edges: List[Edge] = []
        # The edges so far, and the addresses of the blocks so far in order.
        self.pairs: Set[Tuple[int, int]] = set()
        self.starts: List[Tuple[int, int]] = []


class Judged(NamedTuple):
    """A bound, and the cause of a refusal or None."""

    bound: Bound
    kind: Optional[str]


def bound_of(words: str, is_block: bool) -> Bound:
    """The bound that these words spell, a space before each; else a ValueError, of "BadBound" where A is above B."""
    if words == " never":
        return Bound(0, 0)
    if words == " ran" and is_block:
        return Bound(1)
    match = LIMIT.fullmatch(words)
    if not match:
        raise ValueError
    low = number_of(match[1] or "0", 44)
    high = None if match[2] is None else number_of(match[2], 44)
    if high is not None and low > high:
        raise ValueError("BadBound")
    return Bound(low, high)


def refused(path: str, number: int, kind: str) -> Trouble:
    helps = "a block text, as contrib/blocks prints it" if kind == "BadLine" else ""
    return Trouble(f"{path}: refused at {number}: {kind}", REFUSED, helps)


def functions(file: IO[bytes], path: str = "the block text") -> Iterator[Function]:
    """Each function of a stream of bytes; a Trouble at the first bad line."""
    function: Optional[Function] = None
    lines = lines_of(file, path, TOLD)
    for number, line in lines:
        fields = re.split("[ \t]+", line.strip(" \t"))
        if line.startswith("#") or fields == [""]:
            continue
        kind = add(function, " ".join(fields), fields)
        if kind == "func":
            function = Function(fields[1], number)
        elif kind == "end" and function:
            yield function
            function = None
        elif kind:
            raise refused(path, number, kind)
    if function:
        raise refused(path, lines.number + 1, "NoEndLine")


def add(function: Optional[Function], line: str, fields: List[str]) -> Optional[str]:
    """Adds a line to the open function. Returns "func" and "end" for these, and else the cause of a refusal or None."""
    if fields[0] == "func":
        return "func" if len(fields) == 2 and function is None else "BadLine"
    if function is None:
        return "BadLine"
    if fields == ["end"]:
        return "end" if function.blocks else "NoBlocks"
    try:
        if fields[0] == "block":
            return add_block(function, BLOCK.fullmatch(line))
        return add_edge(function, EDGE.fullmatch(line))
    except ValueError as reason:
        return str(reason) if str(reason) == "BadBound" else "BadLine"


def add_block(function: Function, match: Optional[Match[str]]) -> Optional[str]:
    if not match or function.edges:
        return "BadLine"
    number, low, high = number_of(match[1], 64), number_of(match[2], 64, 16), number_of(match[3], 64, 16)
    bound, kind = judged_bound(match[5], True)
    if len(function.blocks) == MOST_BLOCKS:
        return "TooManyBlocks"
    if number != len(function.blocks):
        return "BlockOrder"
    if high <= low:
        return "BlockEmpty"
    if overlaps(function, low, high):
        return "BlockOverlap"
    function.blocks.append(Block(low, high, bool(match[4]), bound))
    return kind


def add_edge(function: Function, match: Optional[Match[str]]) -> Optional[str]:
    if not match:
        return "BadLine"
    tail, head = number_of(match[1], 64), number_of(match[2], 64)
    bound, kind = judged_bound(match[3], False)
    if len(function.edges) == MOST_EDGES:
        return "TooManyEdges"
    if max(tail, head) >= len(function.blocks):
        return "EdgeEnd"
    if (tail, head) in function.pairs:
        return "EdgeTwice"
    function.pairs.add((tail, head))
    function.edges.append(Edge(tail, head, bound))
    return kind


def judged_bound(words: str, is_block: bool) -> Judged:
    """The bound, and "BadBound" where its ends are the wrong way round: that cause comes after all others."""
    try:
        return Judged(bound_of(words, is_block), None)
    except ValueError as reason:
        if str(reason) != "BadBound":
            raise
        return Judged(Bound(), "BadBound")


def overlaps(function: Function, low: int, high: int) -> bool:
    """An earlier block of the function has one of these addresses."""
    starts = function.starts
    at = bisect.bisect_left(starts, (low, high))
    if at < len(starts) and starts[at][0] < high or at and starts[at - 1][1] > low:
        return True
    starts.insert(at, (low, high))
    return False
