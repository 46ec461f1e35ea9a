"""The repair of a function as it is drawn: its blocks and edges, with what a block text and the program tell of
them."""
import functools
import heapq
import io
import os
import re
from dataclasses import dataclass, field
from typing import Dict, Iterable, List, NamedTuple, Optional, Sequence, Tuple

from pgo_tools import cli
from pgo_tools.cli.files import open_packed, read_packed
from pgo_tools.draw.source import Sources, places
from pgo_tools.reports.table import times
from pgo_tools.texts import block_text, repair_text
from pgo_tools.texts.names import cut, demangled, printable
from pgo_tools.texts.short_names import is_called, short

NAME_WIDTH, SOURCE_WIDTH, MOST_SHOWN = 60, 44, 8
# Characters that no XML may hold, even escaped.
NO_XML = re.compile("[\ufffe\uffff]")


def drawable(text: str) -> str:
    """The text as a picture may show it, whatever bytes a file has."""
    return NO_XML.sub("?", printable(text))


class Sides(NamedTuple):
    """The sides of a block that are in a cut."""

    enters: bool = False
    leaves: bool = False

    def names(self) -> List[str]:
        return [name for name, held in zip(("entered", "left"), self) if held]


@dataclass
class Block:
    """A block: its weight (None where it is unknown), its count (None in a cut), the two sides, and what other files
    tell."""

    weight: Optional[int]
    count: Optional[int]
    sides: Sides
    exits: bool = False
    low: Optional[int] = None
    told: List[str] = field(default_factory=list)

    @property
    def changed(self) -> bool:
        return None not in (self.weight, self.count) and self.weight != self.count

    def heat(self) -> int:
        return (self.weight or 0) if self.count is None else self.count

    def lines(self, number: int) -> List[str]:
        """What stands in the block's box."""
        weight = "?" if self.weight is None else self.weight
        told = [f"weight {weight}"] + ([] if self.count is None else [f"count {self.count}"])
        return [f"block {number}" + (", exit" if self.exits else "")] + self.told + told


@dataclass(frozen=True)
class Edge:
    """An edge: the numbers of its blocks, its weight (None where it is unknown), and its count (None in a cut)."""

    tail: int
    head: int
    weight: Optional[int]
    count: Optional[int]

    def has_changed(self) -> bool:
        return self.weight is not None and self.weight != self.count

    def text(self) -> str:
        if self.count is None:
            return ""
        return f"{self.weight} → {self.count}" if self.has_changed() else f"{self.count}"


class Function:
    """A function of a block text with its repair."""

    def __init__(self, repair: repair_text.Repair) -> None:
        self.name, self.kind = repair.name, repair.kind
        # The cost, or of a cut the two sums.
        self.end: Tuple[int, ...] = repair.end or ()
        is_cut = self.kind == "cut"
        self.blocks = [Block(it.weight, it.count, Sides(it.enters == 1, it.leaves == 1) if is_cut else Sides())
                       for it in repair.blocks]
        self.edges = [Edge(it.tail, it.head, it.weight, it.count) for it in repair.edges]
        self.shown: List[int] = []
        self.drawn: List[Edge] = []

    def leave_out(self, least: float) -> None:
        """Keeps for the picture the entry, and the blocks and edges that ran at least this share of the busiest
        block."""
        self.shown = [n for n in range(len(self.blocks)) if n == 0 or self.share(n) >= least]
        kept, count = set(self.shown), least * self.busiest
        self.drawn = [it for it in self.edges if {it.tail, it.head} <= kept and (it.count is None or it.count >= count)]

    @functools.cached_property
    def busiest(self) -> int:
        return max([block.heat() for block in self.blocks] + [1])

    def share(self, number: int) -> float:
        return self.blocks[number].heat() / self.busiest

    def calls(self) -> int:
        return (self.blocks[0].count or 0) - sum(edge.count or 0 for edge in self.edges if edge.head == 0)

    def returns(self) -> Dict[int, int]:
        """How often the function returns from each block from which it does."""
        left = [block.count or 0 for block in self.blocks]
        for edge in self.edges:
            left[edge.tail] -= edge.count or 0
        return {number: left[number] for number in self.shown if left[number]}

    def title(self) -> str:
        name = short(drawable(demangled([self.name])[self.name]), 2 * NAME_WIDTH)
        if len(self.shown) < len(self.blocks):
            return f"{name}: {len(self.shown)} of {len(self.blocks)} blocks"
        if self.kind == "cut":
            enters, leaves = self.end
            return (f"{name}: no counts exist, as {enters} at least would come into the cut, "
                    f"and {leaves} at most leave it")
        return f"{name}: repaired at a cost of {self.end[0]}"


class Repairs(NamedTuple):
    """The repairs of functions of a name, the names of all, and of those that ran most."""

    found: List[repair_text.Repair]
    names: List[str]
    hot: List[str]


def repairs_of(raw: bytes, path: str, wanted: str) -> Repairs:
    """What a file says of the functions of a name."""
    found = []
    names: Dict[str, None] = {}
    hot: List[Tuple[int, int, str]] = []
    for repair in repair_text.functions(io.BytesIO(raw), path):
        if repair.name not in names:
            heat = max((it.weight or 0) if it.count is None else it.count for it in repair.blocks)
            hot = heapq.nlargest(MOST_SHOWN, hot + [(heat, -len(names), repair.name)])
            names[repair.name] = None
        if repair.name == wanted:
            found.append(repair)
    if not names:
        raise cli.Trouble(f"{path}: no repair stands there", helps="give what `pgo build` wrote")
    return Repairs(found, list(names), [name for _, _, name in hot])


def name_called(wanted: str, names: Sequence[str], hot: Iterable[str]) -> str:
    """The name of which the wanted one is what contrib/hot prints."""
    shown = demangled(names)
    found = [name for name in names
             if wanted == shown[name] or is_called(wanted, name, printable(shown[name]), NAME_WIDTH)]
    if not found:
        raise cli.Trouble(f"it has no function {wanted}; those that ran most: {' '.join(hot)}")
    if len(found) > 1:
        raise cli.Trouble(f"several functions are called {wanted}: {' '.join(found[:MOST_SHOWN])}")
    return found[0]


def chosen(path: str, wanted: str, number: int) -> Function:
    """The function of this name in a file; of several the one of this number, from 1 on."""
    raw = read_packed(path)
    found, names, hot = repairs_of(raw, path, wanted)
    if not found:
        found = repairs_of(raw, path, name_called(wanted, names, hot)).found
    if not 1 <= number <= len(found):
        raise cli.Trouble(f"it has {times(len(found), 'function')} {wanted}")
    return Function(found[number - 1])


def add_block_text(function: Function, number: int, path: str) -> None:
    """Adds what the block text alone tells: addresses, exits, and for a cut the edges."""
    seen, same = 0, None
    with open_packed(path) as file:
        for it in block_text.functions(file, path):
            seen += it.name == function.name
            if it.name == function.name and seen == number:
                same = it
    ends = [(edge.tail, edge.head) for edge in same.edges] if same else []
    known = ends if function.kind == "cut" else [(edge.tail, edge.head) for edge in function.edges]
    if same is None or len(same.blocks) != len(function.blocks) or ends != known:
        helps = "give the block text of which the repair was made"
        raise cli.Trouble(f"{function.name} has other blocks there", helps=helps)
    for block, told in zip(function.blocks, same.blocks):
        block.low, block.exits = told.low, told.exits
        block.told = [f"{told.low:#x} to {told.high:#x}"]
    if function.kind == "cut":
        function.edges = [Edge(tail, head, None, None) for tail, head in ends]


def add_source(function: Function, binary: str, source: str) -> None:
    """Adds the line at which each block begins, and what stands there in a file below one of the folders."""
    found = places(binary, [block.low for block in function.blocks if block.low is not None])
    if not found:
        helps = "the program that was sampled, before strip; llvm-symbolizer or addr2line"
        cli.say(f"{binary} tells of none of these blocks", helps)
    sources = Sources([source, os.path.dirname(binary)])
    for block in function.blocks:
        if block.low is not None and block.low in found:
            place = found[block.low]
            block.told += [it for it in (place.shown(), drawable(cut(sources.line(place), SOURCE_WIDTH))) if it]
