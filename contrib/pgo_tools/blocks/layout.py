"""Orders of a program's blocks by repaired counts, as a list for clang (-fbasic-block-sections=list=LIST)."""
import bisect
import collections
from typing import Counter, Dict, Iterable, Iterator, NamedTuple, Optional, Tuple

from pgo_tools.blocks import block_order
from pgo_tools.blocks.block_map import BlockMap
from pgo_tools.blocks.program import Program, Refused
from pgo_tools.cli import files
from pgo_tools.texts import block_text, repair_text


class Place(NamedTuple):
    """A block of the map: its addresses, where its function begins, and its number there."""

    low: int
    high: int
    entry: int
    number: int


# How often control went from block to block, by numbers of the map, for each function by its entry.
Counts = Dict[int, Counter[Tuple[int, int]]]


class Places:
    """The blocks of a program by address, as clang numbers them."""

    def __init__(self, path: str) -> None:
        program = Program(path)
        mapped = BlockMap(program).numbered
        if not mapped:
            helps = "clang 19 with -fbasic-block-address-map and lld of LLVM 19"
            raise Refused(f"{path} has no map of its blocks", helps)
        self.rows = sorted(Place(block.low, block.high, blocks[0].low, block.number)
                           for blocks in mapped for block in blocks if block.low < block.high)
        self.lows = [row.low for row in self.rows]
        self.bytes = {(row.entry, row.number): row.high - row.low for row in self.rows}
        self.first = {blocks[0].low: blocks[0].number for blocks in mapped}
        self.names = {entry: program.names.get(entry, []) for entry in self.first}
        often = collections.Counter(name for names in self.names.values() for name in names)
        self.unnamed = {entry for entry, names in self.names.items()
                        if not names or not all(often[it] == 1 and it.split() == [it] for it in names)}

    def at(self, address: int) -> Optional[Place]:
        """The block that holds the address, or the padding in front of the next block of its function."""
        k = bisect.bisect_right(self.lows, address) - 1
        if k < 0:
            return None
        row = self.rows[k]
        is_padding = k + 1 < len(self.rows) and self.rows[k + 1].entry == row.entry
        return row if address < row.high or is_padding else None

    def sizes(self, entry: int, numbers: Iterable[int]) -> Dict[int, int]:
        """The bytes of these blocks of a function; of one without code none."""
        return {number: self.bytes.get((entry, number), 0) for number in numbers}


def counts_of(cfg: str, out: str, places: Places) -> Counts:
    """The counts of a repair, by the block text of which it was made."""
    counts: Counts = collections.defaultdict(collections.Counter)
    with files.open_packed(out) as built, files.open_packed(cfg) as text:
        known = block_text.functions(text, cfg)
        for repair in repair_text.functions(built, out):
            function = next(known, None)
            if function is None or function.name != repair.name or len(function.blocks) != len(repair.blocks):
                raise Refused(f"{repair.name} has other blocks in {cfg}", "the block text of which the repair was made")
            for edge in repair.edges:
                low = function.blocks[edge.head].low
                tail, head = places.at(function.blocks[edge.tail].high - 1), places.at(low)
                if edge.count and tail and head and tail.entry == head.entry and head.low == low:
                    counts[tail.entry][tail.number, head.number] += edge.count
    return counts


def listed(places: Places, counts: Counts) -> Iterator[str]:
    """The lines of the list, which knows functions by their names alone."""
    yield "v1"
    for entry, edges in sorted(counts.items()):
        if entry not in places.unnamed:
            first = places.first[entry]
            numbers = {first} | {number for edge in edges for number in edge}
            row = block_order.ordered(places.sizes(entry, numbers), edges, first)
            yield f"f {' '.join(places.names[entry])}"
            yield f"c {' '.join(map(str, row))}"
