"""Which addresses of a program the samples of a branch text touch."""
import bisect
from typing import BinaryIO, Dict, Generic, List, NamedTuple, Optional, Set, Tuple, TypeVar

from pgo_tools.cli.files import open_packed
from pgo_tools.elf import Elf, Segment
from pgo_tools.texts import branch_text

NOWHERE = -1


What = TypeVar("What")


class Spans(Generic[What]):
    """Ranes of numbers, in order and apart from each other: where two met, the later one cut the other.

    Rows (start, end, what) stand in pieces of a hundred or so, so that one that is put between others moves few of
    them. """

    MOST = 128

    def __init__(self) -> None:
        self.pieces: List[List[Tuple[int, int, What]]] = []
        self.starts: List[int] = []

    def put(self, start: int, size: int, what: What) -> None:
        """From `start` on so many numbers are of this one now."""
        end = start + size
        if start == end:
            return
        low = max(0, bisect.bisect_right(self.starts, start) - 1)
        high = max(low + 1, bisect.bisect_left(self.starts, end))
        rows = [row for piece in self.pieces[low:high] for row in piece]
        first, last = bisect.bisect_left(rows, (start,)), bisect.bisect_left(rows, (end,))
        if first and start < rows[first - 1][1]:
            first -= 1
        cut = [(start, end, what)]
        if first < last and rows[first][0] < start:
            cut.insert(0, (rows[first][0], start, rows[first][2]))
        if first < last and end < rows[last - 1][1]:
            cut.append((end, *rows[last - 1][1:]))
        rows[first:last] = cut
        step = self.MOST // 2 if len(rows) > self.MOST else self.MOST
        pieces = [rows[at : at + step] for at in range(0, len(rows), step)]
        self.pieces[low:high], self.starts[low:high] = pieces, [piece[0][0] for piece in pieces]

    def at(self, number: int) -> Optional[What]:
        """What the number is of, or None."""
        k = bisect.bisect_right(self.starts, number) - 1
        if k < 0:
            return None
        row = self.pieces[k][bisect.bisect_left(self.pieces[k], (number + 1,)) - 1]
        return row[2] if number < row[1] else None


class Places:
    """Where addresses of a run stand in the program's file: themselves, or by the load lines of a name
    (docs/FORMATS.md)."""

    def __init__(self, path: str, name: Optional[str]) -> None:
        self.name = name
        self.loads: Spans[branch_text.Load] = Spans()
        self.code: Spans[Segment] = Spans()
        self.known: Dict[int, int] = {}
        # Of segments that share bytes the first one counts.
        for part in reversed(Elf(path).code() if name is not None else []):
            self.code.put(part.offset, part.file_size, part)

    def add(self, load: branch_text.Load) -> None:
        self.loads.put(load.start, load.size, load)
        self.known.clear()

    def place(self, address: int) -> int:
        if self.name is None:
            return address
        if address not in self.known:
            self.known[address] = self.moved(address)
        return self.known[address]

    def moved(self, address: int) -> int:
        load = self.loads.at(address)
        if load is None or load.name != self.name:
            return NOWHERE
        offset = address - load.start + load.offset
        part = self.code.at(offset)
        return offset - part.offset + part.address if part else NOWHERE


class Ran(NamedTuple):
    """Addresses that were run through, from the first to the last."""

    first: int
    last: int


class Touch:
    """The addresses that the program ran through between two branches, as far as samples tell, and the ends of all
    branches."""

    def __init__(self, path: str, program: str, name: Optional[str]) -> None:
        ranges: Set[Ran] = set()
        with open_packed(path) as file:
            self.read(file, path, Places(program, name), ranges)
        self.lows: List[int] = []
        self.highs: List[int] = []
        for low, high in sorted(ranges):
            if self.highs and low <= self.highs[-1] + 1:
                self.highs[-1] = max(high, self.highs[-1])
            else:
                self.lows.append(low)
                self.highs.append(high)

    @staticmethod
    def read(file: BinaryIO, path: str, places: Places, ranges: Set[Ran]) -> None:
        """Notes what ran."""
        for number, line in branch_text.lines(file):
            load = branch_text.load_of(number, line)
            if load:
                places.add(load)
            if not branch_text.is_sample(line):
                continue
            after = None
            for source, target in branch_text.sample_of(number, line, path).branches:
                source, target = places.place(source), places.place(target)
                # A branch's ends are touched whatever stands between them; so is what ran from its target to the next
                # branch.
                ranges.update({Ran(source, source), Ran(target, target)})
                if after is not None and NOWHERE != target <= after:
                    ranges.add(Ran(target, after))
                after = source

    def holds(self, low: int, high: int) -> bool:
        """Whether one of the addresses from `low` to `high`, without it, was touched."""
        k = bisect.bisect_left(self.lows, high) - 1
        return k >= 0 and self.highs[k] >= low
