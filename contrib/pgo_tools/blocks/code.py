"""The functions of a program by its disassembly: which of them return, and the blocks of each."""
import bisect
import collections
import itertools
import marshal
import os
import tempfile
from typing import Deque, Dict, Iterable, Iterator, List, NamedTuple, Optional, Sequence, Set, Tuple

from pgo_tools.blocks.exceptions import OVERLAP, damaged, landing_pads
from pgo_tools.blocks.flow import BRANCH, CALL, JUMP, POINTER, RETURN, TO_NOWHERE, Flow, Reader, never_returns, printed
from pgo_tools.blocks.program import Functions, Program, Stretch
from pgo_tools.blocks.row import Row, Rows
from pgo_tools.blocks.tables import Tables
from pgo_tools.blocks.unit import Pads, Unit


class Kept(NamedTuple):
    """Where a piece stands in the file of what is kept."""

    at: int
    size: int


class Jumps(NamedTuple):
    """Of the jumps by pointers of a function: where they lead, and those that may be of a table that was not found."""

    tables: Dict[int, List[int]]
    open: List[int]


class Ending(NamedTuple):
    """A way through a function comes to its end; and the functions that had to return for more ways."""

    returns: bool
    blocked: Set[int]


class Ways(NamedTuple):
    """Where the flow goes on, and whether it can leave the function."""

    follow: List[int]
    leaves: bool


class Code:
    """All functions of a program, as read from its disassembly, and which of them return."""

    def __init__(self, program: Program, path: str, functions: Functions) -> None:
        self.program, self.functions = program, functions
        self.reader = Reader(program, functions)
        self.store = tempfile.TemporaryFile()
        self.flow_at: Dict[int, Kept] = {}
        self.text_at: Dict[int, Kept] = {}
        self.divided = {k for parents in functions.parents.values() for k in parents}
        self.jumped_by: Dict[int, Set[int]] = collections.defaultdict(set)
        self.called: Set[int] = set()
        self.read_all(path)
        self.owners = self.find_owners()
        self.parts_of: Dict[int, List[int]] = collections.defaultdict(list)
        for part, owner in self.owners.items():
            self.parts_of[owner].append(part)
        self.pads = landing_pads(program)
        self.pad_starts = [it.start for it in self.pads]
        self.returning: Dict[int, bool] = {}
        self.kept: Dict[int, Jumps] = {}

    def read_all(self, path: str) -> None:
        held = -1
        texts: List[bytes] = []
        for address, text in printed(self.program, path):
            k = self.functions.holding(address)
            if k != held:
                self.keep(held, texts)
                held, texts = k, []
            texts.append(text)
        self.keep(held, texts)

    def keep(self, k: int, texts: Iterable[bytes]) -> None:
        if k < 0:
            return
        text = b"\n".join(it.strip(b"\n") for it in texts)
        rows = self.reader.flow(text, self.functions.ends[k])
        self.flow_at[k] = self.put(marshal.dumps([tuple(row) for row in rows]))
        mine = self.functions.parents.get(k)
        if mine or k in self.divided or any(row.kind == POINTER for row in rows):
            self.text_at[k] = self.put(text)
        for _, _, kind, target in rows:
            if kind in (JUMP, BRANCH, CALL) and target >= 0:
                self.note(k, kind, target, mine)

    def note(self, k: int, kind: int, target: int, mine: Optional[Sequence[int]]) -> None:
        """Remembers what ties cold parts to functions."""
        there = self.functions.holding(target)
        if there == k:
            return
        if kind == CALL:
            if there in self.functions.parents:
                self.called.add(there)
        elif k in self.functions.parents.get(there, ()):
            self.jumped_by[there].add(k)
        elif mine and there in mine:
            self.jumped_by[k].add(there)

    def put(self, piece: bytes) -> Kept:
        at = self.store.seek(0, os.SEEK_END)
        self.store.write(piece)
        return Kept(at, len(piece))

    def get(self, place: Kept) -> bytes:
        self.store.seek(place.at)
        return self.store.read(place.size)

    def flows(self, parts: Iterable[int]) -> Iterator[Flow]:
        """The flow of these parts, as it was kept."""
        for part in parts:
            if part in self.flow_at:
                yield from map(Flow._make, marshal.loads(self.get(self.flow_at[part])))

    def find_owners(self) -> Dict[int, int]:
        """The function of each cold part that belongs to one."""
        owners = {}
        for part, parents in self.functions.parents.items():
            if part not in self.flow_at:
                continue
            tied = self.jumped_by.get(part) or (set(parents) if part not in self.called else set())
            if len(tied) == 1:
                owners[part], = tied
        return owners

    def unit(self, k: int) -> Unit:
        """The function with its parts, and with what its tables say."""
        parts = sorted([k] + self.parts_of.get(k, []))
        ranges: List[Stretch] = []
        for it in parts:
            low, high = self.functions.entries[it], self.functions.ends[it]
            if ranges and ranges[-1].high == low:
                low = ranges.pop().low
            ranges.append(Stretch(low, high))
        rows = list(self.flows(parts))
        unit = Unit(self.functions.entries[k], ranges, rows, self.pads_of(ranges, rows))
        if any(row.kind == POINTER for row in rows):
            self.follow(k, unit, parts)
        return unit

    def pads_of(self, ranges: Sequence[Tuple[int, int]], rows: Iterable[Tuple[int, int, int, int]]) -> Pads:
        """The landing pads of each call. Frames that share no bytes have one for a call at most."""
        found: Pads = {}
        left = sum(high - low for low, high in ranges)
        calls = sorted(address for address, _, kind, _ in rows if kind == CALL) if self.pads else []
        for low, high in ranges:
            first, last = bisect.bisect_left(self.pad_starts, low), bisect.bisect_left(self.pad_starts, high)
            for start, end, pad in self.pads[first:last]:
                held = calls[bisect.bisect_left(calls, start) : bisect.bisect_left(calls, end)]
                left -= len(held)
                if left < 0:
                    raise damaged(OVERLAP)
                for call in held:
                    found.setdefault(call, []).append(pad)
        return found

    def follow(self, k: int, unit: Unit, parts: Iterable[int]) -> None:
        """Notes where the unit's jumps by pointers lead."""
        if k not in self.kept:
            text = b"\n".join(self.get(self.text_at[it]) for it in parts if it in self.text_at)
            tables = Tables(self.program, self.functions, unit, text)
            found = tables.find()
            jumps = [row.address for row in unit.rows if row.kind == POINTER]
            self.kept[k] = Jumps({at: found[at] for at in jumps if found.get(at)},
                                 [at for at in jumps if not found.get(at) and tables.looks_open(at)])
        unit.tables, unit.open = self.kept[k]

    # Which functions return: the least answer, since none is believed to before a way to its end is seen.

    def settle(self, wanted: Iterable[int]) -> None:
        """Finds out of the functions, and of all that they call, which return."""
        waiting: Dict[int, Set[int]] = collections.defaultdict(set)
        work: Deque[int] = collections.deque(self.callees_first(wanted))
        while work:
            k = work.popleft()
            if self.returning.get(k):
                continue
            returns, blocked = self.reaches_end(k)
            self.returning[k] = returns
            if returns:
                work.extend(waiting.pop(k, ()))
            else:
                for it in blocked:
                    waiting[it].add(k)

    def callees_first(self, wanted: Iterable[int]) -> List[int]:
        order: List[int] = []
        seen: Set[int] = set()
        for root in wanted:
            stack: List[Tuple[int, Optional[Set[int]]]] = [(root, None)]
            while stack:
                k, rest = stack.pop()
                if rest is None:
                    if k in seen:
                        continue
                    seen.add(k)
                    rest = self.reached_by(k)
                while rest:
                    there = rest.pop()
                    if there not in seen:
                        stack.append((k, rest))
                        stack.append((there, None))
                        break
                else:
                    order.append(k)
        return order

    def reached_by(self, k: int) -> Set[int]:
        """The functions that this one calls, or leads to."""
        found = set()
        for _, _, kind, target in self.flows([k] + self.parts_of.get(k, [])):
            if target >= 0 and kind in (CALL, JUMP, BRANCH):
                there = self.functions.at_entry(target)
                if there >= 0 and there != k and there not in self.owners:
                    found.add(there)
        return found

    def may_return(self, target: int) -> bool:
        """Whether what is called or jumped to at this address may come back."""
        if target < 0:
            return target != TO_NOWHERE
        k = self.functions.at_entry(target)
        if k < 0 or k in self.owners:
            return True
        return self.returning.get(k, False) and not any(never_returns(it) for it in self.functions.names[k])

    def comes_back(self, unit: Unit, row: Flow) -> bool:
        """Whether a call may return; behind the last one of a part stands nothing to return to."""
        return self.may_return(row.target) and row.following not in unit.part_ends

    def reaches_end(self, k: int) -> Ending:
        """Whether the function comes to its end."""
        unit = self.unit(k)
        blocked: Set[int] = set()
        if not unit.rows or any(never_returns(it) for it in self.functions.names[k]):
            return Ending(not unit.rows, blocked)
        work = [unit.entry]
        seen: Set[int] = set()
        while work:
            address = work.pop()
            n = bisect.bisect_left(unit.addresses, address)
            part = unit.part(address)
            while part and n not in seen:
                if n == len(unit.rows) or unit.addresses[n] >= part.high:
                    return Ending(True, blocked)
                seen.add(n)
                row = unit.rows[n]
                if self.ends_at(unit, row, work, blocked):
                    return Ending(True, blocked)
                if row.kind != CALL or not self.comes_back(unit, row):
                    break
                n += 1
        return Ending(False, blocked)

    def ends_at(self, unit: Unit, row: Flow, work: List[int], blocked: Set[int]) -> bool:
        """Whether the function may come to its end at this row; notes the ways that go on."""
        address, following, kind, target = row
        work.extend(unit.pads.get(address, ()))
        if kind == BRANCH:
            work.append(following)
        if kind == RETURN:
            return True
        if kind == POINTER:
            work.extend(unit.tables.get(address, ()))
            return address not in unit.tables
        if kind in (JUMP, BRANCH):
            if unit.holds(target):
                work.append(target)
                return False
            if self.may_return(target):
                return True
        if target >= 0 and kind in (JUMP, BRANCH, CALL) and not self.may_return(target):
            blocked.add(self.functions.at_entry(target))
        return False

    # The blocks of a function.

    def blocks(self, k: int) -> Rows:
        """The blocks of the function by address, the entry's first."""
        unit = self.unit(k)
        ends = [row for row in unit.rows
                if row.kind != CALL or row.address in unit.pads or not self.comes_back(unit, row)]
        ending = [row.address for row in ends]

        def end_of(address: int) -> Optional[Flow]:
            """The row that ends what begins at an address, within its part."""
            n = bisect.bisect_left(ending, address)
            return ends[n] if n < len(ends) and ending[n] < unit.part_at(address).high else None

        leaders, work = {unit.entry}, [unit.entry]
        while work:
            row = end_of(work.pop())
            for there in self.leads(unit, row).follow if row else ():
                if there not in leaders and unit.holds(there):
                    leaders.add(there)
                    work.append(there)
        order = sorted(leaders)
        rows, notes = [], []
        for address, next_one in itertools.zip_longest(order, order[1:]):
            part, row = unit.part_at(address), end_of(address)
            after = row.following if row else part.high
            if next_one is not None and next_one < after and next_one < part.high:
                rows.append(Row(address, next_one, [next_one], False))
            elif row is None:
                rows.append(Row(address, part.high, [], True))
                notes.append(f"block at {address:#x} runs past the end of the function: exit")
            else:
                follow, leaves = self.leads(unit, row)
                inside = [it for it in follow if unit.holds(it)]
                rows.append(Row(address, after, inside, leaves or len(inside) < len(follow)))
                if row.address in unit.open:
                    notes.append(f"jump at {row.address:#x} leads to places that are not known: exit")
        low, high = unit.part_at(unit.entry)
        rows.sort(key=lambda it: (it.low != unit.entry, not low <= it.low < high, it.low))
        return Rows(rows, notes)

    def leads(self, unit: Unit, row: Flow) -> Ways:
        """Where the flow goes on behind a row that ends a block, and whether it can leave the function there."""
        address, following, kind, target = row
        if kind == CALL:
            pads = unit.pads.get(address, [])
            returns = self.comes_back(unit, row)
            return Ways(pads + ([following] if returns else []), not pads and not returns)
        if kind == BRANCH:
            inside = unit.holds(target)
            return Ways([following] + ([target] if inside else []), not inside)
        if kind == JUMP and unit.holds(target):
            return Ways([target], False)
        if kind == POINTER and address in unit.tables:
            return Ways(unit.tables[address], False)
        return Ways([], True)
