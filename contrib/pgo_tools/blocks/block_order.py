"""In which order the blocks of a function stand best, by how often control went from each to each.

A greedy ext-TSP: chains of blocks are joined, or one is put into another, by what most raises the score. A jump's count
is in the score where it falls through, and up to a tenth of it where it is short, the more the shorter.
"""
import collections
import heapq
from typing import Counter, Deque, Dict, Iterable, List, Mapping, NamedTuple, Optional, Sequence, Tuple

FORWARD, BACKWARD, SHORT = 1024, 640, 0.1
# Chains of so many blocks at most are taken apart for another one, and functions of so many are ordered by more than
# sure neighbours.
MOST_APART, MOST_BLOCKS = 32, 1024
# So many jumps are looked at in all tries of a function; behind that chains stay apart. Of a chain that has more neighbours than
# these the heaviest are tried.
MOST_LOOKS, MOST_NEAR = 1 << 20, 64


# How often control went from each block to each.
Edges = Mapping[Tuple[int, int], int]


class Jump(NamedTuple):
    """How often control went from a block to another one."""

    tail: int
    head: int
    times: int


class Joined(NamedTuple):
    """How two chains are joined: what the score gains, and the row, or None where nothing is gained."""

    gained: float
    row: Optional[List[int]]


class Try(NamedTuple):
    """Two chains that may be joined, with what that gains first, turned; how often each was joined before; and the
    row."""

    loss: float
    one: int
    other: int
    turn: int
    other_turn: int
    row: List[int]


def value(far: int, times: int) -> float:
    """What a jump adds to the score whose target stands so many bytes behind its end."""
    if far == 0:
        return times
    if 0 < far < FORWARD:
        return SHORT * times * (1 - far / FORWARD)
    if -BACKWARD < far < 0:
        return SHORT * times * (1 + far / BACKWARD)
    return 0


class Chain:
    """Blocks in a row: where each begins in it and which one it is, the bytes of all, and the jumps between them."""

    def __init__(self, row: List[int], sizes: Mapping[int, int], jumps: Sequence[Jump] = ()) -> None:
        self.row, self.size, self.jumps = row, 0, jumps
        self.at: Dict[int, int] = {}
        self.place: Dict[int, int] = {}
        for place, block in enumerate(row):
            self.at[block], self.place[block] = self.size, place
            self.size += sizes[block]


class Rows:
    """Rows of blocks, with the jumps inside each. Of two that are joined the one of fewer blocks moves, so that no
    block moves often."""

    def __init__(self, blocks: Iterable[int], jumps: Mapping[int, List[Jump]]) -> None:
        self.jumps = jumps
        self.of = {block: block for block in blocks}
        self.rows = {block: collections.deque([block]) for block in self.of}
        self.inside: Dict[int, Deque[Jump]] = {block: collections.deque() for block in self.of}

    def join(self, one: int, other: int) -> None:
        """Puts a row behind another one."""
        few, many = (one, other) if len(self.rows[one]) <= len(self.rows[other]) else (other, one)
        row, inside = self.rows.pop(few), self.inside.pop(few)
        between = [jump for block in row for jump in self.jumps[block] if self.of[far_end(jump, block)] == many]
        if few == one:
            self.rows[many].extendleft(reversed(row))
            self.inside[many].extendleft(reversed(inside))
        else:
            self.rows[many].extend(row)
            self.inside[many].extend(inside)
        self.of.update(dict.fromkeys(row, many))
        self.inside[many].extend(between)


def far_end(jump: Jump, block: int) -> int:
    """The other block of a jump that leads to or from a block."""
    return jump.head if jump.tail == block else jump.tail


class Order:
    """The chains of a function's blocks, which become one row. `entry` stands first."""

    def __init__(self, sizes: Mapping[int, int], edges: Edges, entry: int) -> None:
        self.sizes, self.entry, self.looks = sizes, entry, MOST_LOOKS
        self.chains = {block: Chain([block], sizes) for block in sizes}
        self.of = {block: block for block in sizes}
        self.jumps: Dict[int, List[Jump]] = collections.defaultdict(list)
        self.ran: Counter[int] = collections.Counter()
        for (tail, head), times in sorted(edges.items()):
            self.ran[head] += times
            if tail != head:
                jump = Jump(tail, head, times)
                self.jumps[tail].append(jump)
                self.jumps[head].append(jump)

    def join(self, one: int, other: int, row: List[int]) -> None:
        """One chain of both, by this row."""
        jumps = [*self.chains[one].jumps, *self.chains[other].jumps, *self.between(one, other)]
        for block in self.chains.pop(other).row:
            self.of[block] = one
        self.chains[one] = Chain(row, self.sizes, jumps)

    def join_sure(self) -> None:
        """Joins what is each other's most frequent neighbour, the most frequent first: of a loop the least frequent
        jump stays one."""
        behind: Dict[int, int] = {}
        before: Dict[int, int] = {}
        jumps = {jump for near in self.jumps.values() for jump in near}
        for tail, head, _ in sorted(jumps, key=lambda it: (-it.times, it)):
            behind.setdefault(tail, head)
            before.setdefault(head, tail)
        rows = Rows(self.sizes, self.jumps)
        for tail, head in behind.items():
            if head != self.entry and before[head] == tail and rows.of[tail] != rows.of[head]:
                rows.join(rows.of[tail], rows.of[head])
        self.chains = {row[0]: Chain(list(row), self.sizes, list(rows.inside[name])) for name, row in rows.rows.items()}
        self.of = {block: name for name, chain in self.chains.items() for block in chain.row}

    def near(self, name: int) -> List[int]:
        """The chains that jumps lead to or from, in order; of many the heaviest."""
        found: Counter[int] = collections.Counter()
        for block in self.chains[name].row:
            self.looks -= len(self.jumps[block])
            for jump in self.jumps[block]:
                found[self.of[far_end(jump, block)]] += jump.times
        del found[name]
        heaviest = sorted(found, key=lambda it: (-found[it], it))[:MOST_NEAR] if len(found) > MOST_NEAR else found
        return sorted(heaviest)

    def between(self, one: int, other: int) -> List[Jump]:
        """The jumps between two chains."""
        small, large = sorted((self.chains[one], self.chains[other]), key=lambda it: len(it.row))
        self.looks -= sum(len(self.jumps[block]) for block in small.row)
        return [jump for block in small.row for jump in self.jumps[block] if far_end(jump, block) in large.at]

    def gain(self, outer: Chain, inner: Chain, place: int, jumps: Iterable[Jump]) -> float:
        """What the score gains where the inner chain is put into the outer one, in front of its block of this place."""
        cut = outer.at[outer.row[place]] if place < len(outer.row) else outer.size

        def start(block: int) -> int:
            if block in inner.at:
                return cut + inner.at[block]
            return outer.at[block] + (inner.size if outer.place[block] >= place else 0)

        gained: float = sum(value(start(head) - start(tail) - self.sizes[tail], times) for tail, head, times in jumps)
        if 0 < place < len(outer.row):
            self.looks -= len(outer.jumps)
            for tail, head, times in outer.jumps:
                if (outer.place[tail] < place) != (outer.place[head] < place):
                    gained += value(start(head) - start(tail) - self.sizes[tail], times)
                    gained -= value(outer.at[head] - outer.at[tail] - self.sizes[tail], times)
        return gained

    def best(self, one: int, other: int) -> Joined:
        """How two chains are joined best."""
        jumps, found = self.between(one, other), Joined(0, None)
        for outer, inner in ((self.chains[one], self.chains[other]), (self.chains[other], self.chains[one])):
            places = range(len(outer.row)) if len(outer.row) <= MOST_APART else [0]
            for place in [len(outer.row), *places]:
                first = (outer if place else inner).row[0]
                if (self.entry in outer.at or self.entry in inner.at) and first != self.entry:
                    continue
                gained = self.gain(outer, inner, place, jumps)
                if gained > found.gained:
                    found = Joined(gained, outer.row[:place] + inner.row + outer.row[place:])
        return found

    def join_best(self) -> None:
        """Joins two chains as long as the score gains by it."""
        waiting: List[Try] = []
        turns: Counter[int] = collections.Counter()

        def put(one: int, other: int) -> None:
            if self.looks < 0:
                return
            self.looks -= 1
            gained, row = self.best(one, other)
            if row:
                heapq.heappush(waiting, Try(-gained, one, other, turns[one], turns[other], row))

        for one in sorted(self.chains):
            for other in self.near(one):
                if one < other:
                    put(one, other)
        while waiting:
            _, one, other, turn, other_turn, row = heapq.heappop(waiting)
            if one in self.chains and other in self.chains and (turns[one], turns[other]) == (turn, other_turn):
                self.join(one, other, row)
                turns[one] += 1
                for name in self.near(one):
                    put(min(one, name), max(one, name))

    def rank(self, chain: Chain) -> Tuple[bool, float, int]:
        """The entry's chain first, then the one that ran most for its bytes."""
        return chain.row[0] != self.entry, -sum(self.ran[it] for it in chain.row) / max(1, chain.size), chain.row[0]

    def made(self) -> List[int]:
        """All blocks in order."""
        self.join_sure()
        if len(self.sizes) <= MOST_BLOCKS:
            self.join_best()
        return [block for chain in sorted(self.chains.values(), key=self.rank) for block in chain.row]


def ordered(sizes: Mapping[int, int], edges: Edges, entry: int) -> List[int]:
    """The blocks of these sizes (bytes) in order, by how often control took each edge (tail, head)."""
    return Order(sizes, edges, entry).made()
