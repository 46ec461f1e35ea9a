#!/usr/bin/env python3
"""Judges a block text by what its program did.

    judge.py [--map=NAME] BIN BLOCKS PERF     by the branch stacks of a run
    judge.py --steps BIN BLOCKS STEPS         by all steps of a run, as step.c writes them
    judge.py --same BIN BLOCKS BLOCKS         a text by the code against one by the map of basic blocks

A branch whose ends lie in one function has to go from inside of a block to the start of a block along an edge. Calls of a
function by itself, and the returns from these, are no edges, and are counted apart. What ran straight on between two
branches has to stay in blocks, and to pass from one to the next along edges. Prints the sums, and what does not fit. By steps, functions
are moreover entered at block 0 and left by exits and calls alone.
"""
import bisect
import collections
import os
import re
import sys
from typing import Any, Counter, Dict, List

sys.dont_write_bytecode = True
sys.path.insert(0, f"{os.path.dirname(os.path.abspath(__file__))}/../../../contrib")
from pgo_tools.blocks.exceptions import landing_pads  # noqa: E402
from pgo_tools.blocks.program import Functions, Program  # noqa: E402

Function = collections.namedtuple("Function", "name blocks edges")
BOUND = re.compile(r"(?:never|ran|lo=\d+|hi=\d+|lo=\d+ hi=\d+)?")
BLOCK = re.compile(r"block (\d+) 0x([0-9a-fA-F]+) 0x([0-9a-fA-F]+)( exit)?(?: (never|ran|lo=\d+(?: hi=\d+)?|hi=\d+))?")
EDGE = re.compile(r"edge (\d+) (\d+)(?: (never|lo=\d+(?: hi=\d+)?|hi=\d+))?")
ENTRY = re.compile(r"0x([0-9a-f]+)/0x([0-9a-f]+)")
LOAD = re.compile(r"PERF_RECORD_MMAP2 .*?\[0x([0-9a-f]+)\(0x([0-9a-f]+)\) @ (0|0x[0-9a-f]+) .*?\]: \S+ (.*)")


def refuse(number, cause):
    raise SystemExit(f"line {number}: {cause}")


def number(number, digits, base):
    value = int(digits, base)
    return value if value < 1 << 64 else refuse(number, "BadLine")


def read_text(path):
    """The functions of a block text, by the rules of docs/FORMATS.md; ends at the first bad line."""
    if os.path.getsize(path) > 1 << 28:
        refuse(1 << 28, "FileTooLarge")
    functions: List[Function] = []
    open_one, n = None, 0
    with open(path, encoding="utf-8", errors="surrogateescape", newline="\n") as file:
        for n, line in enumerate(file, 1):
            fields = re.split(r"[ \t]+", line.rstrip("\n").strip(" \t"))
            if line.startswith("#") or fields == [""]:
                continue
            if open_one is None:
                if fields[0] != "func" or len(fields) != 2:
                    refuse(n, "BadLine")
                open_one, spans, pairs = Function(fields[1], [], []), [], set()
            elif fields == ["end"]:
                if not open_one.blocks:
                    refuse(n, "NoBlocks")
                functions.append(open_one)
                open_one = None
            elif fields[0] == "block" and not pairs:
                read_block(n, " ".join(fields), open_one, spans)
            elif fields[0] == "edge":
                read_edge(n, " ".join(fields), open_one, pairs)
            else:
                refuse(n, "BadLine")
    if open_one is not None:
        refuse(n + 1, "NoEndLine")
    return functions


def read_block(n, line, function, spans):
    found = BLOCK.fullmatch(line) or refuse(n, "BadLine")
    place, low, high = number(n, found[1], 10), number(n, found[2], 16), number(n, found[3], 16)
    if len(function.blocks) == 65536:
        refuse(n, "TooManyBlocks")
    if place != len(function.blocks):
        refuse(n, "BlockOrder")
    if low >= high:
        refuse(n, "BlockEmpty")
    k = bisect.bisect_left(spans, (low, 0))
    if k < len(spans) and spans[k][0] < high or k and spans[k - 1][1] > low:
        refuse(n, "BlockOverlap")
    spans.insert(k, (low, high))
    function.blocks.append((low, high, bool(found[4])))


def read_edge(n, line, function, pairs):
    found = EDGE.fullmatch(line) or refuse(n, "BadLine")
    pair = number(n, found[1], 10), number(n, found[2], 10)
    if len(function.edges) == 262144:
        refuse(n, "TooManyEdges")
    if max(pair) >= len(function.blocks):
        refuse(n, "EdgeEnd")
    if pair in pairs:
        refuse(n, "EdgeTwice")
    pairs.add(pair)
    function.edges.append(pair)


def stuck(function):
    """The blocks without a way from block 0, and those without one to an exit."""
    ahead, behind = collections.defaultdict(list), collections.defaultdict(list)
    for one, other in function.edges:
        ahead[one].append(other)
        behind[other].append(one)
    every = range(len(function.blocks))
    return (set(every) - closure([0], ahead), set(every) - closure([n for n in every if function.blocks[n][2]], behind))


def closure(work, follow):
    seen = set(work)
    while work:
        for it in follow[work.pop()]:
            if it not in seen:
                seen.add(it)
                work.append(it)
    return seen


def read_samples(path, name, program):
    """How often each branch and each range between two branches was sampled, in the program's own addresses."""
    segments = [it for it in program_headers(program.data) if it[0] == 1 and it[1] & 1]
    branches: Counter[Any] = collections.Counter()
    ranges: Counter[Any] = collections.Counter()
    loads = []
    with open(path, encoding="latin-1") as file:
        for line in file:
            if "PERF_RECORD_" in line:
                found = LOAD.search(line)
                if name and found:
                    start, length, offset = int(found[1], 16), int(found[2], 16), int(found[3], 0)
                    loads.append((start, start + length, offset if found[4].rstrip("\n") == name else None))
                continue
            entries = [(int(a, 16), int(b, 16)) for a, b in ENTRY.findall(line)]
            if name:
                entries = [(moved(a, loads, segments), moved(b, loads, segments)) for a, b in entries]
            branches.update(entries)
            ranges.update((older[1], newer[0]) for newer, older in zip(entries, entries[1:]))
    return branches, ranges


def program_headers(data):
    at, size, count = (int.from_bytes(data[k:k + n], "little") for k, n in ((32, 8), (54, 2), (56, 2)))
    for k in range(at, at + size * count, size):
        kind, flags = int.from_bytes(data[k:k + 4], "little"), int.from_bytes(data[k + 4:k + 8], "little")
        yield (kind, flags) + tuple(int.from_bytes(data[k + n:k + n + 8], "little") for n in (8, 16, 32))


def moved(address, loads, segments):
    for start, end, offset in reversed(loads):
        if start <= address < end:
            if offset is None:
                return 0
            place = address - start + offset
            return next((at + place - low for _, _, low, at, size in segments if low <= place < low + size), 0)
    return 0


class Judge:
    """One program with its block text."""

    def __init__(self, binary, text):
        self.program = Program(binary)
        self.symbols = Functions(self.program)
        self.functions = read_text(text)
        self.by_start = sorted((low, high, f, n) for f, it in enumerate(self.functions)
                               for n, (low, high, _) in enumerate(it.blocks))
        self.starts = [it[0] for it in self.by_start]
        self.pairs = [set(it.edges) for it in self.functions]
        self.listed = {it.blocks[0][0]: f for f, it in enumerate(self.functions)}
        self.owner: Dict[Any, Any] = {}
        for low, _, f, _ in self.by_start:
            self.owner.setdefault(self.symbols.holding(low), f)
        self.cold: Dict[Any, Any] = {}
        for part, parents in self.symbols.parents.items():
            for parent in parents:
                self.cold.setdefault(part, self.owner.get(parent))

    def function(self, address):
        """The listed function that holds the address by the symbols, none where there is none."""
        k = self.symbols.holding(address)
        if k < 0:
            return None
        return self.owner.get(k, self.cold.get(k))

    def block(self, address):
        k = bisect.bisect_right(self.starts, address) - 1
        if k >= 0 and address < self.by_start[k][1]:
            return self.by_start[k]
        return None

    def ends_within(self, low, high):
        """Whether the flow ends somewhere from low to high, or never comes there."""
        while low < high:
            one = self.block(low)
            if one is None or self.functions[one[2]].blocks[one[3]][2]:
                return True
            low = one[1]
        return False

    def instruction(self, address):
        piece = next(filter(None, (self.program.read(address, size) for size in (4, 3, 2, 1))), b"")
        while piece[:1] in (b"\xf2", b"\xf3", b"\x3e", b"\x66") or piece[:1] and piece[0] >> 4 == 4:
            piece = piece[1:]
        if piece[:1] == b"\xe8" or piece[:1] == b"\xff" and len(piece) > 1 and piece[1] >> 3 & 7 == 2:
            return "call"
        return "return" if piece[:1] in (b"\xc3", b"\xc2") else "jump"

    def behind_call(self, address):
        return any(self.instruction(address - size) == "call" for size in range(2, 8))

    def branch(self, source, target):
        """What a branch is that has both ends in one function: an edge, or why it is none."""
        one, other = self.block(source), self.block(target)
        f = self.function(source)
        if one and other and one[2] == other[2] and other[0] == target and (one[3], other[3]) in self.pairs[one[2]]:
            return "edge"
        what = self.instruction(source)
        entry = self.functions[f].blocks[0]
        leaves = what == "call" or one and one[2] == f and self.functions[f].blocks[one[3]][2]
        if target == entry[0] and leaves:
            return "call of itself"
        if what == "return":
            return "return to itself"
        if one is None:
            return "from no block"
        if other is None:
            return "to no block"
        return "no edge" if other[0] == target else "into a block"

    def passing(self, low, high):
        """Whether what ran from low to high, in one function, went through blocks along edges."""
        one = self.block(low)
        while one and one[1] <= high:
            other = self.block(one[1])
            if other is None or other[2] != one[2] or (one[3], other[3]) not in self.pairs[one[2]]:
                return False
            one = other
        return one is not None


def judge(binary, text, perf, name=None, out=sys.stdout):
    """Prints the sums of a program, and gives how much does not fit."""
    it = Judge(binary, text)
    branches, ranges = read_samples(perf, name, it.program)
    sums: Counter[str] = collections.Counter()
    bad: Counter[Any] = collections.Counter()
    for (source, target), times in branches.items():
        f = it.function(source)
        if f is None or f != it.function(target):
            continue
        what = it.branch(source, target)
        sums[what] += times
        if what not in ("edge", "call of itself", "return to itself"):
            bad[(what, source, target, it.functions[f].name)] += times
    for (low, high), times in ranges.items():
        f = it.function(low)
        if low > high or f is None or f != it.function(high) or it.symbols.holding(low) != it.symbols.holding(high):
            continue
        fits = it.passing(low, high)
        sums["ranges" if fits else "ranges that leave blocks or edges"] += times
        if not fits:
            bad[("range", low, high, it.functions[f].name)] += times
    stuck_ones = [(function.name, *stuck(function)) for function in it.functions]
    print(f"functions {len(it.functions)} blocks {len(it.by_start)} edges {sum(map(len, it.pairs))} "
          f"branches {sum(branches.values())}; " + ", ".join(f"{what} {n}" for what, n in sorted(sums.items())), file=out)
    for (what, source, target, function), times in bad.most_common(20):
        print(f"  {what}: {source:#x} {target:#x} {times} times in {function}", file=out)
    lost = [one for one in stuck_ones if one[1] or one[2]]
    for function, unreached, unending in lost[:20]:
        print(f"  stuck: {function}: not reached {sorted(unreached)[:5]}, no exit from {sorted(unending)[:5]}", file=out)
    return len(bad) + len(lost)


def judge_steps(binary, text, steps, out=sys.stdout):
    """Prints the sums of a program, and gives how much does not fit."""
    it = Judge(binary, text)
    sums: Counter[str] = collections.Counter()
    bad: Counter[Any] = collections.Counter()
    pads = {pad for _, _, pad in landing_pads(it.program)}
    with open(steps, encoding="ascii") as file:
        base = int(file.readline().split()[1], 16) - int.from_bytes(it.program.data[24:32], "little")
        for line in file:
            first, second, times = line.split()
            one, other = int(first, 16) - base, int(second, 16) - base
            what, fits = step(it, one, other, pads)
            sums[what] += int(times)
            if not fits:
                bad[(what, one, other)] += int(times)
    print(f"functions {len(it.functions)} blocks {len(it.by_start)} edges {sum(map(len, it.pairs))}; "
          + ", ".join(f"{what} {n}" for what, n in sorted(sums.items())), file=out)
    for (what, at, to), many in bad.most_common(20):
        print(f"  {what}: {at:#x} {to:#x} {many} times", file=out)
    return len(bad) + sum(bool(unreached or unending) for unreached, unending in map(stuck, it.functions))


def step(it, one, other, pads):
    """What a step from one instruction to the next one that ran is, and whether the block text has it."""
    f, g = it.function(one), it.function(other)
    left, right = it.block(one), it.block(other)
    if f is not None and f == g:
        if left and left == right and one <= other:
            return "inside a block", True
        what = it.branch(one, other)
        return what, what in ("edge", "call of itself", "return to itself")
    if f is not None and it.instruction(one) != "call":
        return "leaves", bool(left) and it.functions[f].blocks[left[3]][2]
    if g is not None and it.instruction(one) != "return":
        if other == it.functions[g].blocks[0][0] or other in pads:
            return "arrives", True
        return "arrives", it.program.section_of(one) is None and it.behind_call(other)
    return "elsewhere", True


def judge_same(binary, text, other, out=sys.stdout):
    """Compares the edges by the code with those by the map, whose blocks may hold two jumps."""
    code, mapped, bad, same, ended = Judge(binary, text), Judge(binary, other), [], 0, 0
    found = collections.defaultdict(set)
    for f, function in enumerate(code.functions):
        for one, two in function.edges:
            left, right = mapped.block(function.blocks[one][1] - 1), mapped.block(function.blocks[two][0])
            if left is None or right is None:
                if function.blocks[0][0] in mapped.listed:
                    bad.append(("by the code, in no block of the map", function, function.blocks[one][0], function.blocks[two][0]))
                continue
            found[left[2]].add((left[3], right[3]))
            inside = left == right and function.blocks[one][1] == function.blocks[two][0]
            if not inside and (right[0] != function.blocks[two][0] or (left[3], right[3]) not in mapped.pairs[left[2]]):
                bad.append(("by the code alone", function, function.blocks[one][0], function.blocks[two][0]))
            same += 1
    for f, function in enumerate(mapped.functions):
        for one, two in function.edges:
            if (one, two) in found[f]:
                continue
            if code.block(function.blocks[two][0]) == code.block(function.blocks[one][1] - 1) is not None:
                same += 1
            elif code.ends_within(*function.blocks[one][:2]):
                ended += 1
            else:
                bad.append(("by the map alone", function, function.blocks[one][0], function.blocks[two][0]))
    print(f"functions {len(mapped.functions)} edges {same} of {sum(map(len, mapped.pairs))}, {ended} behind calls that do not return, "
          f"{len(bad)} of one text alone", file=out)
    for what, function, one, two in bad[:20]:
        print(f"  {what}: {one:#x} {two:#x} in {function.name}", file=out)
    return len(bad)


if __name__ == "__main__":
    options = [it for it in sys.argv[1:] if it.startswith("--")]
    words = [it for it in sys.argv[1:] if not it.startswith("--")]
    if len(words) != 3:
        sys.exit(__doc__)
    if options == ["--same"]:
        sys.exit(1 if judge_same(*words) else 0)
    if options == ["--steps"]:
        sys.exit(1 if judge_steps(*words) else 0)
    binary, text, perf = words
    sys.exit(1 if judge(binary, text, perf, name=options[0][6:] if options else None) else 0)
