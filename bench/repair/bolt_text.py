#!/usr/bin/env python3
"""bolt_text.py TEXT: prints the samples as perf2bolt takes them aggregated (-pa). bolt_text.py TEXT BIN BLOCKS BUILT: prints
repaired counts in their place, and of the samples only the branches between functions.

An edge to the block that follows is a stretch that ran through (F), any other one a branch (B), from the block's last instruction.
"""
import bisect
import collections
import sys

sys.dont_write_bytecode = True
from places import instructions_of
from texts import functions_of


def told(branches, ranges):
    for (source, target), times in sorted(branches.items()):
        yield f"B {source:x} {target:x} {times} 0"
    for (first, last), times in sorted(ranges.items()):
        yield f"F {first:x} {last:x} {times}"


def samples_of(path):
    """The branches, and the stretches between two of them, with how often each was seen."""
    branches, ranges = collections.Counter(), collections.Counter()
    with open(path, encoding="ascii") as file:
        for line in file:
            if line.startswith("PERF"):
                continue
            stack = [tuple(int(end, 16) for end in it.split("/", 2)[:2]) for it in line.split() if "/" in it]
            branches.update(stack)
            ranges.update((older[1], newer[0]) for newer, older in zip(stack, stack[1:]) if older[1] <= newer[0])
    return branches, ranges


def edges_of(path):
    """For each repaired function, in order, the counts of its edges; of a cut none."""
    found = []
    with open(path, encoding="latin-1") as file:
        for words in map(str.split, file):
            if words[:2] == ["#", "function"]:
                found.append({})
            elif words[:2] == ["#", "edge"]:
                found[-1][int(words[2]), int(words[3])] = int(words[-1])
    return found


def repaired(text, binary, blocks, built):
    addresses, functions = instructions_of(binary), functions_of(blocks)
    rows = sorted((low, high, k) for k, it in enumerate(functions) for low, high in it.blocks)
    lows = [row[0] for row in rows]

    def owner(at):
        n = bisect.bisect_right(lows, at) - 1
        return rows[n][2] if n >= 0 and at < rows[n][1] else None

    branches, ranges = collections.Counter(), collections.Counter()
    entries = {it.blocks[0][0] for it in functions}
    for (source, target), times in samples_of(text)[0].items():
        if owner(source) is None or owner(source) != owner(target) or target in entries and owner(source) == owner(target):
            branches[source, target] += times
    for function, counts in zip(functions, edges_of(built)):
        for (tail, head), times in counts.items():
            (_, end), (start, _) = function.blocks[tail], function.blocks[head]
            last = addresses[bisect.bisect_left(addresses, end) - 1]
            if times and end == start:
                ranges[last, start] += times
            elif times and start not in entries:
                branches[last, start] += times
    return branches, ranges


if __name__ == "__main__":
    if sys.argv[1:2] in (["-h"], ["--help"]):
        sys.exit(print(__doc__.strip()))
    print("\n".join(told(*(samples_of(*sys.argv[1:]) if len(sys.argv) == 2 else repaired(*sys.argv[1:])))))
