#!/usr/bin/env python3
"""lifts.py PROGRAM [--base] BIN CFG OUT: what `pgo lift` has to write of good files.

A second program, written by docs/RULES.md and docs/FORMATS.md, beside which `lift` is run. It asks PROGRAM for the place of
each address of a block, by `where`, and for nothing else. The repairs in OUT are believed.
"""
import subprocess
import sys
from typing import Any, Dict, List

sys.dont_write_bytecode = True
import sums


def location(word):
    offset, _, disc = word.partition(b".")
    return int(offset), int(disc or b"0")


def key_of(line):
    """The way and the place that a line of `where` tells, or None where it tells none."""
    function, *words = line.split()
    if not words:
        return None
    calls = [(*location(place), callee) for place, callee in zip(words[:-1:2], words[1::2])]
    return (function, *calls), location(words[-1])


def blocks_of(text):
    """The blocks of each function of a block text, in order."""
    functions: List[Any] = []
    for line in text.split(b"\n"):
        fields = line.split()
        if fields[:1] == [b"func"]:
            functions.append([])
        elif fields[:1] == [b"block"]:
            functions[-1].append((int(fields[2], 16), int(fields[3], 16)))
    return functions


def counts_of(text):
    """For each repair the counts of its blocks, in order; none for a cut."""
    repairs: List[Any] = []
    for line in text.split(b"\n"):
        fields = line.split()
        if line.startswith(b"# function "):
            repairs.append([])
        elif fields[:2] == [b"#", b"block"] and b"count" in fields:
            repairs[-1].append(int(fields[fields.index(b"count") + 1]))
    return repairs


def lifted(key_at, blocks, text):
    """The profile in a text with the largest count of the blocks that hold a key, for each that one holds."""
    numbers = {thing: times for _, thing, times in sums.read(text)}
    held: Dict[Any, int] = {}
    for function, counts in zip(blocks_of(blocks), counts_of(text)):
        for (low, high), count in zip(function, counts):
            key: Any
            for key in filter(None, map(key_at, range(low, high))):
                held[key] = max(held.get(key, 0), count)
    for (way, place), count in held.items():
        numbers["count", way, place] = count
    return sums.text_of(numbers)


def main():
    program, *options, binary, blocks, out = sys.argv[1:]
    known = {}

    def key_at(address):
        if address not in known:
            ran = subprocess.run([program, "where", *options, binary, "%x" % address], capture_output=True, check=True)
            known[address] = key_of(ran.stdout)
        return known[address]

    sys.stdout.buffer.write(lifted(key_at, sums.bytes_of(blocks), sums.bytes_of(out)))


if __name__ == "__main__":
    main()
