#!/usr/bin/env python3
"""sums.py merge W FILE [W FILE].. and sums.py summary FILE: what `pgo` has to answer to these words.

A second program, written by docs/FORMATS.md ("Profile text") and by nothing else: it prints what `pgo` has to print, on
both outputs, and ends with its status. It is slow, and as plain as it can be.
"""
import collections
import re
import sys
from typing import Any, Dict, List

MOST = 2**64 - 1
LARGEST = 2**28
USAGE = "usage: pgo counts, where, profile, build, check, make, merge, summary or lift\n"

# The forms of lines, without the spaces in front.
NAME = rb"[^\x00-\x20\x7f:#!0-9][^\x00-\x20\x7f:]*"
FUNCTION = re.compile(rb"(%b):([0-9]+):([0-9]+)" % NAME)
BODY = re.compile(rb"([0-9]+)(?:\.([0-9]+))?: ([0-9]+)((?: %b:[0-9]+)*)" % NAME)
CALL = re.compile(rb"([0-9]+)(?:\.([0-9]+))?: (%b):([0-9]+)" % NAME)

CUTOFFS = [10000, *range(100000, 1000000, 100000), 950000, 990000, 999000, 999900, 999990, 999999]


class Refused(Exception):
    """A bad place: a line and a kind."""


def number(digits, bits):
    """The number of these digits, or None where it has more bits."""
    digits = digits.lstrip(b"0") or b"0"
    return int(digits) if len(digits) <= 20 and int(digits) < 2**bits else None


def lines_of(text):
    """Each line that is not passed over, with its number and its depth."""
    for count, line in enumerate(text.split(b"\n"), 1):
        shown = line.lstrip(b" ")
        if line.strip(b" \t") and not shown.startswith(b"#"):
            yield count, len(line) - len(shown), shown


def parsed(depth, line):
    """The parts of a line: its form, what names it there, and its numbers; or None."""
    if depth == 0:
        match = FUNCTION.fullmatch(line)
        return match and whole("function", match[1], [number(match[2], 64), number(match[3], 64)])
    match = CALL.fullmatch(line)
    if match:
        place = number(match[1], 16), number(match[2] or b"0", 32)
        return whole("call", (*place, match[3]), [*place, number(match[4], 64)])
    match = BODY.fullmatch(line)
    if match:
        place = number(match[1], 16), number(match[2] or b"0", 32)
        targets = [target.rsplit(b":", 1) for target in match[4].split(b" ")[1:]]
        targets = [(name, number(times, 64)) for name, times in targets]
        count = number(match[3], 64)
        return whole("body", place, [*place, count, *(times for _, times in targets)], (count, targets))
    return None


def whole(form, name, numbers, told=None):
    """The parts, unless a number is too large."""
    return None if None in numbers else (form, name, numbers, told)


def read(text):
    """The numbers that the text spells: a line, the thing that is counted there, and how often, in the order of the text.

    A thing is ("head", function), ("count", way, place) or ("target", way, place, callee); a way is the function, and
    then the place and the callee of each inlined call.
    """
    items: List[Any] = []
    opened: List[Any] = []
    seen = set()
    for count, depth, line in lines_of(text):
        parts = parsed(depth, line)
        if parts is None:
            raise Refused(count, "BadLine")
        if depth > 256:
            raise Refused(count, "TooDeep")
        form, name, numbers, told = parts
        # What is open one step less deep, if anything is.
        del opened[depth:]
        if len(opened) < depth:
            raise Refused(count, "BadIndent")
        way = opened[-1] if opened else ()
        key = form, way, name
        targets = told[1] if told else []
        if key in seen or len({callee for callee, _ in targets}) < len(targets):
            raise Refused(count, "KeyTwice")
        seen.add(key)
        if form == "body":
            items.append((count, ("count", way, name), told[0]))
            items += [(count, ("target", way, name, callee), times) for callee, times in targets]
        else:
            opened.append((*way, name))
        if form == "function":
            items.append((count, ("head", name), numbers[1]))
    return items


def add(sums, items, weight):
    """Adds the numbers of a text to the sums, each with this weight."""
    for count, thing, times in items:
        if sums.get(thing, 0) + weight * times > MOST:
            raise Refused(count, "CountTooLarge")
    for count, thing, times in items:
        sums[thing] = sums.get(thing, 0) + weight * times


class Node:
    """A function or an inlined call: the counts of its lines, their targets, and the calls inlined there."""

    def __init__(self):
        self.counts, self.targets, self.calls, self.head = {}, {}, {}, 0

    def total(self):
        return min(sum(self.counts.values()) + sum(call.total() for call in self.calls.values()), MOST)


def tree(sums):
    """The functions that are written for these numbers, by name."""
    root = Node()
    for thing, times in sums.items():
        if times == 0:
            continue
        if thing[0] == "head":
            root.calls.setdefault(thing[1], Node()).head = times
            continue
        node = root
        for step in thing[1]:
            node = node.calls.setdefault(step, Node())
        if thing[0] == "count":
            node.counts[thing[2]] = times
        else:
            node.targets.setdefault(thing[2], {})[thing[3]] = times
    return root.calls


def located(depth, place):
    offset, disc = place
    return b" " * depth + b"%d" % offset + (b".%d" % disc if disc else b"") + b": "


def below(depth, node):
    """The lines below a function or a call."""
    for place in sorted(set(node.counts) | set(node.targets)):
        targets = sorted(node.targets.get(place, {}).items(), key=lambda it: (-it[1], it[0]))
        told = b"".join(b" %b:%d" % target for target in targets)
        yield located(depth, place) + b"%d" % node.counts.get(place, 0) + told + b"\n"
    for (offset, disc, callee), call in sorted(node.calls.items()):
        yield located(depth, (offset, disc)) + b"%b:%d\n" % (callee, call.total())
        yield from below(depth + 1, call)


def text_of(sums, keys=(), told=()):
    """The profile of these numbers; with a line for each of the keys whose function has one in it, and for each of the told ones.

    A key is a way and a place.
    """
    roots = tree(sums)
    for way, place in [*(key for key in keys if key[0][0] in roots), *told]:
        node = roots.setdefault(way[0], Node())
        for step in way[1:]:
            node = node.calls.setdefault(step, Node())
        node.counts.setdefault(place, 0)
    functions = [(-node.total(), name, node) for name, node in roots.items()]
    made = []
    for total, name, node in sorted(functions, key=lambda it: it[:2]):
        made.append(b"%b:%d:%d\n" % (name, -total, node.head))
        made += below(1, node)
    return b"".join(made)


def summary_of(sums):
    """How hot the lines are, for each cutoff."""
    lines = collections.Counter(times for thing, times in sums.items() if thing[0] == "count" and times)
    total = sum(x * lines[x] for x in lines)
    # Each number, the greatest first, with how many are at least so great, and what these add up to.
    hot, count, met = [], 0, 0
    for x in sorted(lines, reverse=True):
        count, met = count + lines[x], met + x * lines[x]
        hot.append((x, count, met))
    made: List[Any] = [("functions", len(tree(sums))), ("lines", count), ("total", total), ("max", hot[0][0] if hot else 0)]
    for cutoff in CUTOFFS:
        least, above = next(((x, n) for x, n, met in hot if 1000000 * met >= cutoff * total), (0, 0))
        made.append(("cutoff", cutoff, "least", least, "lines", above))
    return "".join(" ".join(map(str, words)) + "\n" for words in made).encode()


def answer(words, files):
    """The status, the output and the error output; `files` gives the bytes of a name, or fails."""
    pairs = pairs_of(words)
    if pairs is None:
        return 2, b"", USAGE.encode()
    sums: Dict[Any, int] = {}
    for count, (weight, name) in enumerate(pairs, 1):
        try:
            text = files(name)
        except (FileNotFoundError, KeyError):
            return 3, b"", b"no such file: %d\n" % count
        except OSError:
            return 5, b"", b"read fault: file %d\n" % count
        try:
            if len(text) > LARGEST:
                raise Refused(LARGEST, "FileTooLarge")
            add(sums, read(text), weight)
        except Refused as bad:
            return 4, b"", b"refused: file %d at %d: %b\n" % (count, bad.args[0], bad.args[1].encode())
    return 0, summary_of(sums) if words[0] == "summary" else text_of(sums), b""


def pairs_of(words):
    """The weights and names that the words spell, or None."""
    if words[:1] == ["summary"] and len(words) == 2 and not words[1].startswith("--"):
        return [(1, words[1])]
    if words[:1] != ["merge"] or len(words) not in range(3, 18, 2):
        return None
    weights = [number(word.encode(), 16) if re.fullmatch("[0-9]+", word) else None for word in words[1::2]]
    return list(zip(weights, words[2::2])) if all(weights) else None


def bytes_of(name):
    with open(name, "rb") as file:
        return file.read()


if __name__ == "__main__":
    status, out, said = answer(sys.argv[1:], bytes_of)
    sys.stdout.buffer.write(out)
    sys.stderr.buffer.write(said)
    sys.exit(status)
