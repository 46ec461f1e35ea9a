"""Profile texts, block texts and repair texts, read and written apart from pgo, by docs/FORMATS.md.

A way is where a line stands: (function, calls, line), with calls as ((offset, discriminator, callee), ..) and line as (offset,
discriminator).
"""
import collections
import re

BODY = re.compile(r"( +)(\d+)(?:\.(\d+))?: (\d+)(.*)")
CALL = re.compile(r"( +)(\d+)(?:\.(\d+))?: (.*):(\d+)")


class Profile:
    """The numbers of a profile: heads by function, counts by way, targets by way and function; a number not told is 0."""

    def __init__(self):
        self.heads, self.counts, self.targets = {}, {}, collections.defaultdict(dict)

    def recorded(self):
        return {way for way, count in self.counts.items() if count} | {way for way, told in self.targets.items() if any(told.values())}


def profile_of(path):
    made, function, calls = Profile(), None, []
    with open(path, encoding="utf-8", errors="surrogateescape") as file:
        for line in file:
            line = line.rstrip("\n")
            if not line.strip() or line.lstrip(" ").startswith("#"):
                continue
            if not line.startswith(" "):
                function, _, head = line.rsplit(":", 2)
                made.heads[function] = int(head)
                continue
            told = BODY.fullmatch(line)
            call = told or CALL.fullmatch(line)
            depth, place = len(call[1]), (int(call[2]), int(call[3] or 0))
            del calls[depth - 1 :]
            if not told:
                calls.append((*place, call[4]))
                continue
            way = (function, tuple(calls), place)
            made.counts[way] = int(told[4])
            for word in told[5].split():
                name, times = word.rsplit(":", 1)
                made.targets[way][name] = int(times)
    return made


class Tree:
    """A function or an inlined call: its lines with their numbers, and the calls inlined there."""

    def __init__(self):
        self.lines, self.calls, self.total = {}, collections.defaultdict(Tree), 0


def spelled(place):
    return f"{place[0]}.{place[1]}" if place[1] else str(place[0])


def lines_below(tree, indent):
    for place in sorted(tree.lines):
        count, targets = tree.lines[place]
        told = sorted((-times, name.encode(errors="surrogateescape"), name) for name, times in targets.items() if times)
        yield f"{indent}{spelled(place)}: {count}" + "".join(f" {name}:{-less}" for less, _, name in told)
    for call in sorted(tree.calls, key=lambda it: (it[0], it[1], it[2].encode(errors="surrogateescape"))):
        yield f"{indent}{spelled(call)}: {call[2]}:{min(tree.calls[call].total, 2**64 - 1)}"
        yield from lines_below(tree.calls[call], indent + " ")


def profile_text(made, also=()):
    """The text of a profile, with a line for each recorded way and each of the ways in `also`."""
    functions = {name: Tree() for name, head in made.heads.items() if head}
    for way in made.recorded() | set(also):
        name, calls, place = way
        count = made.counts.get(way, 0)
        tree = functions.setdefault(name, Tree())
        tree.total += count
        for call in calls:
            tree = tree.calls[call]
            tree.total += count
        tree.lines[place] = (count, made.targets.get(way, {}))
    for name in sorted(functions, key=lambda it: (-min(functions[it].total, 2**64 - 1), it.encode(errors="surrogateescape"))):
        yield f"{name}:{min(functions[name].total, 2**64 - 1)}:{made.heads.get(name, 0)}"
        yield from lines_below(functions[name], " ")


Function = collections.namedtuple("Function", "name blocks edges exits")


def functions_of(path):
    """The functions of a block text: blocks as (low, high), edges as (from, to), and the numbers of the exits."""
    made = []
    with open(path, encoding="latin-1") as file:
        for line in file:
            words = line.split()
            if not words or line.startswith("#"):
                continue
            if words[0] == "func":
                made.append(Function(words[1], [], [], set()))
            elif words[0] == "block":
                made[-1].blocks.append((int(words[2], 16), int(words[3], 16)))
                if "exit" in words[4:]:
                    made[-1].exits.add(int(words[1]))
            elif words[0] == "edge":
                made[-1].edges.append((int(words[1]), int(words[2])))
    return made


Repair = collections.namedtuple("Repair", "name flow weights counts")


def repairs_of(path):
    """The repairs in what `pgo build` wrote: weights of the blocks (None where unknown), and counts, none of a cut."""
    made = []
    with open(path, encoding="latin-1") as file:
        for line in file:
            words = line.split()
            if line.startswith("# function "):
                made.append(Repair(words[2], words[3] == "flow", [], []))
            elif line.startswith("# block "):
                made[-1].weights.append(None if words[4] == "?" else int(words[4]))
                if made[-1].flow:
                    made[-1].counts.append(int(words[6]))
    return made
