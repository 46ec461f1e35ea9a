"""How much alike two profiles are, by line and by function, and what became hot or cold from the one to the other."""
from fractions import Fraction
from typing import Dict, Hashable, Iterable, Iterator, List, Mapping, NamedTuple, Optional, Sequence, Tuple, TypeVar

from pgo_tools.cli import files
from pgo_tools.texts import names, profile_text

# The functions that make up nearly all of the counts are hot, as for LLVM (ProfileSummary's cutoff 990000).
HOT = 99
# A call that was inlined, by its offset, its discriminator and its name; and a line, by the calls that it was inlined
# by and its offset and discriminator there.
Call = Tuple[int, int, str]
Key = Tuple[Tuple[Call, ...], Tuple[int, int]]
Lines = Dict[Key, int]
AKey = TypeVar("AKey", bound=Hashable)


class Profile(NamedTuple):
    """The counts of a profile: of each function by its lines, their sums, and the sum of all."""

    lines: Dict[str, Lines]
    totals: Dict[str, int]
    whole: int

    def share(self, name: str) -> Fraction:
        return Fraction(self.totals.get(name, 0), self.whole or 1)


def lines_of(node: profile_text.Node, way: Tuple[Call, ...] = (), held: Optional[Lines] = None) -> Lines:
    """The counts of a function's lines."""
    held = {} if held is None else held
    for place, line in node.lines.items():
        held[way, place] = line.count
    for key, call in node.calls.items():
        lines_of(call, (*way, key), held)
    return held


def read(path: str) -> Profile:
    with files.open_packed(path) as file:
        functions = profile_text.read(file, path)
    # A tree goes as its lines are taken, so that not all of both are held.
    lines = {name: lines_of(functions.pop(name)) for name in list(functions)}
    totals = {name: sum(counts.values()) for name, counts in lines.items()}
    return Profile(lines, totals, sum(totals.values()))


def alike(one: Mapping[AKey, int], other: Mapping[AKey, int]) -> Fraction:
    """How much alike two sets of counts are: the sum of the smaller of the two shares, from 0 to 1."""
    return alike_in_parts([(one, other)], sum(one.values()), sum(other.values()))


def alike_in_parts(pairs: Iterable[Tuple[Mapping[AKey, int], Mapping[AKey, int]]], whole: int,
                   whole_other: int) -> Fraction:
    """The same of sets that are told in parts, pairs of the one and the other, and have these sums."""
    if not whole or not whole_other:
        return Fraction(0)
    # In whole numbers: a profile is wholly like itself, and nothing else is.
    shared = sum(min(count * whole_other, other[key] * whole)
                 for one, other in pairs for key, count in one.items() if key in other)
    return Fraction(shared, whole * whole_other)


def hot(profile: Profile) -> List[str]:
    """The functions that make up HOT percent of a profile's counts, the hottest first."""
    found: List[str] = []
    held = 0
    for name, total in sorted(profile.totals.items(), key=lambda each: (-each[1], each[0])):
        if not total or 100 * held >= HOT * profile.whole:
            break
        found.append(name)
        held += total
    return found


class Compared(NamedTuple):
    """How much alike by lines and by functions; what became hot and cold; and each function's own likeness."""

    lines: Fraction
    functions: Fraction
    hotter: List[str]
    colder: List[str]
    each: Dict[str, Fraction]


def without(those: Iterable[str], others: Iterable[str]) -> List[str]:
    """The names that are none of the others, in their order."""
    known = set(others)
    return [name for name in those if name not in known]


def compared(old: Profile, new: Profile) -> Compared:
    was, now = hot(old), hot(new)
    both = {name for name in (*was, *now) if name in old.lines and name in new.lines}
    pairs = ((lines, new.lines[name]) for name, lines in old.lines.items() if name in new.lines)
    return Compared(
        alike_in_parts(pairs, old.whole, new.whole), alike(old.totals, new.totals),
        without(now, was), without(was, now),
        {name: alike(old.lines[name], new.lines[name]) for name in both})


def table(heads: List[str], rows: Iterable[List[str]]) -> Iterator[str]:
    """Rows below their heads; the last column is not filled up."""
    rows = [heads, *rows]
    wide = [max(len(row[column]) for row in rows) for column in range(len(heads) - 1)]
    for row in rows:
        yield "  ".join([*(cell.rjust(width) for cell, width in zip(row, wide)), row[-1]])


def percent(part: Fraction) -> str:
    # Never rounded up to what it is not.
    return f"{int(1000 * part) / 10:.1f}%"


def shares(old: Profile, new: Profile, name: str, shown: Mapping[str, str]) -> List[str]:
    return [percent(old.share(name)), percent(new.share(name)), names.printable(shown.get(name, name))]


def report(old: Profile, new: Profile, found: Compared, top: int) -> Iterator[str]:
    """What is printed, with so many functions of each kind."""
    yield f"lines {percent(found.lines)} alike, functions {percent(found.functions)}"
    yield f"total {old.whole} and {new.whole}, {percent(Fraction(new.whole, old.whole))} as much"
    shown = names.demangled({*found.hotter, *found.colder, *found.each})
    changes: Sequence[Tuple[str, List[str]]] = (("became hot", found.hotter), ("became cold", found.colder))
    for title, listed in changes:
        if listed:
            yield from ["", f"{title}: {len(listed)}"]
            yield from table(["in A", "in B", "function"], [shares(old, new, name, shown) for name in listed[:top]])
    unlike = [name for name in found.each if found.each[name] < 1]
    unlike.sort(key=lambda name: ((found.each[name] - 1) * max(old.share(name), new.share(name)), name))
    if unlike:
        yield from ["", "hot functions whose lines differ most"]
        rows = [[percent(found.each[name]), *shares(old, new, name, shown)] for name in unlike[:top]]
        yield from table(["alike", "in A", "in B", "function"], rows)
