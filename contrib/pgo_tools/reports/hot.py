"""What is hot in a profile or in a repair: the functions, lines and blocks that ran most, and what stands there."""
import collections
import contextlib
import heapq
import io
import os
import re
from dataclasses import dataclass, fields
from typing import (BinaryIO, Callable, ContextManager, Counter, Dict, Iterable, Iterator, List, NamedTuple, Optional,
                    Sequence, Sized, Union)

from pgo_tools import cli
from pgo_tools.cli.files import open_packed, read_packed
from pgo_tools.cli.programs import tool
from pgo_tools.draw.source import Place, Sources, places, starts
from pgo_tools.reports.table import columns, percent, times
from pgo_tools.texts import block_text, packed, profile_text, repair_text, report
from pgo_tools.texts.names import cut, demangled, printable
from pgo_tools.texts.short_names import short_names

NAME_WIDTH, SOURCE_WIDTH, MOST_CALLERS, LEAST_SHARE = 60, 90, 2, 0.1
# Functions of libraries, by how their names are mangled, and their files.
LIBRARY_NAME = re.compile(r"_ZN?[KVrRO]*S[tabsiod]|"
                          r"_ZN[KVrRO]*(?:9__gnu_cxx|10__cxxabiv1|4core|5alloc|3std|5boost|4absl)|"
                          r"_R\w*_(?:4core|5alloc|3std)")
LIBRARY_FILE = re.compile(r"/usr/|/rustc/|.*/include/c\+\+/|.*/\.cargo/registry/")


class Asked(NamedTuple):
    """What a report is made of: a profile or a repair, the program and its sources, the block text of a repair, and how
    many of each kind are told."""

    path: str
    bin: Optional[str]
    source: str
    top: int
    blocks: Optional[str]


class Line(NamedTuple):
    """A line of a function, counted from where the function begins."""

    function: str
    offset: int


class Function(NamedTuple):
    """A function of a profile: its total with what was inlined into it, and how often it was entered."""

    name: str
    total: int
    head: int


class Told(NamedTuple):
    """What a report says of a place. In JSON it is among the facts of its row."""

    file: str
    line: int
    source: str


@dataclass(frozen=True)
class HotFunction:
    """A function in a report."""

    name: str
    shown: str
    total: int
    entered: int
    told: Optional[Told]


@dataclass(frozen=True)
class Caller:
    """A call in a report through which a line of a library ran."""

    name: str
    shown: str
    offset: int
    count: int
    told: Optional[Told]


@dataclass(frozen=True)
class HotLine(Caller):
    """A line in a report, wherever it was inlined."""

    callers: List[Caller]


@dataclass(frozen=True)
class HotBlock:
    """A block in a report: its count is None in a cut, its weight where it is unknown."""

    name: str
    shown: str
    block: int
    count: Optional[int]
    weight: Optional[int]
    low: str
    high: str
    told: Optional[Told]


@dataclass(frozen=True)
class OfProfile:
    """The report of a profile."""

    functions_in_all: int
    lines_in_all: int
    total: int
    functions: List[HotFunction]
    lines: List[HotLine]


@dataclass(frozen=True)
class OfRepair:
    """The report of a repair."""

    functions_in_all: int
    blocks_in_all: int
    total: int
    blocks: List[HotBlock]


Report = Union[OfProfile, OfRepair]


def as_json(row: Union[Report, HotFunction, Caller, HotBlock]) -> Dict[str, object]:
    """A report, or a row of one, as JSON has it."""
    found: Dict[str, object] = {}
    for each in fields(row):
        value = getattr(row, each.name)
        if each.name == "told":
            found.update(value._asdict() if value else {})
        else:
            found[each.name] = [as_json(it) for it in value] if isinstance(value, list) else value
    return found


def opened(path: str) -> ContextManager[BinaryIO]:
    """A file as a stream of bytes, unpacked, or the input."""
    return contextlib.nullcontext(cli.given()) if path == "-" else open_packed(path)


class Walked(NamedTuple):
    """A line of a function or a body, with the calls that it was inlined through: each but the last with its place."""

    said: Union[profile_text.FunctionLine, profile_text.BodyLine]
    calls: List[Line]


class Profile:
    """A profile's functions, and the counts of its lines, wherever they were inlined."""

    def __init__(self, raw: bytes, path: str) -> None:
        # What llvm-profgen says of functions, beside their counts.
        self.raw, self.path = re.sub(rb"(?m)^ *!.*$", b"", raw), path
        self.functions: List[Function] = []
        self.counts: Counter[Line] = collections.Counter()
        for said, calls in self.walk():
            if isinstance(said, profile_text.FunctionLine):
                self.functions.append(Function(said.name, said.total, said.head))
            elif said.count:
                self.counts[Line(calls[-1].function, said.offset)] += said.count
        if not self.functions:
            raise cli.Trouble("the profile is empty", helps=packed.why_empty(report.read(io.BytesIO(self.raw))))
        self.total = sum(it.total for it in self.functions) or 1

    def walk(self) -> Iterator[Walked]:
        """The lines of the profile, but for those of calls."""
        calls: List[Line] = []
        for entry in profile_text.entries(io.BytesIO(self.raw), self.path):
            said = entry.said
            del calls[entry.depth:]
            if isinstance(said, profile_text.CallLine):
                calls[-1] = Line(calls[-1].function, said.offset)
                calls.append(Line(said.callee, 0))
                continue
            if isinstance(said, profile_text.FunctionLine):
                calls = [Line(said.name, 0)]
            yield Walked(said, calls)

    def callers(self, lines: Iterable[Line], is_library: Callable[[str], bool]) -> Dict[Line, Counter[Line]]:
        """For each of these lines how often it ran below each place of the nearest function that is of no library."""
        found: Dict[Line, Counter[Line]] = {line: collections.Counter() for line in lines}
        for said, calls in self.walk() if found else ():
            if isinstance(said, profile_text.BodyLine) and said.count and len(calls) > 1:
                line = Line(calls[-1].function, said.offset)
                if line in found:
                    own = (call for call in reversed(calls[:-1]) if not is_library(call.function))
                    found[line][next(own, calls[0])] += said.count
        return found


class Program:
    """What the program's debugging information and the sources tell of lines."""

    def __init__(self, asked: Asked, names: Iterable[str], begin: Iterable[str]) -> None:
        self.begin = starts(asked.bin, begin) if asked.bin else {}
        self.sources = Sources([asked.source, os.path.dirname(asked.bin or "")])
        self.shown = demangled(names)

    def name(self, function: str) -> str:
        return printable(self.shown.get(function, function))

    def learn(self, asked: Asked, names: Iterable[str]) -> None:
        """Adds what is known of more functions."""
        names = [name for name in names if name not in self.shown]
        self.shown.update(demangled(names))
        if asked.bin and names:
            self.begin.update(starts(asked.bin, names))

    def place(self, line: Line) -> Optional[Place]:
        """Where a line stands."""
        if line.function not in self.begin:
            return None
        first = self.begin[line.function]
        return first._replace(line=first.line + line.offset)

    def is_library(self, function: str) -> bool:
        """The function is none of the user's own: by its name or its file, where no source of it is at hand."""
        place = self.begin.get(function)
        if place and self.sources.has(place):
            return False
        return bool(LIBRARY_NAME.match(function) or place and LIBRARY_FILE.match(place.file))

    def told(self, place: Optional[Place]) -> Optional[Told]:
        """What the report says of a place."""
        return None if place is None else Told(place.file, place.line, self.sources.line(place))


def of_profile(asked: Asked) -> OfProfile:
    """What is hot in a profile."""
    profile = Profile(read_packed(asked.path), asked.path)
    packed.judge(asked.path, packed.discs_of(io.BytesIO(profile.raw)))
    hot = sorted(profile.functions, key=lambda it: -it.total)[: asked.top]
    lines = profile.counts.most_common(asked.top)
    names = sorted({it.name for it in hot} | {line.function for line, _ in lines})
    program = Program(asked, names, names)
    known_by(asked, program.begin, "functions", ["llvm-dwarfdump"])
    callers = profile.callers([line for line, _ in lines if program.is_library(line.function)], program.is_library)
    calls = {call for found in callers.values() for call, _ in found.most_common(MOST_CALLERS)}
    program.learn(asked, sorted({call.function for call in calls}))

    def told(line: Line) -> Optional[Told]:
        return program.told(program.place(line))

    return OfProfile(
        len(profile.functions), len(profile.counts), profile.total,
        [HotFunction(it.name, program.name(it.name), it.total, it.head, told(Line(it.name, 0))) for it in hot],
        [HotLine(line.function, program.name(line.function), line.offset, count, told(line),
                 callers_of(program, callers.get(line), count)) for line, count in lines])


def callers_of(program: Program, found: Optional[Counter[Line]], whole: int) -> List[Caller]:
    """The calls through which a line of a library ran most."""
    return [Caller(call.function, program.name(call.function), call.offset, count, program.told(program.place(call)))
            for call, count in (found.most_common(MOST_CALLERS) if found else []) if count >= LEAST_SHARE * whole]


def known_by(asked: Asked, found: Sized, what: str, tools: Sequence[str]) -> None:
    """Says why no source lines are told."""
    if asked.bin and not found:
        if not any(map(tool, tools)):
            # A file that is not there is told as such.
            os.stat(asked.bin)
            cli.say(f"source lines need {' or '.join(tools)}")
        else:
            cli.say(f"{asked.bin} tells of none of these {what}", "the program that was sampled, before strip")


class Block(NamedTuple):
    """A block of a repair, with its addresses by the block text."""

    function: str
    number: int
    repaired: repair_text.Block
    at: block_text.Block

    def heat(self) -> int:
        return (self.repaired.weight or 0) if self.repaired.count is None else self.repaired.count


def blocks_of(asked: Asked, blocks: str) -> Iterator[List[Block]]:
    """The blocks of each function."""
    with opened(asked.path) as built, open_packed(blocks) as text:
        known = block_text.functions(text, blocks)
        for repair in repair_text.functions(built, asked.path):
            function = next(known, None)
            if function is None or function.name != repair.name or len(function.blocks) != len(repair.blocks):
                helps = "give the block text of which the repair was made"
                raise cli.Trouble(f"{repair.name} has other blocks in {blocks}", helps=helps)
            yield [Block(repair.name, number, *both) for number, both in enumerate(zip(repair.blocks, function.blocks))]


class Sums:
    """How many functions and blocks pass by, and how often these ran."""

    def __init__(self, functions: Iterable[List[Block]]) -> None:
        self.rest, self.functions, self.blocks, self.total = functions, 0, 0, 0

    def __iter__(self) -> Iterator[Block]:
        for blocks in self.rest:
            self.functions += 1
            self.blocks += len(blocks)
            self.total += sum(it.repaired.count or 0 for it in blocks)
            yield from blocks


def of_repair(asked: Asked, blocks: str) -> OfRepair:
    """What is hot in a repair of this block text."""
    sums = Sums(blocks_of(asked, blocks))
    hot = heapq.nlargest(asked.top, sums, key=Block.heat)
    if not hot:
        raise cli.Trouble(f"{asked.path}: no repair stands there", helps="give what `pgo build` wrote")
    found = places(asked.bin, [it.at.low for it in hot]) if asked.bin else {}
    known_by(asked, found, "blocks", ["llvm-symbolizer", "addr2line"])
    program = Program(asked, {it.function for it in hot}, [])
    return OfRepair(sums.functions, sums.blocks, sums.total or 1, [
        HotBlock(it.function, program.name(it.function), it.number, it.repaired.count, it.repaired.weight,
                 f"{it.at.low:#x}", f"{it.at.high:#x}", program.told(found.get(it.at.low))) for it in hot])


def report_of(asked: Asked) -> Report:
    """The report that is asked for."""
    return of_repair(asked, asked.blocks) if asked.blocks else of_profile(asked)


# Reports as tables.


def cells(told: Optional[Told]) -> List[str]:
    """The last two cells of a row."""
    if not told:
        return ["", ""]
    return [f"{printable(os.path.basename(told.file))}:{told.line}", cut(told.source, SOURCE_WIDTH)]


def named(rows: Iterable[Union[HotFunction, Caller, HotBlock]], is_wide: bool) -> Dict[str, str]:
    """The names of rows as a table has them, by the names in the file."""
    return short_names({it.name: it.shown for it in rows}, None if is_wide else NAME_WIDTH)


def table(made: Report, is_wide: bool = False) -> Iterator[str]:
    """A report as lines, its names whole or short."""
    return table_of_repair(made, is_wide) if isinstance(made, OfRepair) else table_of_profile(made, is_wide)


def table_of_profile(made: OfProfile, is_wide: bool) -> Iterator[str]:
    whole = made.total
    calls = [call for it in made.lines for call in it.callers]
    name = named([*made.functions, *made.lines, *calls], is_wide)
    yield f"{times(made.functions_in_all, 'function')}, {times(made.lines_in_all, 'line')}, a total of {whole}"
    yield ""
    yield from columns([["share", "total", "entered", "function", "", ""]] + [
        [percent(it.total, whole), str(it.total), str(it.entered), name[it.name], *cells(it.told)]
        for it in made.functions], 3)
    yield ""
    rows = [["share", "count", "line", "", ""]]
    for it in made.lines:
        rows.append([percent(it.count, whole), str(it.count), f"{name[it.name]} +{it.offset}", *cells(it.told)])
        for call in it.callers:
            spot = f"  of it by {name[call.name]} +{call.offset}"
            rows.append(["", percent(call.count, it.count), spot, *cells(call.told)])
    yield from columns(rows, 2)


def table_of_repair(made: OfRepair, is_wide: bool) -> Iterator[str]:
    whole = made.total
    name = named(made.blocks, is_wide)
    yield f"{times(made.functions_in_all, 'function')}, {times(made.blocks_in_all, 'block')}, a total of {whole}"
    yield ""
    rows = [["share", "count", "weight", "block", "from", "", ""]]
    for it in made.blocks:
        count = "cut" if it.count is None else str(it.count)
        weight = "?" if it.weight is None else str(it.weight)
        block = f"{name[it.name]} {it.block}"
        rows.append([percent(it.count or 0, whole), count, weight, block, it.low, *cells(it.told)])
    yield from columns(rows, 3)
