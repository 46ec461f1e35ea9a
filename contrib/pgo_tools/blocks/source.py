"""Where the functions of a program come from: its map of basic blocks, or its code."""
import abc
import collections
import re
from typing import Dict, Iterable, List, NamedTuple, Optional, Sequence

from pgo_tools.blocks import rare
from pgo_tools.blocks.block_map import BlockMap
from pgo_tools.blocks.code import Code
from pgo_tools.blocks.program import Functions, Program
from pgo_tools.blocks.row import Row, Rows
from pgo_tools.cli import Trouble

CLONE_NAME = re.compile(r"\.(?:constprop|isra|part|llvm|lto_priv|cold|localalias|specialized|__uniq)\b.*$")


class Named(NamedTuple):
    """A function by its entry, and the name under which it is wanted."""

    entry: int
    name: str


class Source(abc.ABC):
    """The functions by their entries, each with its names, and the blocks of each. `kind` is what they are read
    from."""

    kind: str
    entries: Dict[int, List[str]]

    @abc.abstractmethod
    def rows(self, at: int) -> Rows:
        """The blocks of the function with this entry."""

    @abc.abstractmethod
    def kinds(self, at: int, rows: Sequence[Row]) -> rare.Kinds:
        """Which of these blocks hardly ever run."""

    def settle(self, wanted: Iterable[int]) -> None:
        """Finds out what has to be known of these functions together, before their blocks are asked for."""

    def wanted(self, names: Optional[Sequence[str]], known: bool) -> List[Named]:
        """The functions of these names and of their clones, each with its name; else all functions."""
        if names is None:
            return [Named(at, found[0]) for at, found in self.entries.items()]
        exact: Dict[str, List[Named]] = collections.defaultdict(list)
        clones: Dict[str, List[Named]] = collections.defaultdict(list)
        for at, given in self.entries.items():
            for name in given:
                exact[name].append(Named(at, name))
                if CLONE_NAME.search(name):
                    clones[CLONE_NAME.sub("", name)].append(Named(at, name))
        found: Dict[int, str] = {}
        for name in names:
            if not known and name not in exact and name not in clones:
                raise Trouble(f"the program's {self.kind} has no function {name}")
            found.update(exact.get(name, []) + clones.get(name, []))
        return [Named(at, name) for at, name in sorted(found.items())]


class OfMap(Source):
    """Functions by the map that clang left."""

    kind = "map of basic blocks"

    def __init__(self, program: Program, held: BlockMap) -> None:
        self.held = held
        self.entries = {at: program.names.get(at, [f"{at:#x}"]) for at in sorted(held.functions)}

    def rows(self, at: int) -> Rows:
        return self.held.blocks(at)

    def kinds(self, at: int, rows: Sequence[Row]) -> rare.Kinds:
        return rare.of_map(self.held, at, rows)


class OfCode(Source):
    """Functions by the disassembly."""

    kind = "code"

    def __init__(self, program: Program, path: str) -> None:
        self.functions = Functions(program)
        self.code = Code(program, path, self.functions)
        entries, names = self.functions.entries, self.functions.names
        self.entries = {entries[k]: names[k] for k in sorted(self.code.flow_at) if k not in self.code.owners}

    def rows(self, at: int) -> Rows:
        return self.code.blocks(self.functions.at_entry(at))

    def kinds(self, at: int, rows: Sequence[Row]) -> rare.Kinds:
        return rare.of_code(self.code, self.functions.at_entry(at), rows)

    def settle(self, wanted: Iterable[int]) -> None:
        self.code.settle([self.functions.at_entry(it) for it in wanted])


def source_of(path: str, by_code: bool) -> Source:
    """The functions of a program, by its map where it has one with successors, and else, or if it is so wanted, by its
    code."""
    program = Program(path)
    held = None if by_code else BlockMap(program)
    return OfMap(program, held) if held and held.functions else OfCode(program, path)
