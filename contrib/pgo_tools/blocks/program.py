"""The file of a program: its sections, symbols and relocations, and the functions with their parts."""
import bisect
import re
import struct
from typing import Dict, List, NamedTuple, Optional, Tuple

from pgo_tools.cli import REFUSED, Trouble
from pgo_tools.elf import EXECUTABLE, FAULTS, NOBITS, SHARED, X86_64, Elf, Section

PART_NAME = re.compile(r"(.+?)\.(?:cold|__part|eh)(?:\.\d+)*$")

ALLOC, EXECUTE, WRITE = 2, 4, 1
SYMBOLS, RELA, DYNAMIC_SYMBOLS = 2, 4, 11


class Refused(Trouble):
    """What the user is told in one line."""

    def __init__(self, what: str, helps: str = "") -> None:
        super().__init__(what, REFUSED, helps)


class Stretch(NamedTuple):
    """Addresses from `low` to `high`, without this one."""

    low: int
    high: int


class Rank(NamedTuple):
    """How good a name of a function is: by its binding, whether it has no size, and its place among all. The least is
    best."""

    binding: int
    is_unsized: bool
    place: int


class ObjectEnd(NamedTuple):
    """Where the object ends that holds an address, and where the next one begins, as far as there are such."""

    held: Optional[int]
    following: Optional[int]


class Program(Elf):
    """Sections, symbols and relocations of an ELF file for x86-64."""

    def __init__(self, path: str) -> None:
        super().__init__(path)
        if self.machine != X86_64:
            raise Refused(f"{path} is not a program for x86-64")
        if self.kind not in (EXECUTABLE, SHARED):
            raise Refused(f"{path} is not linked", "give the program")
        if not self.sections:
            raise Refused(f"{path} has no sections")
        self.loaded = sorted((it for it in self.sections if it.flags & ALLOC and it.kind != NOBITS and it.size),
                             key=lambda it: it.address)
        self.starts = [it.address for it in self.loaded]
        self.left = len(self.data)
        self.names: Dict[int, List[str]] = {}
        self.sizes: Dict[int, int] = {}
        self.exported: Dict[str, int] = {}
        self.objects: List[Stretch] = []
        self.slots: Dict[int, str] = {}
        self.pieces: List[bytes] = []
        self.filled_in: Optional[Dict[int, int]] = None
        try:
            self.read_symbols()
            self.read_relocations()
        except FAULTS as fault:
            raise Refused(f"{path} is damaged or cut off: {fault}") from None

    def taken(self, table: Section) -> bytes:
        """The rows of 24 bytes of a table; a ValueError where it and those that were taken before have more bytes than
        the file."""
        piece = self.data[table.offset : table.offset + table.size // 24 * 24]
        self.left -= len(piece)
        if self.left < 0:
            raise ValueError("its tables overlap")
        return piece

    def read_symbols(self) -> None:
        """The functions by address with all their names, and the sized objects."""
        tables = [it for it in self.sections if it.kind == SYMBOLS]
        tables = tables or [it for it in self.sections if it.kind == DYNAMIC_SYMBOLS]
        ranked: Dict[int, List[Tuple[Rank, str]]] = {}
        objects = set()
        for table in tables:
            base = self.sections[table.link].offset
            piece = self.taken(table)
            for name, info, _, index, value, size in struct.iter_unpack("<IBBHQQ", piece):
                if not index or index >= len(self.sections):
                    continue
                # clang gives the parts of a function no type.
                part = info & 15 == 0 and size and PART_NAME.match(self.text_at(base + name))
                if info & 15 in (2, 10) or part:
                    rank = Rank({1: 0, 2: 1}.get(info >> 4, 2), size == 0, len(ranked))
                    ranked.setdefault(value, []).append((rank, self.text_at(base + name)))
                    self.sizes[value] = max(size, self.sizes.get(value, 0))
                elif info & 15 == 1 and size:
                    objects.add(Stretch(value, value + size))
        self.exported = {name: at for at, names in ranked.items() for rank, name in names if rank.binding < 2}
        self.names = {at: list(dict.fromkeys(name for _, name in sorted(names))) for at, names in ranked.items()}
        self.objects = sorted(objects)

    def read_relocations(self) -> None:
        """What the loader fills in: addresses of the program, and the names that slots stand for."""
        for section in self.sections:
            if section.kind != RELA or not section.flags & ALLOC:
                continue
            piece = self.taken(section)
            self.pieces.append(piece)
            symbols = self.sections[section.link]
            names = self.sections[symbols.link].offset
            for address, info, _ in struct.iter_unpack("<QQq", piece):
                if info & 0xFFFFFFFF in (6, 7):
                    name, = struct.unpack_from("<I", self.data, symbols.offset + 24 * (info >> 32))
                    self.slots[address] = self.text_at(names + name)

    def filled(self, address: int) -> Optional[int]:
        """What the loader writes there."""
        if self.filled_in is None:
            self.filled_in = {at: add for piece in self.pieces for at, info, add in struct.iter_unpack("<QQq", piece)
                              if info & 0xFFFFFFFF == 8}
        return self.filled_in.get(address)

    def section_of(self, address: int) -> Optional[Section]:
        k = bisect.bisect_right(self.starts, address) - 1
        if k >= 0 and address < self.loaded[k].address + self.loaded[k].size:
            return self.loaded[k]
        return None

    def read(self, address: int, size: int) -> Optional[bytes]:
        section = self.section_of(address)
        if section is None or address + size > section.address + section.size:
            return None
        at = section.offset + address - section.address
        return self.data[at : at + size]

    def word(self, address: int) -> Optional[int]:
        """The 8 bytes there, as they are once the program is loaded."""
        piece = self.read(address, 8)
        if piece is None or len(piece) < 8:
            return None
        value = int.from_bytes(piece, "little")
        return (self.filled(address) or 0) if value == 0 and self.pieces else value

    def is_data(self, address: int) -> bool:
        section = self.section_of(address)
        return section is not None and not section.flags & EXECUTE

    def is_fixed(self, address: int) -> bool:
        """Whether the bytes there stay what they are."""
        section = self.section_of(address)
        return section is not None and (not section.flags & WRITE or section.name.startswith((".data.rel.ro", ".got")))

    def object_end(self, address: int) -> ObjectEnd:
        k = bisect.bisect_right(self.objects, (address, 1 << 64)) - 1
        held = self.objects[k].high if k >= 0 and self.objects[k].high > address else None
        return ObjectEnd(held, self.objects[k + 1].low if k + 1 < len(self.objects) else None)

    def called_by_stub(self, address: int) -> Optional[str]:
        """The name that a stub at this address jumps to by its slot."""
        piece = self.read(address, 16) or b""
        k = piece.find(b"\xff\x25", 0, 11)
        if k < 0 or len(piece) < k + 6:
            return None
        more: int = struct.unpack_from("<i", piece, k + 2)[0]
        return self.slots.get(address + k + 6 + more)


class Functions:
    """The code that belongs to each function: the part with its entry, and parts that were laid out elsewhere."""

    def __init__(self, program: Program) -> None:
        if not any(it.flags & EXECUTE for it in program.loaded):
            raise Refused("the program has no code: give the program itself, and no debug file of it")
        self.entries: List[int] = []
        self.ends: List[int] = []
        held = [(at, program.section_of(at)) for at in sorted(program.names)]
        code = [(at, section) for at, section in held if section is not None and section.flags & EXECUTE]
        if not code:
            raise Refused("the program has no symbols of functions: give it as it was before it was stripped")
        for k, (at, section) in enumerate(code):
            end = section.address + section.size
            if k + 1 < len(code):
                end = min(end, code[k + 1][0])
            if program.sizes[at]:
                end = min(end, at + program.sizes[at])
            self.entries.append(at)
            self.ends.append(end)
        self.names = [program.names[at] for at in self.entries]
        self.parents = self.find_parents()

    def find_parents(self) -> Dict[int, List[int]]:
        """For each part that may be one of another function, these functions, by their names."""
        by_name: Dict[str, List[int]] = {}
        for k, names in enumerate(self.names):
            for name in names:
                by_name.setdefault(name, []).append(k)
        parents = {}
        for k, names in enumerate(self.names):
            found = [it[1] for it in map(PART_NAME.match, names) if it and it[1] in by_name]
            if len(found) == len(names):
                parents[k] = sorted({there for name in found for there in by_name[name]})
        return parents

    def holding(self, address: int) -> int:
        """The function that has this address, or -1."""
        k = bisect.bisect_right(self.entries, address) - 1
        return k if k >= 0 and address < self.ends[k] else -1

    def at_entry(self, address: int) -> int:
        """The function that begins at this address, or -1."""
        k = bisect.bisect_left(self.entries, address)
        return k if k < len(self.entries) and self.entries[k] == address else -1
