"""ELF files: headers, sections, the build's number, and who made the code. What is damaged is a Trouble of one line."""
import collections
import mmap
import os
import re
import struct
from typing import Counter, Dict, Iterator, List, NamedTuple, Optional, Union

from pgo_tools.cli import REFUSED, Trouble
from pgo_tools.texts.names import text_of

EXECUTABLE, SHARED = 2, 3
NOBITS, NOTE, COMPRESSED = 8, 7, 0x800
LOAD, LOADED_NOTE, EXECUTE = 1, 4, 1
X86_64 = 62
# An extended operation of few bytes with the number 4.
DISCRIMINATOR = re.compile(rb"\x00[\x02-\x06]\x04")
FAULTS = (struct.error, IndexError, ValueError, OverflowError, KeyError)
# A binary that pgo reads has so many bytes at most (docs/LIMITS.md).
LARGEST = 1 << 30
# Names are read once each. Those that overlap, as suffixes do, have so many times the file's bytes at most.
MOST_OVERLAP = 4
# Notes are looked at up to this one, and no longer than these bytes: a table may name the same ones again and again.
MOST_NOTES, LONGEST_NOTE = 1 << 16, 256


class Section(NamedTuple):
    """A section header (System V gABI, "Sections")."""

    name: str
    kind: int
    flags: int
    address: int
    offset: int
    size: int
    link: int
    align: int


class Segment(NamedTuple):
    """A program header (System V gABI, "Program Header")."""

    kind: int
    flags: int
    offset: int
    address: int
    file_size: int
    size: int
    align: int


class Note(NamedTuple):
    """A note: its owner with the NUL behind it, its kind, and its first bytes."""

    owner: bytes
    kind: int
    said: bytes


class DebugLink(NamedTuple):
    """The debug file that a program names, without folders, and the CRC of its bytes."""

    name: str
    checksum: int


class Share(NamedTuple):
    """How much of the debugging information is of a maker, from 0 to 1."""

    maker: str
    share: float


class Elf:
    """A file of 64 bits, little-endian: `kind`, `machine`, `sections` and `segments`."""

    def __init__(self, path: str) -> None:
        self.path, self.read_of_texts = path, 0
        self.shares: Optional[List[Share]] = None
        self.texts: Dict[int, str] = {}
        self.data: Union[bytes, mmap.mmap]
        with open(path, "rb") as file:
            whole = os.fstat(file.fileno()).st_size
            self.data = mmap.mmap(file.fileno(), 0, access=mmap.ACCESS_READ) if whole else b""
        if self.data[:6] != b"\x7fELF\x02\x01":
            raise Trouble(f"{path} is no ELF file of 64 bits, little-endian", REFUSED,
                          "the program itself: no text, and nothing packed")
        self.kind: int
        self.machine: int
        try:
            self.kind, self.machine = struct.unpack_from("<HH", self.data, 16)
            self.segments: List[Segment] = list(self.read_segments())
            self.sections: List[Section] = list(self.read_sections())
        except FAULTS as reason:
            raise Trouble(f"{path} is damaged or cut off: {reason}", REFUSED) from None

    def read_segments(self) -> Iterator[Segment]:
        at, = struct.unpack_from("<Q", self.data, 32)
        size, count = struct.unpack_from("<HH", self.data, 54)
        for number in range(count if at else 0):
            row = struct.unpack_from("<IIQQQQQQ", self.data, at + size * number)
            kind, flags, offset, address, _, file_size, memory, align = row
            yield Segment(kind, flags, offset, address, file_size, memory, align)

    def read_sections(self) -> Iterator[Section]:
        at, = struct.unpack_from("<Q", self.data, 40)
        size, count, names = struct.unpack_from("<HHH", self.data, 58)
        if not at:
            return
        first = struct.unpack_from("<IIQQQQIIQQ", self.data, at)
        count, names = count or first[5], first[6] if names == 0xFFFF else names
        if size < 64 or at + size * count > len(self.data):
            raise ValueError("its table of sections passes its end")
        rows = [struct.unpack_from("<IIQQQQIIQQ", self.data, at + size * number) for number in range(count)]
        base = rows[names][4]
        for name, kind, flags, address, offset, length, link, _, align, _ in rows:
            yield Section(self.text_at(base + name), kind, flags, address, offset, length, link, align)

    def text_at(self, offset: int) -> str:
        """The text that begins at an offset of the file, and ends with a NUL."""
        if offset not in self.texts:
            end = self.data.find(b"\0", offset)
            if end < 0:
                raise ValueError("a name has no end")
            self.read_of_texts += end - offset
            if self.read_of_texts > MOST_OVERLAP * len(self.data):
                raise ValueError("its names overlap")
            self.texts[offset] = text_of(self.data[offset:end])
        return self.texts[offset]

    def section(self, name: str) -> Optional[Section]:
        """The first section of this name, or None."""
        return next((each for each in self.sections if each.name == name and each.kind), None)

    def bytes_of(self, name: str) -> memoryview:
        """The bytes of a section, which are not copied; none where it is missing or packed, as pgo takes none."""
        section = self.section(name)
        if section is None or section.kind == NOBITS or section.flags & COMPRESSED:
            return memoryview(b"")
        return memoryview(self.data)[section.offset : section.offset + section.size]

    def is_compressed(self) -> bool:
        """Debugging information is packed, in the standard's way or the old one."""
        return any(each.flags & COMPRESSED or each.name.startswith(".zdebug_") for each in self.sections)

    def unpacked_size(self) -> int:
        """How many bytes the file has once its sections are unpacked, by the sizes in front of what is packed."""
        packed = size = 0
        for each in self.sections:
            if each.flags & COMPRESSED:
                size += int.from_bytes(self.data[each.offset + 8 : each.offset + 16], "little")
            elif each.name.startswith(".zdebug_"):
                size += int.from_bytes(self.data[each.offset + 4 : each.offset + 12], "big")
            else:
                continue
            packed += each.size
        # What was packed goes; where headers name the same bytes again and again, no more than all.
        return size + max(0, len(self.data) - packed)

    def is_position_independent(self) -> bool:
        """The program runs at other addresses than its file says: load lines tell which."""
        return self.kind == SHARED

    def code(self) -> List[Segment]:
        """The executable segments that are loaded."""
        return [each for each in self.segments if each.kind == LOAD and each.flags & EXECUTE]

    def notes(self) -> Iterator[Note]:
        """The notes, wherever they stand."""
        places = [(each.offset, each.file_size, each.align) for each in self.segments if each.kind == LOADED_NOTE]
        places += [(each.offset, each.size, each.align) for each in self.sections if each.kind == NOTE]
        left = MOST_NOTES
        for at, size, align in dict.fromkeys(places):
            align, end = 8 if align == 8 else 4, min(at + size, len(self.data))
            while at + 12 <= end and left:
                left -= 1
                owner, told, kind = struct.unpack_from("<III", self.data, at)
                first = at + 12 + -(-owner // align) * align if align == 4 else at + -(-(12 + owner) // align) * align
                yield Note(self.data[at + 12 : at + 12 + min(owner, LONGEST_NOTE)], kind,
                           self.data[first : first + min(told, LONGEST_NOTE)])
                at = first + -(-told // align) * align

    def build_id(self) -> str:
        """The number of the build (GNU's NT_GNU_BUILD_ID) in hexadecimal, or ""."""
        found = (note.said.hex() for note in self.notes() if note.owner == b"GNU\0" and note.kind == 3 and note.said)
        return next(found, "")

    def debug_link(self) -> Optional[DebugLink]:
        """The debug file that the program names, or None (GDB, "Debugging Information in Separate Files")."""
        raw = bytes(self.bytes_of(".gnu_debuglink"))
        name = raw.partition(b"\0")[0]
        at = (len(name) + 4) // 4 * 4
        if not name or b"/" in name or name in (b".", b"..") or len(raw) < at + 4:
            return None
        return DebugLink(text_of(name), struct.unpack_from("<I", raw, at)[0])

    def producers(self) -> Counter[str]:
        """For each DW_AT_producer of a unit how many bytes of debugging information it made, the most first."""
        from pgo_tools.dwarf import Units
        try:
            return Units(self).producers()
        except FAULTS:
            return collections.Counter()

    def makers(self) -> List[Share]:
        """Who made the code, by shares of the debugging information, the most first; assembled parts are left out."""
        if self.shares is None:
            sums: Counter[str] = collections.Counter()
            for producer, size in self.producers().items():
                sums[maker(producer)] += size
            del sums["as"]
            whole = sum(sums.values())
            self.shares = [Share(name, size / whole) for name, size in sums.most_common()]
        return self.shares

    def has_discriminators(self) -> bool:
        """Line programs set discriminators (DWARF 5, 6.2.5.3): of clang and rustc only where asked for profiling.

        What looks like such an operation can be something else, so a few in a large program are none.
        """
        lines = self.bytes_of(".debug_line")[: 1 << 26]
        return len(DISCRIMINATOR.findall(lines)) * 4000 > len(lines)


MAKERS = [("rustc", "rustc"), ("clang", "clang"), ("LLVM", "clang"), ("GNU", "gcc"), ("Go ", "go")]


def maker(producer: str) -> str:
    """Who made a unit, by its DW_AT_producer: "clang", "rustc", "gcc", "as", or the text's first word."""
    if producer.startswith("GNU AS"):
        return "as"
    return next((name for word, name in MAKERS if word in producer), (producer.split() or ["?"])[0])
