"""A program's file with other debugging information: the same segments in place, other sections, and new ones."""
import struct
from typing import Dict, List, NamedTuple, Union

from pgo_tools.cli import REFUSED, Trouble
from pgo_tools.elf import Elf, Section

HEADER, SECTION, PROGBITS, STRINGS, NOBITS, ALLOC, COMPRESSED = 64, struct.Struct("<IIQQQQIIQQ"), 1, 3, 8, 2, 0x800
FEWEST_FAR, FAR = 0xFF00, 0xFFFF
DEBUG = (".debug", ".zdebug", ".rela.debug", ".rel.debug", ".gnu_debuglink", ".gnu_debugaltlink", ".gdb_index")


class Header(NamedTuple):
    """A section header, all of it (System V gABI, "Sections")."""

    name: int
    kind: int
    flags: int
    address: int
    offset: int
    size: int
    link: int
    info: int
    align: int
    entry: int


NONE = Header(*[0] * 10)
Piece = Union[bytes, memoryview]


class Table(NamedTuple):
    """A program's section headers, and the number of the one that has their names (0 where there is none)."""

    rows: List[Header]
    names: int


def is_left_out(section: Section) -> bool:
    """Debugging information, what leads to it, and what is packed, which pgo refuses. What is loaded stays."""
    return not section.flags & ALLOC and bool(section.name.startswith(DEBUG) or section.flags & COMPRESSED)


def whole_end(elf: Elf) -> int:
    """Where the file's part ends that its segments hold."""
    at, = struct.unpack_from("<Q", elf.data, 32)
    size, count = struct.unpack_from("<HH", elf.data, 54)
    end: int = max([HEADER, at + size * count] + [each.offset + each.file_size for each in elf.segments])
    if count == FAR or end > len(elf.data):
        raise Trouble(f"{elf.path} is damaged or cut off: its segments pass its end", REFUSED, "copy it again")
    return end


def table_of(elf: Elf) -> Table:
    """The program's section headers as its file has them."""
    at, = struct.unpack_from("<Q", elf.data, 40)
    size, _, names = struct.unpack_from("<HHH", elf.data, 58)
    rows = [Header(*SECTION.unpack_from(elf.data, at + size * number)) for number in range(len(elf.sections))]
    return Table(rows, rows[0].link if rows and names == FAR else names)


class Layout:
    """A file as its pieces of bytes, with a table of its sections."""

    def __init__(self, elf: Elf) -> None:
        self.elf, self.whole = elf, whole_end(elf)
        self.end, self.left = self.whole, len(elf.data)
        self.pieces: List[Piece] = []
        self.headers, self.names = [NONE], bytearray(1)

    def place(self, raw: Piece, align: int) -> int:
        """Puts bytes after all others, and returns where they begin."""
        gap = -self.end % max(align, 1)
        at = self.end + gap
        self.pieces += [bytes(gap), raw]
        self.end = at + len(raw)
        return at

    def name(self, text: str) -> int:
        at = len(self.names)
        self.names += text.encode("utf-8", "surrogateescape") + b"\0"
        return at

    def keep(self, header: Header, section: Section) -> None:
        """A section of the program: where a segment holds its bytes they stay, else they move."""
        at, held = header.offset, self.elf.data[header.offset : header.offset + header.size]
        if header.kind != NOBITS and not header.flags & ALLOC and at + header.size > self.whole:
            if len(held) < header.size:
                what = f"{self.elf.path} is damaged or cut off: {section.name} passes its end"
                raise Trouble(what, REFUSED, "copy it again")
            self.left -= len(held)
            if self.left < 0:
                raise Trouble(f"{self.elf.path} is damaged: its sections overlap", REFUSED, "copy it again")
            at = self.place(held, header.align)
        self.headers.append(header._replace(name=self.name(section.name), offset=at))

    def add(self, name: str, raw: Piece, kind: int = PROGBITS) -> None:
        at, word = self.place(raw, 1), self.name(name)
        self.headers.append(NONE._replace(name=word, kind=kind, offset=at, size=len(raw), align=1))

    def close(self) -> List[Piece]:
        """The file's pieces, the table of sections being the last."""
        self.headers.append(NONE._replace(name=self.name(".shstrtab"), kind=STRINGS, align=1))
        raw = bytes(self.names)
        self.headers[-1] = self.headers[-1]._replace(offset=self.place(raw, 1), size=len(raw))
        count = len(self.headers)
        if count >= FEWEST_FAR:
            self.headers[0] = NONE._replace(size=count, link=count - 1)
        table = self.place(b"".join(SECTION.pack(*each) for each in self.headers), 8)
        short = (0, FAR) if count >= FEWEST_FAR else (count, count - 1)
        head = bytearray(self.elf.data[:HEADER])
        struct.pack_into("<Q", head, 40, table)
        struct.pack_into("<HHH", head, 58, SECTION.size, *short)
        return [bytes(head), memoryview(self.elf.data)[HEADER : self.whole], *self.pieces]


def with_sections(elf: Elf, sections: Dict[str, bytes]) -> List[Piece]:
    """The pieces of the program's file with these sections in place of its debugging information.

    Other sections keep their numbers.
    """
    layout = Layout(elf)
    rows, names = table_of(elf)
    linked = {row.link for row in rows}
    for number, (header, section) in enumerate(zip(rows, elf.sections)):
        if not number:
            continue
        if not header.kind or is_left_out(section) or number == names and names not in linked:
            layout.headers.append(NONE)
        else:
            layout.keep(header, section)
    for name, raw in sections.items():
        layout.add(name, raw)
    return layout.close()
