"""The landing pads of a program, by its tables of exceptions."""
import mmap
import struct
from typing import Dict, List, NamedTuple, Optional, Union

from pgo_tools.blocks.program import Program, Refused
from pgo_tools.elf import FAULTS, NOBITS

OVERLAP = "they overlap"


def damaged(why: object) -> Refused:
    return Refused(f"the program's tables of exceptions are damaged: {why}")


class Bytes:
    """A place in the bytes of a section, and what is read from there."""

    def __init__(self, data: Union[bytes, mmap.mmap], at: int, bias: int) -> None:
        self.data, self.at, self.bias = data, at, bias

    def number(self, form: str) -> int:
        value: int = struct.unpack_from(form, self.data, self.at)[0]
        self.at += struct.calcsize(form)
        return value

    def uleb(self) -> int:
        value = shift = 0
        while True:
            byte = self.data[self.at]
            self.at += 1
            value |= (byte & 127) << shift
            shift += 7
            if byte < 128:
                return value
            if shift > 140:
                raise ValueError("a number has no end")

    def sleb(self) -> int:
        start = self.at
        value = self.uleb()
        bits = 7 * (self.at - start)
        return value - (1 << bits) if value >> (bits - 1) & 1 else value

    def address(self, encoding: int) -> int:
        """A pointer as .eh_frame writes it (LSB, "DWARF Exception Header Encoding")."""
        start = self.at
        kind = encoding & 15
        value = self.uleb() if kind == 1 else self.sleb() if kind == 9 else self.number(
            {0: "<Q", 2: "<H", 3: "<I", 4: "<Q", 10: "<h", 11: "<i", 12: "<q"}[kind])
        if value and encoding & 0x70 == 0x10:
            value += start + self.bias
        return value % (1 << 64)

    def pointer(self, encoding: int) -> Optional[int]:
        """The same, or None where the encoding says that it is left out."""
        return None if encoding == 0xFF else self.address(encoding)


class Pad(NamedTuple):
    """A stretch of calls with a landing pad: its first address, its end, and the pad."""

    start: int
    end: int
    pad: int


class Head(NamedTuple):
    """What the head of some frames says of them: its letters, how they write addresses, and how they point to their
    tables."""

    letters: str
    addresses: int
    tables: int


def landing_pads(program: Program) -> List[Pad]:
    """Each stretch of calls with a landing pad, by its first address."""
    frames = next((it for it in program.sections if it.name == ".eh_frame" and it.kind != NOBITS), None)
    if frames is None:
        return []
    found = Found(len(program.data))
    heads: Dict[int, Head] = {}
    try:
        at, end = frames.offset, frames.offset + frames.size
        while at + 4 <= end:
            size: int = struct.unpack_from("<I", program.data, at)[0]
            if size == 0:
                at += 4
                continue
            if size == 0xFFFFFFFF:
                raise Refused("the program's .eh_frame is above 4 GB")
            entry = Bytes(program.data, at + 4, frames.address - frames.offset)
            link = entry.number("<I")
            if link == 0:
                heads[at] = frame_head(entry)
            elif at + 4 - link in heads:
                read_frame(program, entry, heads[at + 4 - link], found)
            at += 4 + size
    except FAULTS as fault:
        raise damaged(fault) from None
    return sorted(found.pads)


class Found:
    """The landing pads that were found, and how many rows of tables may still be read: what shares no bytes has fewer
    than the file bytes."""

    def __init__(self, most: int) -> None:
        self.pads: List[Pad] = []
        self.left = most

    def count(self) -> None:
        self.left -= 1
        if self.left < 0:
            raise ValueError(OVERLAP)


def frame_head(entry: Bytes) -> Head:
    entry.at += 1
    end = entry.data.find(b"\0", entry.at)
    letters = entry.data[entry.at : end].decode("latin-1")
    entry.at = end + 1
    entry.uleb()
    entry.sleb()
    entry.uleb()
    addresses, tables = 0, 0xFF
    if letters.startswith("z"):
        entry.uleb()
        for letter in letters[1:]:
            if letter == "R":
                addresses = entry.number("<B")
            elif letter == "L":
                tables = entry.number("<B")
            elif letter == "P":
                entry.pointer(entry.number("<B"))
    return Head(letters, addresses, tables)


def read_frame(program: Program, entry: Bytes, head: Head, found: Found) -> None:
    start = entry.address(head.addresses)
    length = entry.address(head.addresses & 15)
    if head.tables == 0xFF or not head.letters.startswith("z"):
        return
    entry.uleb()
    table = entry.pointer(head.tables)
    section = program.section_of(table) if table else None
    if not table or section is None:
        return
    calls = Bytes(program.data, table - section.address + section.offset, section.address - section.offset)
    base = calls.pointer(calls.number("<B"))
    if calls.number("<B") != 0xFF:
        calls.uleb()
    encoding = calls.number("<B") & 15
    end = calls.uleb()
    end += calls.at
    before = 0
    while calls.at < end:
        found.count()
        low, size, pad = calls.address(encoding), calls.address(encoding), calls.address(encoding)
        calls.uleb()
        if low < before or low + size > length:
            return  # a table for each part of a function, and this one's length goes to the end of the last
        before = low + size
        if pad:
            found.pads.append(Pad(start + low, start + low + size, (start if base is None else base) + pad))
