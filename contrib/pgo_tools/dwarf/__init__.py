"""The first entries of a file's units of debugging information (DWARF 4 and 5, section 7.5): who made each.

Only what stands in front of all else is read: no unit is walked through.
"""
import collections
import struct
from typing import Counter, Dict, Iterator, List, NamedTuple, Optional, Protocol, Tuple, Union

from pgo_tools.texts.names import text_of

PRODUCER, OFFSETS_BASE = 0x25, 0x72
# Forms of a fixed size (DWARF 5, section 7.5.6); the offsets' size stands in for "word".
FIXED = {
    0x01: 8, 0x05: 2, 0x06: 4, 0x07: 8, 0x0B: 1, 0x0C: 1, 0x11: 1, 0x12: 2, 0x13: 4, 0x14: 8, 0x19: 0, 0x1E: 16,
    0x20: 8, 0x21: 0, 0x24: 8, 0x1C: 4, 0x25: 1, 0x26: 2, 0x27: 3, 0x28: 4, 0x29: 1, 0x2A: 2, 0x2B: 3, 0x2C: 4,
}
WORDS = (0x0E, 0x10, 0x17, 0x1D, 0x1F, 0x1F20, 0x1F21)
NUMBERS = (0x0D, 0x0F, 0x15, 0x1A, 0x1B, 0x22, 0x23)
BLOCKS = {0x03: "<H", 0x04: "<I", 0x0A: "<B"}
# An entry has at most so many attributes; a text of at most so many bytes is passed over, and so many of it are kept.
MOST_ATTRIBUTES, LONGEST_TEXT, KEPT_TEXT = 256, 1 << 16, 256
# At most this many attributes are looked at in all, and each unit counts as some: a hundred thousand units.
# Of a file that has more, its first units tell.
MOST_LOOKS, LOOKS_OF_UNIT = 1 << 19, 4
STRING, STRP, LINE_STRP, STRX = 0x08, 0x0E, 0x1F, {0x1A: 0, 0x25: 1, 0x26: 2, 0x27: 3, 0x28: 4}


class Attribute(NamedTuple):
    """An attribute as an abbreviation has it: its number, the form of its value, and the value if it is in the form."""

    name: int
    form: int
    constant: Optional[int]


class Value(NamedTuple):
    """A value as a unit has it: its form, and its number or bytes; None where these are passed over."""

    form: int
    said: Union[int, bytes, None]


class Sections(Protocol):
    """A file that has sections."""

    def bytes_of(self, name: str) -> memoryview:
        """The bytes of the section of this name; none where there is no such section."""


class Reader:
    """A place in some bytes, from which numbers are read one behind the other."""

    def __init__(self, data: Union[bytes, memoryview], at: int = 0) -> None:
        self.data, self.at = data, at

    def number(self, size: int) -> int:
        at, self.at = self.at, self.at + size
        if self.at > len(self.data):
            raise ValueError("it ends within a number")
        return int.from_bytes(self.data[at : self.at], "little")

    def uleb(self) -> int:
        value = shift = 0
        while True:
            byte = self.number(1)
            value |= (byte & 127) << shift
            shift += 7
            if not byte & 128:
                return value
            if shift > 70:
                raise ValueError("a number is too long")

    def text(self) -> bytes:
        for most in (KEPT_TEXT, LONGEST_TEXT):
            raw = bytes(self.data[self.at : self.at + most])
            size = raw.find(b"\0")
            if size >= 0:
                self.at += size + 1
                return raw[: min(size, KEPT_TEXT)]
        raise ValueError("a text has no end")


class Unit:
    """A unit's header, and attributes of its first entry by their numbers."""

    def __init__(self, units: "Units", at: int) -> None:
        self.at, self.units = at, units
        self.version: int
        length, self.version = struct.unpack_from("<IH", units.info, at)
        self.word, behind = 4, at + 4
        if length == 0xFFFFFFFF:
            length, self.version = struct.unpack_from("<QH", units.info, at + 4)
            self.word, behind = 8, at + 12
        self.end: int = behind + length
        if self.end > len(units.info):
            raise ValueError("a unit passes the section's end")
        is_known = self.version in (2, 3, 4, 5)
        self.facts: Dict[int, Value] = self.read_entry(Reader(units.info, behind + 2)) if is_known else {}

    def read_entry(self, read: Reader) -> Dict[int, Value]:
        """The attributes by which the producer is known. As a rule they come first, and what follows is not read."""
        if self.version == 5:
            kind, _, table = read.number(1), read.number(1), read.number(self.word)
            read.at += {4: 8, 5: 8, 2: 8, 6: 8 + self.word}.get(kind, 0)
        else:
            table, _ = read.number(self.word), read.number(1)
        looks = 0
        facts: Dict[int, Value] = {}
        for looks, (name, form, constant) in enumerate(self.units.abbreviation(table, read.uleb()), 1):
            value = self.value(read, form, constant)
            if name in (PRODUCER, OFFSETS_BASE):
                facts.setdefault(name, value)
                if PRODUCER in facts and (OFFSETS_BASE in facts or facts[PRODUCER].form not in STRX):
                    break
        self.units.looks -= looks
        return facts

    def value(self, read: Reader, form: int, constant: Optional[int] = None) -> Value:
        """The value that begins where the reader is, which goes past it."""
        if form == 0x16:
            form = read.uleb()
        if form in FIXED:
            return Value(form, read.number(FIXED[form]) if FIXED[form] else constant or 0)
        if form in WORDS:
            return Value(form, read.number(self.word))
        if form in NUMBERS:
            return Value(form, read.uleb())
        if form == STRING:
            return Value(form, read.text())
        if form in (0x09, 0x18):
            size = read.uleb()
        else:
            size, = struct.unpack_from(BLOCKS[form], read.data, read.at)
            read.at += struct.calcsize(BLOCKS[form])
        read.at += size
        return Value(form, None)

    def text(self, name: int) -> str:
        """The text of an attribute, or ""."""
        form, value = self.facts.get(name, Value(0, None))
        if isinstance(value, bytes):
            return text_of(value)
        if value is None:
            return ""
        if form in (STRP, LINE_STRP):
            held = self.units.bytes_of(".debug_str" if form == STRP else ".debug_line_str")
            return text_of(Reader(held, value).text())
        if form in STRX:
            base = self.facts.get(OFFSETS_BASE, Value(0, 2 * self.word)).said
            if not isinstance(base, int):
                raise ValueError("the base of its texts is no number")
            offset = Reader(self.units.bytes_of(".debug_str_offsets"), base + value * self.word).number(self.word)
            return text_of(Reader(self.units.bytes_of(".debug_str"), offset).text())
        return ""


class Units:
    """The units of a file."""

    def __init__(self, elf: Sections) -> None:
        self.elf = elf
        self.cache: Dict[str, memoryview] = {}
        self.rows: Dict[Tuple[int, int], List[Attribute]] = {}
        self.info = self.bytes_of(".debug_info")
        # No unit needs bytes of the tables again that another one has read: tables that overlap end it.
        self.left = 4 * len(self.bytes_of(".debug_abbrev")) + LONGEST_TEXT
        self.looks = MOST_LOOKS

    def bytes_of(self, name: str) -> memoryview:
        if name not in self.cache:
            self.cache[name] = self.elf.bytes_of(name)
        return self.cache[name]

    def abbreviation(self, at: int, wanted: int) -> List[Attribute]:
        """The attributes that a table says of entries with a code; none where it has no such code."""
        if (at, wanted) not in self.rows:
            read = Reader(self.bytes_of(".debug_abbrev"), at)
            while True:
                start, code = read.at, read.uleb()
                row = self.attributes(read) if code else []
                self.left -= read.at - start
                if self.left < 0:
                    raise ValueError("tables of abbreviations overlap")
                if code in (0, wanted):
                    break
            self.rows[at, wanted] = row
        return self.rows[at, wanted]

    @staticmethod
    def attributes(read: Reader) -> List[Attribute]:
        """The rest of an abbreviation after its code."""
        read.uleb(), read.number(1)
        row: List[Attribute] = []
        while len(row) <= MOST_ATTRIBUTES:
            name, form = read.uleb(), read.uleb()
            constant = read.uleb() if form == 0x21 else None
            if not name and not form:
                return row
            row.append(Attribute(name, form, constant))
        raise ValueError("an entry has too many attributes")

    def each(self) -> Iterator[Unit]:
        """The units from first to last; it ends at one that is damaged, or where too much was looked at."""
        at = 0
        while at < len(self.info) and self.looks > 0:
            self.looks -= LOOKS_OF_UNIT
            try:
                unit = Unit(self, at)
            except (struct.error, ValueError, KeyError, IndexError, OverflowError):
                return
            yield unit
            at = unit.end

    def producers(self) -> Counter[str]:
        """For each text of DW_AT_producer how many bytes of units it made."""
        found: Counter[str] = collections.Counter()
        for unit in self.each():
            text = unit.text(PRODUCER)
            if text:
                found[text] += unit.end - unit.at
        return found
