"""Debugging information that says which block an address is in: functions, and a line for each of their blocks.

It is of DWARF 4 (the standard's sections are named below), one unit, with all addresses those of the program's file.
"""
import collections
import re
import struct
from typing import Counter, Dict, Iterable, List, NamedTuple, Sequence, Tuple

from pgo_tools.texts.names import raw_of

PRODUCER = b"contrib/lined: a line for each block; the profile is not for clang"
FILE = b"blocks"
# What a profile's line of a function cannot hold (docs/FORMATS.md, "Names of entries"); LLVM takes [ for another kind.
UNHELD, UNLED = re.compile(r"[\x00-\x20\x7f:]"), re.compile(r"[#!\[0-9]|$")

# 7.5.3, 7.5.4 and 7.5.5: the numbers of what an entry is, of its attributes, and of the forms of their values.
COMPILE_UNIT, SUBPROGRAM = 0x11, 0x2E
NAME, STMT_LIST, LOW_PC, HIGH_PC, LANGUAGE = 3, 0x10, 0x11, 0x12, 0x13
PRODUCED_BY, DECL_FILE, DECL_LINE, RANGES = 0x25, 0x3A, 0x3B, 0x55
ADDRESS, DATA8, STRING, DATA1, SEC_OFFSET = 1, 7, 8, 0xB, 0x17
C99 = 0xC
UNIT, WHOLE, DIVIDED = 1, 2, 3
# 6.2.5: a line program's opcodes. A special one goes one line on, and as many addresses as it is above OPCODE_BASE.
COPY, ADVANCE_PC, ADVANCE_LINE, OPCODE_BASE = 1, 2, 3, 13
END_SEQUENCE, SET_ADDRESS = 1, 2


# Addresses from the first up to the second, which is not of them.
Stretch = Tuple[int, int]


class Function(NamedTuple):
    """A function: its name in the debugging information, and its blocks in their order."""

    name: str
    blocks: Sequence[Stretch]


class Piece(NamedTuple):
    """Blocks of a function that follow each other without a gap: their addresses, and their numbers in their order."""

    low: int
    high: int
    numbers: List[int]


def uleb(value: int) -> bytes:
    """An unsigned LEB128 (7.6)."""
    out = bytearray()
    while value > 127:
        out.append(value & 127 | 128)
        value >>= 7
    out.append(value)
    return bytes(out)


def sleb(value: int) -> bytes:
    """A signed LEB128 (7.6)."""
    out = bytearray()
    while not -64 <= value < 64:
        out.append(value & 127 | 128)
        value >>= 7
    out.append(value & 127)
    return bytes(out)


def held_name(name: str) -> str:
    """The name as a profile can hold it."""
    told = UNHELD.sub("_", name)
    return f"_{told}" if UNLED.match(told) else told


def own_names(functions: Sequence[Tuple[str, int]]) -> List[str]:
    """A name of its own for each (name, address): the name itself, or with the address.

    The name itself stays where a profile can hold it and no other function has it.
    """
    held = [held_name(name) for name, _ in functions]
    times: Counter[str] = collections.Counter(held)
    taken = {name for name in times if times[name] == 1}
    names = []
    for name, (_, address) in zip(held, functions):
        if times[name] > 1:
            wanted, number = f"{name}@{address:#x}", 2
            while wanted in taken:
                wanted, number = f"{name}@{address:#x}.{number}", number + 1
            taken.add(wanted)
            name = wanted
        names.append(name)
    return names


def pieces_of(blocks: Sequence[Stretch]) -> List[Piece]:
    """The pieces that the blocks make. The first one begins at block 0."""
    pieces: List[Piece] = []
    for number in sorted(range(len(blocks)), key=blocks.__getitem__):
        low, high = blocks[number]
        if pieces and pieces[-1].high == low and number:
            pieces[-1] = Piece(pieces[-1].low, high, pieces[-1].numbers)
            pieces[-1].numbers.append(number)
        else:
            pieces.append(Piece(low, high, [number]))
    return sorted(pieces, key=lambda piece: (piece.numbers[0] != 0, piece.low))


def abbreviations() -> bytes:
    """The bytes of `.debug_abbrev` (7.5.3): a unit, a function that is one piece, and one that is several."""
    def entry(code: int, tag: int, children: int, *pairs: Tuple[int, int]) -> bytes:
        said = b"".join(uleb(name) + uleb(form) for name, form in pairs)
        return uleb(code) + uleb(tag) + bytes([children]) + said + b"\0\0"
    told = (NAME, STRING), (DECL_FILE, DATA1), (DECL_LINE, DATA1)
    return (entry(UNIT, COMPILE_UNIT, 1, (PRODUCED_BY, STRING), (LANGUAGE, DATA1), (NAME, STRING),
                  (STMT_LIST, SEC_OFFSET), (LOW_PC, ADDRESS), (RANGES, SEC_OFFSET))
            + entry(WHOLE, SUBPROGRAM, 0, *told, (LOW_PC, ADDRESS), (HIGH_PC, DATA8))
            + entry(DIVIDED, SUBPROGRAM, 0, *told, (RANGES, SEC_OFFSET)) + b"\0")


def range_list(ranges: Iterable[Stretch]) -> bytes:
    """A list of `.debug_ranges` (2.17.3); the unit's base is 0, so that its addresses are whole ones."""
    return b"".join(struct.pack("<QQ", *each) for each in ranges) + bytes(16)


def sequence(program: bytearray, piece: Piece, blocks: Sequence[Stretch]) -> None:
    """Adds the rows of one piece (6.2.5): a line for each of its blocks, the first block's being line 1."""
    program += b"\0\x09" + bytes([SET_ADDRESS]) + struct.pack("<Q", piece.low)
    at, line = piece.low, 1
    for number in piece.numbers:
        gap, step = blocks[number][0] - at, number + 1 - line
        if step == 1 and gap < 256 - OPCODE_BASE:
            program.append(OPCODE_BASE + gap)
        else:
            program += bytes([ADVANCE_PC]) + uleb(gap) + bytes([ADVANCE_LINE]) + sleb(step) + bytes([COPY])
        at, line = blocks[number][0], number + 1
    program += bytes([ADVANCE_PC]) + uleb(piece.high - at) + bytes([0, 1, END_SEQUENCE])


def with_length(rest: bytes) -> bytes:
    """A unit's length, and the unit (7.4, 32-bit DWARF)."""
    return struct.pack("<I", len(rest)) + rest


def line_section(program: bytes) -> bytes:
    """`.debug_line`: one line program's header, of one file, and the program (6.2.4)."""
    operands = bytes([0, 1, 1, 1, 1, 0, 0, 0, 1, 0, 0, 1])
    # An instruction's least length, operations an instruction, is_stmt; lines of special opcodes: from 1 on, 1 of them.
    head = struct.pack("<BBBbBB", 1, 1, 1, 1, 1, OPCODE_BASE) + operands + b"\0" + FILE + b"\0\0\0\0" + b"\0"
    return with_length(struct.pack("<HI", 4, len(head)) + head + program)


def sections(functions: Iterable[Function], covered: Iterable[Stretch]) -> Dict[str, bytes]:
    """The sections by name. `covered` are the stretches of addresses in which the program's code stands."""
    ranges, program = bytearray(range_list(covered)), bytearray()
    entries = bytearray(uleb(UNIT) + PRODUCER + b"\0" + bytes([C99]) + FILE + b"\0" + struct.pack("<IQI", 0, 0, 0))
    for function in functions:
        pieces = pieces_of(function.blocks)
        told = raw_of(function.name) + b"\0" + bytes([1, 1])
        if len(pieces) == 1:
            low, high, _ = pieces[0]
            entries += uleb(WHOLE) + told + struct.pack("<QQ", low, high - low)
        else:
            entries += uleb(DIVIDED) + told + struct.pack("<I", len(ranges))
            ranges += range_list((piece.low, piece.high) for piece in pieces)
        for piece in pieces:
            sequence(program, piece, function.blocks)
    info = with_length(struct.pack("<HIB", 4, 0, 8) + bytes(entries) + b"\0")
    return {".debug_abbrev": abbreviations(), ".debug_info": info, ".debug_line": line_section(bytes(program)),
            ".debug_ranges": bytes(ranges)}
