#!/usr/bin/env python3
"""make.py CASE SIZE FILE: writes an input that is meant to be slow, deep or large to read, of about SIZE pieces.

Each case says what its pieces are. The binaries are ELF files with one executable segment from 0x401000 on, and have
only the sections that are read. Source: DWARF 4 and 5, section 7; System V gABI.
"""
import struct
import sys
from typing import Callable, List

CODE = 0x401000


def uleb(n):
    out = bytearray()
    while n > 0x7F:
        out.append(n & 0x7F | 0x80)
        n >>= 7
    out.append(n)
    return bytes(out)


def sleb(n):
    out = bytearray()
    while not -64 <= n < 64:
        out.append(n & 0x7F | 0x80)
        n >>= 7
    out.append(n & 0x7F)
    return bytes(out)


def elf(sections, code_size):
    """The file with these sections, (name, bytes) each, and so many bytes of code in its one segment."""
    names = b"\0" + b"".join(name + b"\0" for name, _ in sections) + b".shstrtab\0"
    sections = sections + [(b".shstrtab", names)]
    at = 64 + 56
    body, headers, name_at = [], [bytes(64)], 1
    for name, data in sections:
        kind = 3 if name == b".shstrtab" else 1
        headers.append(struct.pack("<IIQQQQIIQQ", name_at, kind, 0, 0, at, len(data), 0, 0, 1, 0))
        body.append(data)
        at += len(data)
        name_at += len(name) + 1
    count = len(headers)
    head = b"\x7fELF\x02\x01\x01" + bytes(9) + struct.pack(
        "<HHIQQQIHHHHHH", 2, 0x3E, 1, 0, 64, at, 0, 64, 56, 1, 64, count, count - 1
    )
    segment = struct.pack("<IIQQQQQQ", 1, 5, 0, CODE, CODE, 0, code_size, 0x1000)
    return b"".join([head, segment, *body, *headers])


def unit(entries, abbrev=0):
    """A version 4 unit."""
    body = struct.pack("<HIB", 4, abbrev, 8) + entries
    return struct.pack("<I", len(body)) + body


def abbreviation(code, tag, children, *attrs):
    pairs = b"".join(uleb(name) + uleb(form) for name, form in attrs)
    return uleb(code) + uleb(tag) + bytes([children]) + pairs + b"\0\0"


def line_program(code):
    """A version 4 program: instructions of 1 byte, line_base -5, line_range 14, opcode_base 13."""
    behind = bytes([1, 1, 1, 0xFB, 14, 13, 0, 1, 1, 1, 1, 0, 0, 0, 1, 0, 0, 1, 0, 0])
    body = struct.pack("<HI", 4, len(behind)) + behind + code
    return struct.pack("<I", len(body)) + body


def set_address(address):
    return b"\0\x09\x02" + struct.pack("<Q", address)


END = b"\0\x01\x01"
NAME, STMT_LIST, LOW, HIGH, RANGES = 0x03, 0x10, 0x11, 0x12, 0x55
ORIGIN, DECL_LINE, CALL_LINE = 0x31, 0x3B, 0x59
ADDR, DATA2, DATA4, STRING, STRP, UDATA, REF4, OFFSET = 0x01, 0x05, 0x06, 0x08, 0x0E, 0x0F, 0x13, 0x17
ROOT = abbreviation(1, 0x11, 1)
ROOT_WITH_LINES = abbreviation(1, 0x11, 1, (STMT_LIST, OFFSET))
FUNCTION = ((NAME, STRING), (DECL_LINE, UDATA), (LOW, ADDR), (HIGH, DATA4))


def binary(abbrevs, units, code_size, **others):
    sections = [(b".debug_abbrev", abbrevs), (b".debug_info", units)]
    sections += [(b".debug_" + name.encode(), data) for name, data in others.items()]
    return elf(sections, code_size)


def small(n):
    """A binary of n functions, each with a call that was inlined."""
    abbrevs = b"\x01\x11\x01\x10\x17\0\0\x02\x2e\0\x03\x08\x3b\x0b\0\0"
    abbrevs += b"\x03\x2e\x01\x03\x08\x3b\x05\x11\x01\x12\x06\0\0"
    abbrevs += b"\x04\x1d\0\x31\x13\x11\x01\x12\x06\x59\x05\xb6\x42\x0b\0\0\0"
    entries, lines = b"\x01\0\0\0\0\x02g\0\x05", b""
    for k in range(n):
        at = CODE + 0x40 * k
        entries += b"\x03f%04d\0" % k + struct.pack("<HQI", 10, at, 0x40)
        entries += b"\x04" + struct.pack("<IQIHB", 16, at + 0x10, 0x10, 12, 1) + b"\0"
        lines += set_address(at) + bytes.fromhex("030901837d00020402f8f3021000 0101".replace(" ", ""))
    return binary(abbrevs, unit(entries + b"\0"), 0x40 * n, line=line_program(lines))


def abbreviations(n):
    """n abbreviations whose codes are far apart and in no order."""
    codes = [1] + [1 + (k * 0x9E3779B97F4A7C15 & 2**64 - 1 | 2**62) for k in range(1, n)]
    table = b"".join(abbreviation(code, 0x2E, 0) for code in codes) + b"\0"
    return binary(table, unit(b"".join(uleb(code) for code in codes[:1000])), 0x1000)


def shared_table(n, units=None):
    """n units, or so many, and one table of n abbreviations that each of them refers to."""
    table = b"".join(abbreviation(code, 0x11, 0) for code in range(1, n + 1)) + b"\0"
    return binary(table, unit(b"\x01") * (units or n), 0x1000)


def tails_of_a_table(n):
    """n units, each of which refers to another tail of one table of n abbreviations."""
    each = [abbreviation(code, 0x11, 0) for code in range(1, n + 1)]
    starts, at = [], 0
    for one in each:
        starts.append(at)
        at += len(one)
    units = b"".join(unit(uleb(k + 1), starts[k]) for k in range(n))
    return binary(b"".join(each) + b"\0", units, 0x1000)


def tails_of_a_list(n):
    """n units, each of which refers to another tail of one list of n attributes."""
    table = b"\x01\x01\x01" + b"\x01\x01" * n + b"\0\0\0"
    return binary(table, b"".join(unit(b"\0", 2 * k) for k in range(n)), 0x1000)


def origins(n):
    """A unit of n functions, each of which refers to the next; every 17th has a name and no origin."""
    abbrevs = ROOT + abbreviation(2, 0x2E, 0, (NAME, STRING)) + abbreviation(3, 0x2E, 0, (ORIGIN, REF4))
    abbrevs += abbreviation(4, 0x2E, 0, (ORIGIN, REF4), (LOW, ADDR), (HIGH, DATA4)) + b"\0"
    entries, at = [b"\x01"], 12
    for k in range(n):
        if k % 17 == 0:
            entries.append(b"\x02f\0")
            before, at = at, at + 3
        elif k % 17 < 16:
            entries.append(b"\x03" + struct.pack("<I", before))
            before, at = at, at + 5
        else:
            entries.append(b"\x04" + struct.pack("<IQI", before, CODE + k, 1))
            before, at = at, at + 17
    return binary(abbrevs + b"\0", unit(b"".join(entries)), n)


def far_origins(n):
    """A function by 15 origins, and n functions that refer to it, so that the way of each has 16 steps."""
    abbrevs = ROOT + abbreviation(2, 0x2E, 0, (NAME, STRING)) + abbreviation(3, 0x2E, 0, (ORIGIN, REF4))
    abbrevs += abbreviation(4, 0x2E, 0, (ORIGIN, REF4), (LOW, ADDR), (HIGH, DATA4)) + b"\0"
    entries, at, before = b"\x01\x02f\0", 15, 12
    for _ in range(15):
        entries += b"\x03" + struct.pack("<I", before)
        before, at = at, at + 5
    entries += b"".join(b"\x04" + struct.pack("<IQI", before, CODE + k, 1) for k in range(n))
    return binary(abbrevs, unit(entries), n)


def range_lists(n):
    """n functions that all have the one list of 65,536 ranges."""
    abbrevs = abbreviation(1, 0x11, 1, (LOW, ADDR)) + abbreviation(2, 0x2E, 0, (NAME, STRING), (RANGES, OFFSET)) + b"\0"
    pairs = b"".join(struct.pack("<QQ", CODE + 2 * k, CODE + 2 * k + 1) for k in range(65536)) + bytes(16)
    entries = b"\x01" + bytes(8) + b"".join(b"\x02f%d\0" % k + bytes(4) for k in range(n))
    return binary(abbrevs, unit(entries), 1 << 18, ranges=pairs)


def dead_range_lists(n):
    """n functions that all have the one list of 65,536 ranges, none of which is code."""
    abbrevs = abbreviation(1, 0x11, 1, (LOW, ADDR)) + abbreviation(2, 0x2E, 0, (NAME, STRING), (RANGES, OFFSET)) + b"\0"
    pairs = struct.pack("<QQ", 1, 2) * 65536 + bytes(16)
    entries = b"\x01" + bytes(8) + b"".join(b"\x02f\0" + bytes(4) for k in range(n))
    return binary(abbrevs, unit(entries), 1 << 18, ranges=pairs)


def overlapping_ranges(n):
    """32 functions with n ranges each, of which each overlaps nearly all others."""
    abbrevs = abbreviation(1, 0x11, 1, (LOW, ADDR)) + abbreviation(2, 0x2E, 0, (NAME, STRING), (RANGES, OFFSET)) + b"\0"
    lists = b"".join(
        b"".join(struct.pack("<QQ", CODE + 32 * k + f, CODE + 64 * n - 32 * k - f) for k in range(n)) + bytes(16)
        for f in range(32)
    )
    entries = b"\x01" + bytes(8)
    entries += b"".join(b"\x02f%d\0" % f + struct.pack("<I", f * (16 * n + 16)) for f in range(32))
    return binary(abbrevs, unit(entries), 64 * n, ranges=lists)


def nested_functions(n):
    """n functions that all hold one address, of which each is a byte smaller than the one before."""
    abbrevs = ROOT + abbreviation(2, 0x2E, 0, *FUNCTION) + b"\0"
    entries = b"\x01" + b"".join(
        b"\x02f%d\0\x05" % k + struct.pack("<QI", CODE + k, 2 * (n - k)) for k in range(n)
    )
    return binary(abbrevs, unit(entries), 2 * n)


def nested_calls(n):
    """n functions with inlined calls that are 254 deep and all hold one address."""
    abbrevs = ROOT_WITH_LINES + abbreviation(2, 0x2E, 1, *FUNCTION)
    abbrevs += abbreviation(3, 0x1D, 1, (ORIGIN, REF4), (LOW, ADDR), (HIGH, DATA4), (CALL_LINE, DATA2)) + b"\0"
    entries = [b"\x01" + bytes(4)]
    for k in range(n):
        at = CODE + 1024 * k
        entries.append(b"\x02f\0\x05" + struct.pack("<QI", at, 1024))
        entries += [b"\x03" + struct.pack("<IQIH", 16, at + d, 1024 - 2 * d, 5 + d) for d in range(1, 255)]
        entries.append(bytes(255))
    lines = set_address(CODE) + b"\x03\x09\x01" + b"\x02" + uleb(1024 * n) + END
    return binary(abbrevs, unit(b"".join(entries)), 1024 * n, line=line_program(lines))


def deep(n, ranges=None):
    """A function of n bytes with 254 inlined calls of as many, each within the one before, and a row for each address."""
    where = ((LOW, ADDR), (HIGH, DATA4)) if ranges is None else ((RANGES, OFFSET),)
    spelled = struct.pack("<QI", CODE, n) if ranges is None else bytes(4)
    abbrevs = abbreviation(1, 0x11, 1, (STMT_LIST, OFFSET), (LOW, ADDR))
    abbrevs += abbreviation(2, 0x2E, 1, (NAME, STRING), (DECL_LINE, UDATA), *where)
    abbrevs += abbreviation(3, 0x1D, 1, (ORIGIN, REF4), *where, (CALL_LINE, DATA2)) + b"\0"
    entries = b"\x01" + bytes(12) + b"\x02f\0\x05" + spelled
    entries += b"".join(b"\x03" + struct.pack("<I", 24) + spelled + struct.pack("<H", 5 + d) for d in range(254))
    lines = set_address(CODE) + b"\x03\x01\x01\x02\x01" * n + END
    others = {"line": line_program(lines)}
    if ranges is not None:
        others["ranges"] = ranges
    return binary(abbrevs, unit(entries), n, **others)


def deep_lines(n):
    """254 inlined calls around n addresses, each with a line of its own."""
    return deep(n)


def deep_ranges(n):
    """254 inlined calls, each with the one list of n ranges."""
    pairs = b"".join(struct.pack("<QQ", CODE + 2 * k, CODE + 2 * k + 1) for k in range(n)) + bytes(16)
    return deep(2 * n, ranges=pairs)


def calls(n):
    """A function with n inlined calls, each within the one before."""
    abbrevs = ROOT + abbreviation(2, 0x2E, 1, *FUNCTION)
    abbrevs += abbreviation(3, 0x1D, 1, (ORIGIN, REF4), (LOW, ADDR), (HIGH, DATA4)) + b"\0"
    entries = b"\x01\x02f\0\x05" + struct.pack("<QI", CODE, 16)
    entries += b"".join(b"\x03" + struct.pack("<IQI", 12, CODE, 16) for _ in range(n))
    return binary(abbrevs, unit(entries), 16)


def entries(n):
    """A unit of n entries of a byte."""
    return binary(ROOT + abbreviation(2, 0x34, 0) + b"\0", unit(b"\x01" + b"\x02" * (n - 1)), 16)


def steps(n):
    """A function whose name is n steps away."""
    abbrevs = ROOT + abbreviation(2, 0x2E, 0, (NAME, STRING)) + abbreviation(3, 0x2E, 0, (ORIGIN, REF4))
    abbrevs += abbreviation(4, 0x2E, 0, (ORIGIN, REF4), (LOW, ADDR), (HIGH, DATA4)) + b"\0"
    body, at, before = b"\x01\x02f\0", 15, 12
    for _ in range(n - 1):
        body += b"\x03" + struct.pack("<I", before)
        before, at = at, at + 5
    return binary(abbrevs, unit(body + b"\x04" + struct.pack("<IQI", before, CODE, 1)), 1)


def ranges(n):
    """A function with n ranges."""
    abbrevs = abbreviation(1, 0x11, 1, (LOW, ADDR)) + abbreviation(2, 0x2E, 0, (NAME, STRING), (RANGES, OFFSET)) + b"\0"
    pairs = b"".join(struct.pack("<QQ", CODE + 2 * k, CODE + 2 * k + 1) for k in range(n)) + bytes(16)
    return binary(abbrevs, unit(b"\x01" + bytes(8) + b"\x02f\0" + bytes(4)), 2 * n, ranges=pairs)


def depth(n):
    """Entries n deep, at the innermost of which a function stands."""
    abbrevs = ROOT + abbreviation(2, 0x0B, 1) + abbreviation(3, 0x2E, 0, *FUNCTION) + b"\0"
    entries = b"\x01" + b"\x02" * (n - 1) + b"\x03f\0\x05" + struct.pack("<QI", CODE, 16)
    return binary(abbrevs, unit(entries), 16)


def with_lines(code, size):
    abbrevs = ROOT_WITH_LINES + abbreviation(2, 0x2E, 0, *FUNCTION) + b"\0"
    entries = b"\x01" + bytes(4) + b"\x02f\0\x05" + struct.pack("<QI", CODE, size)
    return binary(abbrevs, unit(entries), size, line=line_program(code))


def repeated_rows(n):
    """A sequence of n rows at one address."""
    return with_lines(set_address(CODE) + b"\x01\x03\x01" * n + b"\x02\x10" + END, 16)


def repeated_sequences(n):
    """n sequences over the same addresses."""
    return with_lines((set_address(CODE) + b"\x03\x09\x01\x02\x10" + END) * n, 16)


def nested_sequences(n):
    """n sequences, each of which begins a byte behind the one before and ends a byte ahead of it."""
    one = (set_address(CODE + k) + b"\x03\x09\x01\x02" + uleb(2 * (n - k)) + END for k in range(n))
    return with_lines(b"".join(one), 2 * n)


def shared_lines(n):
    """n units that all have the one line program of n rows."""
    rows = set_address(CODE) + b"\x03\x01\x01\x02\x01" * n + END
    abbrevs = abbreviation(1, 0x11, 0, (STMT_LIST, OFFSET)) + b"\0"
    return binary(abbrevs, unit(b"\x01" + bytes(4)) * n, n + 1, line=line_program(rows))


def shared_lines_without_rows(n):
    """n units that all have the one line program of n operations that make no row."""
    abbrevs = abbreviation(1, 0x11, 0, (STMT_LIST, OFFSET)) + b"\0"
    return binary(abbrevs, unit(b"\x01" + bytes(4)) * n, n + 1, line=line_program(b"\x02\x01" * n))


def functions(names, size, strings=None):
    form = STRING if strings is None else STRP
    abbrevs = ROOT + abbreviation(2, 0x2E, 0, (NAME, form), (DECL_LINE, UDATA), (LOW, ADDR), (HIGH, DATA4)) + b"\0"
    entries = b"\x01" + b"".join(
        b"\x02" + name + b"\x05" + struct.pack("<QI", CODE + 4 * k, 4) for k, name in enumerate(names)
    )
    others = {} if strings is None else {"str": strings}
    return binary(abbrevs, unit(entries), size, **others)


def long_names(n):
    """n functions whose names have one beginning of 200 bytes."""
    return functions([b"n" * 200 + b"%07d\0" % k for k in range(n)], 4 * n)


def tails_of_a_name(n):
    """n functions whose names are the tails of one text of n bytes."""
    return functions([struct.pack("<I", k) for k in range(n)], 4 * n, b"n" * n + b"\0")


def section_names(n):
    """n section headers that all have one name, of 64 n bytes."""
    name = 120
    head = b"\x7fELF\x02\x01\x01" + bytes(9) + struct.pack(
        "<HHIQQQIHHHHHH", 2, 0x3E, 1, 0, 64, name + 64 * n + 1, 0, 64, 56, 1, 64, 0, 1
    )
    segment = struct.pack("<IIQQQQQQ", 1, 5, 0, CODE, CODE, 0, 16, 0x1000)
    first = struct.pack("<IIQQQQIIQQ", 0, 0, 0, 0, 0, n + 2, 0, 0, 0, 0)
    table = struct.pack("<IIQQQQIIQQ", 0, 3, 0, 0, name, 64 * n + 1, 0, 0, 1, 0)
    other = struct.pack("<IIQQQQIIQQ", 0, 1, 0, 0, name, 0, 0, 0, 1, 0)
    return head + segment + b"n" * (64 * n) + b"\0" + first + table + other * n


def segments(n):
    """Up to 65,534 segments, of which the last alone is code, and n functions."""
    made = functions([b"f\0"] * n, 4 * n)
    count = min(n, 65534)
    end = len(made)
    other = struct.pack("<IIQQQQQQ", 1, 5, 0, 1, 1, 0, 1, 0x1000)
    headers = other * (count - 1) + made[64:120]
    head = made[:32] + struct.pack("<Q", end) + made[40:56] + struct.pack("<H", count) + made[58:64]
    return head + made[64:] + headers


def empty_attributes(n):
    """n entries of a byte, whose abbreviation has n attributes that take no bytes."""
    table = ROOT + abbreviation(2, 0x2E, 0, *[(0x3F, 0x19)] * n) + b"\0"
    return binary(table, unit(b"\x01" + b"\x02" * n), 16)


def high_branches(n):
    """A text of n branches that differ in their highest bits alone."""
    return b"".join(b"0x%x/0x1\n" % (k << 40) for k in range(n))


def new_branches(n):
    """A text of n branches of which each is new."""
    return b"".join(
        b"%x 0x%x/0x%x/P/-/-/1\n" % (CODE, k * 0x9E3779B97F4A7C15 & 2**64 - 1, CODE + k) for k in range(n)
    )


def folded(a, b):
    product = a * b
    return product & 2**64 - 1 ^ product >> 64


def colliding_branches(n, keyed=False):
    """A text of n branches whose pairs all have one hash, by the fixed seed of the library's hasher, or with a key of 0 in front."""
    seed, multiplier = 0x243F6A8885A308D3, 0x9E3779B97F4A7C15 ^ 16
    seed = folded(seed, multiplier) if keyed else seed
    return b"".join(b"0x%x/0x%x\n" % (k, folded(seed ^ k, multiplier) ^ 1) for k in range(n))


def ascending_branches(n):
    """A text of n branches of which each is new, in their order."""
    return b"".join(b"0x%x/0x%x\n" % (CODE + k, CODE + k) for k in range(n))


def full_lines(n):
    """A text of n lines with 1,024 entries each."""
    return b"".join(b" ".join(b"0x%x/0x%x" % (CODE + (k * i) % 977, CODE + i) for i in range(1024)) + b"\n" for k in range(n))


def lined_functions(n, names=None):
    """A binary of n functions of 16 bytes, each with a row at its start and one 8 bytes behind it."""
    names = names or [b"f%d\0" % k for k in range(n)]
    abbrevs = ROOT_WITH_LINES + abbreviation(2, 0x2E, 0, *FUNCTION) + b"\0"
    entries = b"\x01" + bytes(4) + b"".join(
        b"\x02" + name + b"\x05" + struct.pack("<QI", CODE + 16 * k, 16) for k, name in enumerate(names)
    )
    rows = set_address(CODE) + b"\x03\x09\x01" + b"\x02\x08\x03\x01\x01" * (2 * n - 1) + b"\x02\x08" + END
    return binary(abbrevs, unit(entries), 16 * n, line=line_program(rows))


def alike_functions(n):
    """The same with names that have one beginning of 200 bytes."""
    return lined_functions(n, [b"n" * 200 + b"%07d\0" % k for k in range(n)])


def lined_addresses(n):
    """A function of n bytes with a row for each of them."""
    return with_lines(set_address(CODE) + b"\x03\x09\x01\x02\x01" * n + END, n)


def deep_line(n):
    """A function of n bytes in one line, with 254 inlined calls of as many bytes, and a function behind it."""
    abbrevs = ROOT_WITH_LINES + abbreviation(2, 0x2E, 1, *FUNCTION)
    abbrevs += abbreviation(3, 0x1D, 1, (ORIGIN, REF4), (LOW, ADDR), (HIGH, DATA4), (CALL_LINE, DATA2))
    abbrevs += abbreviation(4, 0x2E, 0, *FUNCTION) + b"\0"
    body = b"\x01" + bytes(4) + b"\x02f\0\x05" + struct.pack("<QI", CODE, n)
    body += b"".join(b"\x03" + struct.pack("<IQIH", 16, CODE, n, 5 + d) for d in range(254)) + bytes(255)
    body += b"\x04g\0\x05" + struct.pack("<QI", CODE + n, 16)
    lines = set_address(CODE) + b"\x03\x09\x01" + b"\x02" + uleb(n + 16) + END
    return binary(abbrevs, unit(body), n + 16, line=line_program(lines))


def code_segments(n):
    """A function in the last of up to 65,534 segments of code."""
    made = with_lines(set_address(CODE) + b"\x03\x09\x01\x02\x10" + END, 16)
    count = min(n, 65534)
    end = len(made)
    other = struct.pack("<IIQQQQQQ", 1, 5, 1 << 40, 1, 1, 0, 1, 0x1000)
    head = made[:32] + struct.pack("<Q", end) + made[40:56] + struct.pack("<H", count) + made[58:64]
    return head + made[64:] + other * (count - 1) + made[64:120]


def load_line(start, size, name=b"/bin/x"):
    return b"x 7 PERF_RECORD_MMAP2 7/7: [0x%x(0x%x) @ 0 08:02 5 0]: r-xp %s\n" % (start, size, name)


# Where the code is loaded whose addresses are moved.
LOADED = 0x7F0000000000


def calls_of_each(n, at=CODE):
    """A text in which each of n functions of 16 bytes calls each of the next three."""
    out = []
    for k in range(n):
        of = [at + 16 * ((k + d) % n) for d in range(4)]
        out.append(b"0x%x/0x%x 0x%x/0x%x 0x%x/0x%x\n" % (of[0] + 9, of[3], of[0] + 9, of[2], of[0] + 9, of[1]))
    return b"".join(out)


def moved_calls(n):
    """The same text behind a load line."""
    return load_line(LOADED, 16 * n) + calls_of_each(n, LOADED)


def calls_to_one(n):
    """A text of n branches from as many addresses to the function behind them."""
    return b"".join(b"0x%x/0x%x\n" % (CODE + k, CODE + n) for k in range(n))


def ranges_within(n, at=CODE):
    """A text of n/2 ranges over n addresses, each within the one before."""
    return b"".join(b"0x%x/0x9 0x9/0x%x\n" % (at + n - 1 - k, at + k) for k in range(n // 2))


def moved_ranges_within(n):
    """The same text behind a load line."""
    return load_line(LOADED, n) + ranges_within(n, LOADED)


def ranges_from_one(n):
    """A text of n ranges that all begin at one address, over n addresses."""
    return b"".join(b"0x%x/0x9 0x9/0x%x\n" % (CODE + k, CODE) for k in range(n))


def one_range(n):
    """A text of one range over n addresses."""
    return b"0x%x/0x9 0x9/0x%x\n" % (CODE + n - 1, CODE)


def ranges_of_one(n):
    """A text of n ranges of one address, two addresses apart."""
    return b"".join(b"0x%x/0x9 0x9/0x%x\n" % (CODE + 2 * k, CODE + 2 * k) for k in range(n))


def ranges_of_kilobytes(n):
    """A text of n ranges over 1,024 addresses each."""
    return b"".join(b"0x%x/0x9 0x9/0x%x\n" % (CODE + 1024 * k + 1023, CODE + 1024 * k) for k in range(n))


def ranges_across(n):
    """A text of n ranges that each begin in one function of 16 bytes and end in another."""
    return b"".join(b"0x%x/0x9 0x9/0x%x\n" % (CODE + 16 * n - 1 - k, CODE + k) for k in range(n))


def calls_from_one(n):
    """A text of n branches from one line to n functions of 16 bytes."""
    return b"".join(b"0x%x/0x%x\n" % (CODE + 8, CODE + 16 * k) for k in range(n))


def foreign_branches(n):
    """A text of n branches between addresses that no function holds, of which each is new."""
    return b"".join(
        b"0x%x/0x%x 0x%x/0x%x\n" % (1 << 62 | k, k << 40 | 1, 1 << 61 | k, 1 << 60 | k) for k in range(n // 2)
    )


def loads_and_foreign_branches(n):
    """A text of n load lines, and behind them n branches between addresses that no load holds."""
    return b"".join(load_line(LOADED + 4096 * k, 4096) for k in range(n)) + foreign_branches(n)


def loads_of_others(n):
    """A text of a load line, n load lines of other files, and behind them n/2 ranges that the first one moves."""
    others = b"".join(load_line(LOADED + (1 << 40) + 4096 * k, 4096, b"/lib/%d" % k) for k in range(n))
    return load_line(LOADED, n) + others + ranges_within(n, LOADED)


def whole_machine(n):
    """A text of a load line, 10,000 load lines of other files, and behind them n branches of the kernel."""
    others = b"".join(load_line(LOADED + (1 << 40) + (k << 16), 0x4000, b"/lib/%d" % (k % 50)) for k in range(10000))
    kernel = [0xFFFFFFFF81000000 + (k * 0x9E3779B1 & 0x3FFFFF) for k in range(n + 1)]
    return load_line(LOADED, 0x1000) + others + b"".join(b"0x%x/0x%x\n" % pair for pair in zip(kernel, kernel[1:]))


def loads_between(n):
    """A text of n load lines over one place, each with a range behind it."""
    return b"".join(load_line(LOADED, n) + b"0x%x/0x9 0x9/0x%x\n" % (LOADED + k, LOADED) for k in range(n))


def branches_of_16(n):
    """A text of a load line, and n branches between its 16 addresses and foreign ones."""
    one = b"".join(b"0x%x/0x%x\n" % (LOADED + k, k) for k in range(16))
    return load_line(LOADED, 16) + one * (n // 16)


def function_text(name, blocks, edges, exits):
    """The lines of a function: blocks as (start, end), edges as pairs of numbers, the numbers of its exits."""
    out = [b"func %s\n" % name]
    out += [b"block %d 0x%x 0x%x%s\n" % (k, a, b, b" exit" * (k in exits)) for k, (a, b) in enumerate(blocks)]
    out += [b"edge %d %d\n" % edge for edge in edges]
    return b"".join(out) + b"end\n"


def bytes_from(start, n):
    return [(start + k, start + k + 1) for k in range(n)]


def wide_block(n):
    """A block text of a block of n addresses with edges to each of the n blocks behind it."""
    blocks = [(CODE, CODE + n)] + bytes_from(CODE + n, n)
    return function_text(b"f", blocks, [(0, k + 1) for k in range(n)], range(1, n + 1))


def branches_of_wide(n):
    """A text of 16 branches to each of these n blocks, from addresses of the block."""
    return b"".join(b"0x%x/0x%x\n" % (CODE + k * 7919 % n, CODE + n + (k + k // n) % n) for k in range(16 * n))


def alike_blocks(n):
    """A block text of n functions of one block over the same 16 addresses."""
    return b"".join(function_text(b"f%d" % k, [(CODE, CODE + 16)], [], {0}) for k in range(n))


def falling_blocks(n):
    """A block text of a chain of n blocks whose addresses fall."""
    blocks = [(CODE + n - 1 - k, CODE + n - k) for k in range(n)]
    return function_text(b"f", blocks, [(k, k + 1) for k in range(n - 1)], {n - 1})


def ladder_blocks(n):
    """A block text of a chain of n blocks, from each of which the program can go on at its neighbours on both sides."""
    edges = [edge for k in range(n - 1) for edge in ((k, k + 1), (k + 1, k))]
    return function_text(b"f", bytes_from(CODE, n), edges, {n - 1})


def grid_blocks(n):
    """A block text of some n blocks in a square, with edges to the right and down."""
    side = int(n**0.5)
    edges = [(side * y + x, side * y + x + 1) for y in range(side) for x in range(side - 1)]
    edges += [(side * y + x, side * y + x + side) for y in range(side - 1) for x in range(side)]
    return function_text(b"f", bytes_from(CODE, side * side), edges, {side * side - 1})


def called_ladder(n):
    """The ladder, whose first block ran 2^44 - 1 times or more."""
    return ladder_blocks(n).replace(b"\nblock 1 ", b" lo=%d\nblock 1 " % (2**44 - 1), 1)


def bounded(name, blocks, edges, exits, bounds):
    """The lines of a function of which blocks and edges have bounds, by their numbers and pairs."""
    lines = function_text(name, blocks, edges, exits).split(b"\n")
    keys = [None, *range(len(blocks)), *edges]
    return b"\n".join(line + b" " + bounds[key] if key in bounds else line for key, line in zip(keys, lines)) + b"\nend\n"


def bounded_grid(n):
    """A block text of an entry and some n blocks in a square, from whose first column ways lead to the right and down, to exits in
    the last one. Each edge out of the entry lets one unit through, and all of them are wanted: each needs a way of its own."""
    side = int(n**0.5)
    inner = lambda x, y: 1 + side * y + x
    first = [(0, inner(0, y)) for y in range(side)]
    edges = first + [(inner(x, y), inner(x + 1, y)) for y in range(side) for x in range(side - 1)]
    edges += [(inner(x, y), inner(x, y + 1)) for y in range(side - 1) for x in range(side)]
    exits = {inner(side - 1, y) for y in range(side)}
    blocks = bytes_from(CODE, side * side + 1)
    return bounded(b"f", blocks, edges, exits, {0: b"lo=%d" % side, **{edge: b"hi=1" for edge in first + edges}})


def nested_loops(n):
    """A block text of a chain of n blocks, of which each in the second half leads back to one in the first, the last to the first."""
    edges = [(k, k + 1) for k in range(n - 1)] + [(k, n - 1 - k) for k in range((n + 1) // 2, n)]
    return function_text(b"f", bytes_from(CODE, n), edges, {n - 1})


def bounded_ladder(n):
    """The ladder, whose first block, an exit, ran 2^44 - 1 times or more, while all others ran once at most."""
    edges = [edge for k in range(n - 1) for edge in ((k, k + 1), (k + 1, k))]
    bounds = {0: b"lo=%d" % (2**44 - 1), **{k: b"hi=1" for k in range(1, n)}}
    return bounded(b"f", bytes_from(CODE, n), edges, {0, n - 1}, bounds)


def block_count(n):
    """A block text of a function of n blocks without edges."""
    return function_text(b"f", bytes_from(CODE, n), [], {0})


def edge_count(n):
    """A block text of a function of 513 blocks with n edges."""
    return function_text(b"f", bytes_from(CODE, 513), [(k // 513, k % 513) for k in range(n)], {0})


def filled_blocks(n):
    """A block text of n bytes: a function of one block, and empty lines."""
    return one_block(1).ljust(n, b"\n")


def filled_repairs(n):
    """A repair text of it of n bytes: one repair, and empty lines."""
    return zeros(0).ljust(n, b"\n")


def filled_profile(n):
    """A profile text of n bytes: a line of a function, and empty lines."""
    return b"f:5:1\n 1: 5\n".ljust(n, b"\n")


def profile_tails(n):
    """A profile text of n functions, whose names are tails of one another."""
    return b"".join(b"%b:0:1\n" % (b"n" * k) for k in range(1, n + 1))


def profile_tail_calls(n):
    """A profile text of a function with n calls inlined on one line, whose names are tails of one another."""
    return b"f:0:0\n" + b"".join(b" 1: %b:1\n  1: 1\n" % (b"n" * k) for k in range(1, n + 1))


def heads(n):
    """A profile text of n functions of these names, each of which was entered."""
    return b"".join(b"f%d:0:1\n" % k for k in range(n))


def one_head(n):
    """A profile text of the function `f`, which was entered, however large n."""
    return b"f:0:1\n"


def ranges_at_random(n):
    """A text of n ranges of one address each, most of them anew, among n addresses."""
    return b"".join(b"0x%x/0x9 0x9/0x%x\n" % ((CODE + k * k * 7919 % n,) * 2) for k in range(n))


def empty_lines(n):
    """A text of n empty lines."""
    return b"\n" * n


def one_block(n):
    """The block text of a function of one block, however large n."""
    return function_text(b"f", [(CODE, CODE + 16)], [], {0})


def zeros(n):
    """A repair text for it, each number of which has n zeros in front."""
    zeros = b"0" * n
    numbers = tuple(zeros + digit for digit in (b"0", b"5", b"5", b"0", b"0", b"0"))
    return b"# function f flow\n# block %s weight %s count %s in %s out %s\n# end %s\n" % numbers


def profile_functions(n):
    """A profile text of n functions without lines, whose heads are 0."""
    return b"".join(b"a%d:0:0\n" % k for k in range(n))


def profile_names(n):
    """A profile text of n functions whose names have one beginning of 200 bytes."""
    return b"".join(b"%s%d:0:1\n" % (b"n" * 200, k) for k in range(n))


def profile_lines(n):
    """A profile text of a function with n lines, at most 2^32 for each of the 65,536 offsets."""
    return b"f:0:0\n" + b"".join(b" %d.%d: 1\n" % (k % 65536, k // 65536) for k in range(n))


def profile_targets(n):
    """A profile text of a function with one line, which has n targets."""
    return b"f:0:0\n 1: 1" + b"".join(b" a%d:1" % k for k in range(n)) + b"\n"


def profile_calls(n):
    """A profile text of a function with n inlined calls on one line, each of another function and with a line of its own."""
    return b"f:0:0\n" + b"".join(b" 1: a%d:1\n  1: 1\n" % k for k in range(n))


def profile_depth(n):
    """A profile text of n functions, each with calls inlined 255 deep and one line below them."""
    calls = b"".join(b" " * depth + b"1: f:1\n" for depth in range(1, 256)) + b" " * 256 + b"1: 1\n"
    return b"".join(b"a%d:1:1\n%s" % (k, calls) for k in range(n))


def profile_stairs(n):
    """A profile text of a function with calls inlined 255 deep, and n lines below all of them."""
    calls = b"".join(b" " * depth + b"1: f:1\n" for depth in range(1, 256))
    return b"f:1:1\n" + calls + b"".join(b" " * 256 + b"%d.%d: 1\n" % (k % 65536, k // 65536) for k in range(n))


CASES: List[Callable[[int], bytes]] = [
    small, abbreviations, shared_table, tails_of_a_table, tails_of_a_list, empty_attributes, section_names, segments,
    origins, far_origins, range_lists, dead_range_lists, overlapping_ranges,
    nested_functions, nested_calls, deep_lines, deep_ranges,
    repeated_rows, repeated_sequences, nested_sequences, shared_lines, shared_lines_without_rows,
    long_names, tails_of_a_name, new_branches, high_branches, colliding_branches, ascending_branches, full_lines,
    calls, depth, entries, steps, ranges,
    lined_functions, alike_functions, lined_addresses, deep_line, code_segments,
    calls_of_each, moved_calls, calls_from_one, calls_to_one, ranges_within, moved_ranges_within, ranges_from_one,
    one_range, ranges_of_one, ranges_of_kilobytes, ranges_across, foreign_branches,
    loads_and_foreign_branches, loads_of_others, whole_machine, loads_between, branches_of_16,
    wide_block, branches_of_wide, alike_blocks, falling_blocks, ladder_blocks, grid_blocks, called_ladder,
    bounded_grid, bounded_ladder, nested_loops, block_count, edge_count, filled_blocks, filled_repairs, filled_profile,
    ranges_at_random, empty_lines, one_block, zeros, heads, one_head, profile_tails, profile_tail_calls,
    profile_functions, profile_names, profile_lines, profile_targets, profile_calls, profile_depth, profile_stairs,
]

if __name__ == "__main__":
    case, size, file = sys.argv[1:]
    made = {one.__name__: one for one in CASES}[case](int(size))
    with open(file, "wb") as out:
        out.write(made)
