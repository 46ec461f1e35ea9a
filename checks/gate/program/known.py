"""The built program on binaries of which each byte is known, and on texts of samples of them.

What it has to write is worked out by hand from docs/FORMATS.md and docs/RULES.md, and the places of the file where a
changed byte is refused too.
"""
import itertools
import re
import struct
from typing import Any

import make
from common import BAD_WORDS, DONE, FAILED, MISSING, REFUSED, TOP, found_in, takes
from judging import USAGE, judge, run

# The generated binaries of one function and of two: `f0000` with a call of `g` inlined into it, and `f0001` behind it.
ONE = make.small(1)
TWO = make.small(2)


def mixed(pairs, entries):
    """A unit of version 4 and one of version 5: `lo` from line 10, with these pairs in `.debug_ranges`, and `hi` from
    line 20, with name, base address and ranges by indexes, and with these entries of `.debug_rnglists`."""
    sections = [
        # A unit and a function for version 4, and the same for version 5.
        (b".debug_abbrev", bytes.fromhex(
            "01110110171101 0000 022e0003083b0b5517 0000 00"
            "0111011017721773177417111b 0000 022e0003253b0b5523 0000 00")),
        (b".debug_info", bytes.fromhex(
            "1e000000 0400 00000000 08 01 00000000 0010400000000000 02 6c6f00 0a 00000000 00"
            "1f000000 0500 01 08 15000000 01 00000000 08000000 08000000 0c000000 00 02 00 14 00 00")),
        # Line 11 from 0x401010 on, and line 21 from 0x402010 on, 16 bytes each.
        (b".debug_line", bytes.fromhex(
            "40000000 0400 14000000 01 01 01 fb 0e 0d 000101010100000001000001 00 00"
            "0009021010400000000000 030a 01 0210 000101 0009021020400000000000 0314 01 0210 000101")),
        (b".debug_str", b"ab\0hi\0"),
        # Where text 0 begins, and that address 0 is 0x402000, and address 1 0x402020.
        (b".debug_str_offsets", bytes.fromhex("08000000 0500 0000 03000000")),
        (b".debug_addr", bytes.fromhex("14000000 0500 08 00 0020400000000000 2020400000000000")),
        (b".debug_ranges", bytes.fromhex(pairs) + bytes(16)),
        (b".debug_rnglists", bytes.fromhex("20000000 0500 08 00 01000000 04000000" + entries + "00")),
    ]
    return make.elf(sections, 0x2000)


# From 0x10 up to 0x20 behind the base of the unit, and the same behind address 0.
PAIR, ENTRY = "1000000000000000 2000000000000000", "01 00 04 10 20"
MIXED = mixed(PAIR, ENTRY)

# Three units with `a`, `b` and `c` from lines 10, 20 and 30, of which the first and the last name one line program: it
# has line 11 for `a` and 31 for `c`. That of `b` has line 22 for it, and line 41 for the addresses of `c`.
SHARED = make.elf(
    [
        (b".debug_abbrev", bytes.fromhex("0111011017 0000 022e0003083b0b11011206 0000 00")),
        (b".debug_info", bytes.fromhex(
            "1d000000 0400 00000000 08 01 00000000 02 6100 0a 0010400000000000 10000000 00"
            "1d000000 0400 00000000 08 01 44000000 02 6200 14 1010400000000000 10000000 00"
            "1d000000 0400 00000000 08 01 00000000 02 6300 1e 2010400000000000 10000000 00")),
        (b".debug_line", bytes.fromhex(
            "40000000 0400 14000000 01 01 01 fb 0e 0d 000101010100000001000001 00 00"
            "0009020010400000000000 030a 01 0210 000101 0009022010400000000000 031e 01 0210 000101"
            "40000000 0400 14000000 01 01 01 fb 0e 0d 000101010100000001000001 00 00"
            "0009021010400000000000 0315 01 0210 000101 0009022010400000000000 0328 01 0210 000101")),
    ],
    0x30,
)

# A function `f` from line 5, with a call of itself inlined whose discriminator is 2^32 + 2^16 + 1, as is that of its row in
# line 10.
LONG_DISCRIMINATORS = make.binary(
    make.ROOT_WITH_LINES + make.abbreviation(2, 0x2E, 1, *make.FUNCTION)
    + bytes.fromhex("03 1d 00 3113 1101 1206 5905 b64207 0000 00"),
    make.unit(bytes.fromhex(
        "01 00000000 02 6600 05 0010400000000000 40000000"
        "03 10000000 1010400000000000 10000000 0700 0100010001000000 00 00")),
    0x40,
    line=make.line_program(bytes.fromhex("0009020010400000000000 0309 000604 8180848010 01 0240 000101")),
)


def chained():
    """Functions in pieces and over one another, with calls in them. A row of line 100 + k stands at 0x401000 + 8 * k up to line
    121, then one of line 0 up to 0x4010b8, and none behind.

    `two`, from line 98, first has the piece from 0x401040 and then that from 0x401000, and in the second half of either a call of
    `g`; `mid`, from line 102, lies between them. In `outer`, from line 105, are `h`, in that `k`, which sticks out of it, and `m`,
    which overlaps both. `inner`, from line 112, begins in `outer`; of its two pieces of `h` the first is in `outer` too. Behind
    them are a function without a name, and `bare`, with a call of what has no name."""
    extent = (make.LOW, make.ADDR), (make.HIGH, make.DATA4)
    listed, start = (make.RANGES, make.OFFSET), (make.DECL_LINE, make.UDATA)
    called = (make.ORIGIN, make.REF4), (make.CALL_LINE, make.DATA2), (0x2136, make.UDATA)
    abbrevs = make.ROOT_WITH_LINES
    for code, tag, children, *attributes in [
        (2, 0x2E, 0, (make.NAME, make.STRING), start), (3, 0x2E, 0, start), (4, 0x2E, 1, (make.NAME, make.STRING), start, listed),
        (5, 0x2E, 1, (make.NAME, make.STRING), start, *extent), (6, 0x2E, 0, start, *extent),
        (7, 0x1D, 1, *called, listed), (8, 0x1D, 1, *called, *extent),
    ]:
        abbrevs += make.abbreviation(code, tag, children, *attributes)
    pairs = lambda *pieces: b"".join(struct.pack("<QQ", *piece) for piece in pieces) + bytes(16)
    ranges = pairs((0x401040, 0x401050), (0x401000, 0x401010)) + pairs((0x401048, 0x401050), (0x401008, 0x401010))
    ranges += pairs((0x401080, 0x401088), (0x4010A0, 0x4010A8))
    entries, at = b"\1" + bytes(4), {}
    for name, line in [(b"g", 90), (b"h", 80), (b"k", 70), (b"m", 60), (b"", 50)]:
        at[name] = 11 + len(entries)
        entries += (b"\2" + name + b"\0" if name else b"\3") + bytes([line])
    spelled = lambda address, size: struct.pack("<QI", address, size)
    call = lambda code, name, line, disc, where: bytes([code]) + struct.pack("<IHB", at[name], line, disc) + where
    entries += b"\4two\0\x62" + struct.pack("<I", 0) + call(7, b"g", 101, 2, struct.pack("<I", 48)) + bytes(2)
    entries += b"\5mid\0\x66" + spelled(0x401010, 0x30) + bytes(1)
    entries += b"\5outer\0\x69" + spelled(0x401050, 0x40) + call(8, b"h", 108, 0, spelled(0x401060, 0x10))
    entries += call(8, b"k", 84, 0, spelled(0x401068, 0x10)) + bytes(2)
    entries += call(8, b"m", 109, 0, spelled(0x40106C, 0x08)) + bytes(2)
    entries += b"\5inner\0\x70" + spelled(0x401078, 0x38) + call(7, b"h", 120, 0, struct.pack("<I", 96)) + bytes(2)
    entries += b"\6\5" + spelled(0x4010B0, 0x10)
    entries += b"\5bare\0\5" + spelled(0x4010C0, 0x10) + call(8, b"", 6, 0, spelled(0x4010C8, 4)) + bytes(3)
    rows = b"\x03" + make.sleb(99) + b"\1" + b"\x03\1\2\x08\1" * 21 + b"\x03" + make.sleb(-121) + b"\2\x08\1\2\x08"
    lines = make.line_program(make.set_address(make.CODE) + rows + make.END)
    return make.binary(abbrevs + b"\0", make.unit(entries), 0x100, line=lines, ranges=ranges)


CHAINED = chained()

# The nine sections, in the file the last of them first, and the offset of the header of each.
NINE = [b"abbrev", b"info", b"line", b"str", b"line_str", b"str_offsets", b"addr", b"ranges", b"rnglists"]
FILLED = {b"abbrev": ONE[120:166], b"info": ONE[166:229], b"line": ONE[229:286]}
ALL_SECTIONS = make.elf([(b".debug_" + name, FILLED.get(name, b"")) for name in reversed(NINE)], 0x40)
HEADERS = [int.from_bytes(ALL_SECTIONS[40:48], "little") + 64 * (9 - k) for k in range(9)]


def place(title, binary, address, line, *options):
    judge(f"{title}, {address}", (DONE, line, b""), ["where", *options, "bin", address], bin=binary)


def refused(title, binary, at, kind):
    wanted = REFUSED, b"", b"refused: file 1 at %d: %s\n" % (at, kind)
    judge(title, wanted, ["where", "bin", "401000"], bin=binary)


def changed(binary, *changes):
    """The binary with other bytes: from the first place of each change to its last one, both held, this byte."""
    made = bytearray(binary)
    for first, last, byte in changes:
        made[first : last + 1] = bytes([byte]) * (last + 1 - first)
    return bytes(made)


def places():
    for word in ["401000", "0x401000", "0000000000401000"]:
        place("a word for an address", ONE, word, b"f0000 0\n")
    place("capital digits", ONE, "0x40103F", b"f0000 3\n")
    place("address 0", ONE, "0", b"outside\n")
    for first, end, line in [
        (0x400FFE, 0x401000, b"outside\n"),
        (0x401000, 0x401008, b"f0000 0\n"),
        (0x401008, 0x401010, b"f0000 1\n"),
        (0x401010, 0x401020, b"f0000 2.1 g 1\n"),
        (0x401020, 0x401030, b"f0000 2.2\n"),
        (0x401030, 0x401040, b"f0000 3\n"),
        (0x401040, 0x401042, b"outside\n"),
    ]:
        for address in range(first, end):
            place("each address", ONE, f"{address:x}", line)
    place("bases", ONE, "401014", b"f0000 2 g 1\n", "--base")
    place("bases", ONE, "401020", b"f0000 2.1\n", "--base")
    for at, line in [
        ("40100f", b"outside\n"),
        ("401010", b"lo 1\n"),
        ("40101f", b"lo 1\n"),
        ("402010", b"hi 1\n"),
        ("40201f", b"hi 1\n"),
        ("402020", b"outside\n"),
    ]:
        place("units of both versions", MIXED, at, line)
    for at, line in [("401000", b"a 1\n"), ("401010", b"b 2\n"), ("401020", b"c 1\n"), ("401030", b"outside\n")]:
        place("units that share a line program", SHARED, at, line)


def range_lists():
    # Where `lo` and `hi` are by other lists: rows begin 16 bytes behind the base of either, and end 16 bytes further on.
    first_pair = mixed("0000000000000000 2000000000000000", ENTRY)
    for address, line in [
        ("400fff", b"outside\n"), ("401000", b"noline\n"), ("40100f", b"noline\n"), ("401010", b"lo 1\n"),
        ("40101f", b"lo 1\n"), ("401020", b"outside\n"),
    ]:
        place("a pair from 0", first_pair, address, line)
    for entries, before in [
        ("02 00 01", b"noline\n"),
        ("03 00 20", b"noline\n"),
        ("05 0020400000000000 04 10 20", b"outside\n"),
        ("06 1020400000000000 2020400000000000", b"outside\n"),
        ("07 1020400000000000 10", b"outside\n"),
    ]:
        listed = mixed(PAIR, entries)
        for address, line in [("40200f", before), ("402010", b"hi 1\n"), ("40201f", b"hi 1\n"), ("402020", b"outside\n")]:
            place(f"the entry {entries}", listed, address, line)


def other_places():
    low_line = (271, 271, 0x7F), (274, 274, 0x82)
    place("a line of 0", changed(ONE, *low_line), "401000", b"noline\n")
    place("a line before the function's", changed(ONE, *low_line), "401008", b"f0000 65527\n")
    for at, byte in [(187, 0x23), (187, 0x21), (187, 0x37), (189, 0x20), (189, 0x09), (189, 0x7F), (189, 0x3A)]:
        place(f"a name with byte {byte:x}", changed(ONE, (at, at, byte)), "401008", b"nameless\n")
    place("a name with a ! and a # behind its first", changed(ONE, (188, 188, 0x21), (189, 189, 0x23)), "401008", b"f!#00 1\n")
    options: Any
    for options, line, inlined in [([], b"f 5.65537\n", b"f 2.65537 f 5.65537\n"), (["--base"], b"f 5\n", b"f 2 f 5\n")]:
        place("a discriminator of 2^32 + 2^16 + 1", LONG_DISCRIMINATORS, "401000", line, *options)
        place("a discriminator of 2^32 + 2^16 + 1", LONG_DISCRIMINATORS, "401014", inlined, *options)
    place("a discarded function", changed(ONE, (195, 202, 0), (262, 269, 0)), "401008", b"outside\n")
    over = changed(TWO, (237, 237, 0))
    place("two functions over one another", over, "401008", b"f0000 1\n")
    place("two functions over one another", over, "401040", b"outside\n")


def chains():
    for first, last, line in [
        (0x401000, 0x401007, b"two 2\n"),
        (0x401008, 0x40100F, b"two 3.2 g 11\n"),
        (0x401010, 0x401017, b"mid 0\n"),
        (0x401038, 0x40103F, b"mid 5\n"),
        (0x401040, 0x401047, b"two 10\n"),
        (0x401048, 0x40104F, b"two 3.2 g 19\n"),
        (0x401050, 0x401057, b"outer 5\n"),
        (0x401060, 0x401067, b"outer 3 h 32\n"),
        # In `h` its own call, though `m` holds these addresses too; behind `h` only `m`, and behind that neither.
        (0x401068, 0x40106F, b"outer 3 h 4 k 43\n"),
        (0x401070, 0x401073, b"outer 4 m 54\n"),
        (0x401074, 0x401077, b"outer 9\n"),
        # Where `outer` and `inner` lie over one another the first of them, and no call of the other.
        (0x401078, 0x40107F, b"outer 10\n"),
        (0x401080, 0x401087, b"outer 11\n"),
        (0x401088, 0x40108F, b"outer 12\n"),
        (0x401090, 0x401097, b"inner 6\n"),
        (0x4010A0, 0x4010A7, b"inner 8 h 40\n"),
        (0x4010A8, 0x4010AF, b"inner 9\n"),
        # What has no name counts as that, also on line 0 and without a line.
        (0x4010B0, 0x4010B7, b"nameless\n"),
        (0x4010B8, 0x4010BF, b"nameless\n"),
        (0x4010C0, 0x4010C7, b"noline\n"),
        (0x4010C8, 0x4010CB, b"nameless\n"),
        (0x4010CC, 0x4010CF, b"noline\n"),
        (0x4010D0, 0x4010D0, b"outside\n"),
    ]:
        for address in {first, last}:
            place("chains", CHAINED, f"{address:x}", line)


def chained_profiles():
    # A function is entered at its first piece alone, and not where another one holds that address.
    profile(
        "where functions are entered", CHAINED, b"".join(b"0x401010/0x%x\n" % to for to in (0x401040, 0x401000, 0x401078, 0x401050)),
        b"mid:0:0\n 0: 0 outer:1 two:1\nouter:0:1\ntwo:0:1\n# branches 4\n# entries 2\n# inside 2\n", 0,
    )
    profile(
        "both pieces of a function ran", CHAINED, b"0x40100f/0x9 0x9/0x401000\n" + b"0x40104f/0x9 0x9/0x401040\n" * 2,
        b"two:6:2\n 2: 1\n 10: 2\n 3.2: g:3\n  11: 1\n  19: 2\n# branches 6\n# entries 2\n# inside 0\n"
        b"# unmapped FromOutside 0x9 0x401000 1\n# unmapped ToOutside 0x40100f 0x9 1\n# unmapped ToOutside 0x40104f 0x9 2\n", 3,
    )
    profile(
        "ranges through what lies between pieces, over two functions, and out of one of them", CHAINED,
        b"0x40104f/0x9 0x9/0x401000\n0x40107b/0x9 0x9/0x401074\n0x401093/0x9 0x9/0x40108c\n",
        b"outer:2:0\n 9: 1\n 10: 1\n# branches 6\n# entries 0\n# inside 0\n"
        b"# unmapped FromOutside 0x9 0x401000 1\n# unmapped FromOutside 0x9 0x401074 1\n# unmapped FromOutside 0x9 0x40108c 1\n"
        b"# unmapped ToOutside 0x40104f 0x9 1\n# unmapped ToOutside 0x40107b 0x9 1\n# unmapped ToOutside 0x401093 0x9 1\n",
        1, crossing=2,
    )
    profile(
        "a range that goes back from outside, and one whose last address alone is in another function", CHAINED,
        b"0x9/0x401000 0x401000/0x401004\n0x401090/0x9 0x9/0x401088\n",
        b"# branches 4\n# entries 0\n# inside 1\n# unmapped FromOutside 0x9 0x401000 1\n"
        b"# unmapped FromOutside 0x9 0x401088 1\n# unmapped ToOutside 0x401090 0x9 1\n", 0, reversed=1, crossing=1,
    )
    profile(
        "calls from where no place is, and what the source lacks first", CHAINED,
        b"0x4010b0/0x401050\n0x4010c0/0x401050\n0x4010b0/0x4010b8\n0x4010c0/0x4010b8\n",
        b"outer:0:2\n# branches 4\n# entries 2\n# inside 0\n# unmapped FromNameless 0x4010b0 0x4010b8 1\n"
        b"# unmapped FromNoLine 0x4010c0 0x4010b8 1\n", 0,
    )
    # Functions by their totals, and targets by how often they were called; by name where these are the same.
    profile(
        "the greatest first", CHAINED,
        b"0x401010/0x401050\n" + b"0x401010/0x401040\n" * 2 + b"0x401017/0x9 0x9/0x401011\n" + b"0x401047/0x9 0x9/0x401041\n" * 2,
        b"two:2:2\n 10: 2\nmid:1:0\n 0: 1 two:2 outer:1\nouter:0:1\n# branches 9\n# entries 3\n# inside 0\n"
        b"# unmapped FromOutside 0x9 0x401011 1\n# unmapped FromOutside 0x9 0x401041 2\n"
        b"# unmapped ToOutside 0x401017 0x9 1\n# unmapped ToOutside 0x401047 0x9 2\n", 3,
    )


# The places from the first to the last one, both held, that are set to this byte, and where that is refused.
DAMAGE = [
    (4, 4, 0x01, 4, b"NotElf64Little"),
    (16, 16, 0x01, 16, b"BadType"),
    (399, 399, 0xFF, 399, b"NameBad"),
    (423, 430, 0xFF, 399, b"SectionPastEnd"),
    (472, 472, 0x08, 463, b"Compressed"),
    (122, 122, 0x02, 122, b"BadChildren"),
    (127, 127, 0x01, 127, b"CodeTwice"),
    (149, 158, 0xFF, 149, b"LebTooLong"),
    (166, 166, 0x1E, 195, b"Short"),
    (170, 170, 0x06, 170, b"BadVersion"),
    (172, 172, 0x2F, 172, b"PastSection"),
    (176, 176, 0x04, 176, b"BadAddressSize"),
    (177, 177, 0x09, 177, b"UnknownAbbrev"),
    (124, 124, 0x2D, 178, b"BadForm"),
    (124, 124, 0x08, 178, b"BadClass"),
    (178, 178, 0xFF, 178, b"PastSection"),
    (208, 208, 0x11, 208, b"BadReference"),
    (208, 208, 0x29, 207, b"OriginTooLong"),
    (233, 233, 0x06, 233, b"BadVersion"),
    (240, 240, 0x02, 240, b"ManyOperations"),
    (243, 243, 0x00, 243, b"BadLineRange"),
    (244, 244, 0x00, 244, b"BadOpcodeBase"),
    (260, 260, 0x08, 259, b"BadExtended"),
    (271, 271, 0x76, 270, b"LineOverflow"),
    (271, 280, 0xFF, 270, b"LebTooLong"),
    (274, 275, 0x00, 274, b"BadExtended"),
    (285, 285, 0x03, 286, b"NoEnd"),
]

# Two changes that are refused each, and where: where both are made, the first one is.
IN_ORDER = [
    # The file header, the section headers, the nine sections, the units, the line programs, and pieces and names.
    (ONE, (62, 62, 0x05), (62, b"BadHeader"), (423, 430, 0xFF), (399, b"SectionPastEnd")),
    (ONE, (591, 591, 0xFF), (591, b"NameBad"), (408, 408, 0x08), (399, b"Compressed")),
    (ONE, (536, 536, 0x08), (527, b"Compressed"), (170, 170, 0x06), (170, b"BadVersion")),
    (ONE, (227, 227, 0x09), (227, b"UnknownAbbrev"), (233, 233, 0x06), (233, b"BadVersion")),
    (ONE, (271, 271, 0x76), (270, b"LineOverflow"), (208, 208, 0x11), (208, b"BadReference")),
    # Of a unit its header, its abbreviations and its entries, then the next unit; and all units before the programs.
    (ONE, (176, 176, 0x04), (176, b"BadAddressSize"), (122, 122, 0x02), (122, b"BadChildren")),
    (ONE, (127, 127, 0x01), (127, b"CodeTwice"), (177, 177, 0x09), (177, b"UnknownAbbrev")),
    (SHARED, (157, 157, 0x09), (157, b"UnknownAbbrev"), (178, 178, 0x06), (178, b"BadVersion")),
    (SHARED, (223, 223, 0x09), (223, b"UnknownAbbrev"), (244, 244, 0x06), (244, b"BadVersion")),
    # Of a program its header and its operations, then the program of the next unit.
    (SHARED, (244, 244, 0x06), (244, b"BadVersion"), (282, 282, 0x76), (281, b"LineOverflow")),
    (SHARED, (282, 282, 0x76), (281, b"LineOverflow"), (312, 312, 0x06), (312, b"BadVersion")),
    (SHARED, (312, 312, 0x06), (312, b"BadVersion"), (219, 222, 0xFF), (219, b"PastSection")),
    # Of a unit its base address and its entries, then the next unit; and of an entry its ranges and its name.
    (MIXED, (197, 200, 0xFF), (197, b"PastSection"), (231, 231, 0x05), (231, b"PastSection")),
    (MIXED, (231, 231, 0x05), (231, b"PastSection"), (235, 235, 0x09), (235, b"PastSection")),
    (MIXED, (235, 235, 0x09), (235, b"PastSection"), (233, 233, 0x07), (233, b"PastSection")),
]

# The root, the function that is inlined, and one that calls it; and a call that is inlined, below which others stand.
FUNCTION = bytes.fromhex("01 00000000 02 6700 05 03 6600 0a 0000104000000000 0040000000")
CALL = bytes.fromhex("04 10000000 1010400000000000 10000000 0c 00 01")


def with_entries(entries):
    """The generated binary with other entries in `.debug_info`, which then stands at its end."""
    made = bytearray(changed(ONE, (151, 151, 0x01)))
    size = len(entries) + 11
    made[487:503] = len(made).to_bytes(8, "little") + size.to_bytes(8, "little")
    return bytes(made) + (size - 4).to_bytes(4, "little") + bytes([4, 0, 0, 0, 0, 0, 8]) + entries


def flagged(*compressed):
    """The file of all sections, with these of the nine said to be compressed."""
    return changed(ALL_SECTIONS, *((HEADERS[k] + 9, HEADERS[k] + 9, 0x08) for k in compressed))


def refusals():
    for first, last, byte, at, kind in DAMAGE:
        refused(f"bytes {first} to {last} set to {byte}", changed(ONE, (first, last, byte)), at, kind)
    for binary, one, its_place, other, other_place in IN_ORDER:
        refused(f"{one} of two", changed(binary, one), *its_place)
        refused(f"{other} of two", changed(binary, other), *other_place)
        refused(f"{one} and {other}", changed(binary, one, other), *its_place)
    for k, header in enumerate(HEADERS):
        refused(f"{NINE[k]!r} compressed", flagged(k), header, b"Compressed")
        for number in range(k + 1, 9):
            refused(f"{NINE[k]!r} and {NINE[number]!r} compressed", flagged(k, number), header, b"Compressed")
    for size in range(len(ONE)):
        at, kind = (0, b"NotElf") if size < 64 else (32, b"BadHeader") if size < 120 else (40, b"BadHeader")
        refused(f"the first {size} bytes", ONE[:size], at, kind)
    # Entries in one another, and calls inlined into one another: as many as may stand, and one more.
    good = DONE, b"outside\n", b""
    judge("1,025 levels", good, ["where", "bin", "1"], bin=with_entries(FUNCTION[:5] * 1025))
    refused("1,026 levels", with_entries(FUNCTION[:5] * 1026), 655 + 11 + 5 * 1025, b"TooDeep")
    judge("255 calls", good, ["where", "bin", "1"], bin=with_entries(FUNCTION + CALL * 255))
    refused("256 calls", with_entries(FUNCTION + CALL * 256), 655 + 11 + 26 + 20 * 255, b"InlineTooDeep")


def words():
    for spelled in [
        "where", "where bin", "where bin xyz", "where bin 0x", "where bin 0X1", "where bin 00000000000401000",
        "where --base --base bin 401000", "where --bases bin 401000", "where -- bin 401000", "where bin --base 401000",
        "where bin 401000 --base", "profile", "profile bin", "build bin perf",
        "where --base bin 401000 x", "where --base bin 401000 x y", "where --base bin 401000 x y z",
        "profile --map=/x --base bin perf x", "profile --map=/x --base bin perf x y", "profile bin perf x y z v",
        "profile --map=/x --base --base bin perf", "profile --map=/x --base --base --map=/y bin perf",
        "counts perf x y z u", "counts perf x y z u v", "where --edges bin 401000", "profile --edges bin perf",
        "build bin perf perf perf", "build --edges --edges bin perf perf", "build --map= bin perf perf",
        "build --scaled bin perf", "build --scaled --scaled bin perf perf", "build --scale bin perf perf", "build --edges bin perf", "build bin --edges perf perf",
        "build --base --base bin perf perf", "build --map=/x --map=/x bin perf perf", "build --map=/x --map=/y bin perf perf",
        "build --edge bin perf perf", "build --edges= bin perf perf", "build --map bin perf perf", "build bin perf perf --edges",
        "build --edges --base --map=/x --edges bin perf perf", "build --edges --base --map=/x bin perf",
        "build --edges --base --map=/x bin perf perf perf", "build bin perf perf perf perf perf", "build",
    ]:
        judge(spelled, (BAD_WORDS, b"", USAGE), spelled.split(), bin=ONE, perf=b"")
    for options in [["--map=/x", "--base"], ["--base", "--map=/x"]]:
        profile("five words", ONE, b"", b"# branches 0\n# entries 0\n# inside 0\n", 0, *options)
    judge("an empty address", (BAD_WORDS, b"", USAGE), ["where", "bin", ""], bin=ONE)


TWO_SAMPLES = (
    b"401036 0x401038/0x401036/P/-/-/1 0x40100c/0x401020/P/-/-/1 0x401034/0x401000/P/-/-/1\n"
    b"401036 0x401038/0x401036/P/-/-/1 0x401004/0x401010/P/-/-/1\n"
)
PERF_LINE = (
    b"# captured on: x\n          401036  0x401038/0xffffffff81e00010/P/-/-/0//-  "
    b"0xffffffff81e01020/0x401036/M/-/-/12//-\n"
)
LOAD = b"x 7 PERF_RECORD_MMAP2 7/7: [0x7f0000000000(0x1000) @ 0 08:02 5 0]: r-xp /bin/x\n"


def profile(title, binary, text, lines, ran, *options, reversed=0, outside=0, crossing=0, units=1):
    """The profile with its report up to the ranges, and the numbers of ranges and units behind it."""
    numbers = b"# ranges ran %d\n# ranges reversed %d\n# ranges outside %d\n# ranges crossing %d\n"
    wanted = lines + numbers % (ran, reversed, outside, crossing) + b"# units read %d passed 0\n" % units
    judge(title, (DONE, wanted, b""), ["profile", *options, "bin", "perf"], bin=binary, perf=text)


def profiles():
    profile(
        "two samples", ONE, TWO_SAMPLES,
        b"f0000:7:1\n 0: 1\n 1: 1\n 2.2: 2\n 3: 2 f0000:1\n 2.1: g:1\n  1: 1\n# branches 5\n# entries 1\n# inside 4\n", 3,
    )
    profile("no sample", ONE, b"", b"# branches 0\n# entries 0\n# inside 0\n", 0)
    profile(
        "a call alone", ONE, b"0x401034/0x401000",
        b"f0000:0:1\n 3: 0 f0000:1\n# branches 1\n# entries 1\n# inside 0\n", 0,
    )
    profile(
        "one address", ONE, b"0x401004/0x9 0x9/0x401004",
        b"f0000:1:0\n 0: 1\n# branches 2\n# entries 0\n# inside 0\n"
        b"# unmapped FromOutside 0x9 0x401004 1\n# unmapped ToOutside 0x401004 0x9 1\n", 1,
    )
    profile(
        "the largest of a line", ONE,
        b"0x401033/0x9 0x9/0x401030\n0x401033/0x9 0x9/0x401030\n0x40103b/0x9 0x9/0x401038",
        b"f0000:2:0\n 3: 2\n# branches 6\n# entries 0\n# inside 0\n"
        b"# unmapped FromOutside 0x9 0x401030 2\n# unmapped FromOutside 0x9 0x401038 1\n"
        b"# unmapped ToOutside 0x401033 0x9 2\n# unmapped ToOutside 0x40103b 0x9 1\n", 3,
    )
    profile(
        "a line as perf prints it", ONE, PERF_LINE,
        b"f0000:1:0\n 3: 1\n# branches 2\n# entries 0\n# inside 0\n"
        b"# unmapped FromOutside 0xffffffff81e01020 0x401036 1\n# unmapped ToOutside 0x401038 0xffffffff81e00010 1\n", 1,
    )
    profile(
        "ranges that go back, out of all functions, and from one into another", TWO,
        b"0x401004/0x9 0x9/0x401008\n0x401050/0x9 0x9/0x401030\n0x401004/0x9 0x9/0x400ff0\n",
        b"# branches 6\n# entries 0\n# inside 0\n"
        b"# unmapped FromOutside 0x9 0x400ff0 1\n# unmapped FromOutside 0x9 0x401008 1\n"
        b"# unmapped FromOutside 0x9 0x401030 1\n# unmapped ToOutside 0x401004 0x9 2\n"
        b"# unmapped ToOutside 0x401050 0x9 1\n", 0, reversed=1, outside=1, crossing=1,
    )


def touched():
    # The places of a function are made where something asks for it. What asks for one function alone tells of no other,
    # and tells the same where others lie over it or have its name.
    def ran(times, *addresses):
        text = b"".join(b"0x%x/0x9 0x9/0x%x\n" % (at, at) * times for at in addresses)
        ends = [b"# unmapped FromOutside 0x9 0x%x %d\n" % (at, times) for at in addresses]
        ends += [b"# unmapped ToOutside 0x%x 0x9 %d\n" % (at, times) for at in addresses]
        branches = 2 * times * len(addresses)
        return text, b"# branches %d\n# entries 0\n# inside 0\n" % branches + b"".join(ends), times * len(addresses)

    def alone(title, binary, lines, times, *addresses):
        text, report, ranges = ran(times, *addresses)
        profile(title, binary, text, lines + report, ranges)

    profile(
        "a call of a function in which nothing ran", TWO, b"0x401034/0x401040",
        b"f0000:0:0\n 3: 0 f0001:1\nf0001:0:1\n# branches 1\n# entries 1\n# inside 0\n", 0,
    )
    profile(
        "a function that is entered from elsewhere alone", TWO, b"0x9/0x401040",
        b"f0001:0:1\n# branches 1\n# entries 1\n# inside 0\n", 0,
    )
    # Both functions of the name share its lines, of which each has its largest count.
    twice = TWO.replace(b"f0001\0", b"f0000\0")
    alone("the first of two functions with one name", twice, b"f0000:3:0\n 0: 3\n", 3, 0x401004)
    alone("the second of them", twice, b"f0000:3:0\n 0: 3\n", 3, 0x401044)
    alone("both of them", twice, b"f0000:3:0\n 0: 3\n", 3, 0x401004, 0x401044)
    # The second function begins within the first one, which holds what both have, as it stands first.
    over = TWO.replace(struct.pack("<QI", 0x401040, 0x40), struct.pack("<QI", 0x401020, 0x60))
    alone("what two functions have", over, b"f0000:1:0\n 2.2: 1\n", 1, 0x401024)
    alone("what the second of them has alone", over, b"f0001:1:0\n 0: 1\n", 1, 0x401044)
    alone("what each of them has", over, b"f0000:1:0\n 2.2: 1\nf0001:1:0\n 0: 1\n", 1, 0x401024, 0x401044)


def reports():
    # `f0000` has no line up to 0x401008, and the function from 0x401040 on no name.
    partly = changed(TWO, (229, 229, 0x23), (313, 313, 0x7F), (316, 316, 0x82))
    profile(
        "each reason", partly,
        b"0x401008/0x401050\n0x401008/0x401040\n0x401008/0x9\n0x401004/0x401008\n0x401050/0x9\n0x9/0x401008\n"
        b"0x9/0x401000\n0x401008/0x401004\n0x9/0x401008\n",
        b"f0000:0:1\n# branches 9\n# entries 1\n# inside 1\n"
        b"# unmapped FromOutside 0x9 0x401008 2\n# unmapped FromNameless 0x401050 0x9 1\n"
        b"# unmapped FromNoLine 0x401004 0x401008 1\n# unmapped ToOutside 0x401008 0x9 1\n"
        b"# unmapped ToNameless 0x401008 0x401040 1\n# unmapped ToNameless 0x401008 0x401050 1\n", 0,
    )
    profile(
        "ranges from outside and to outside", ONE, b"0x401004/0x9 0x9/0x400ff0\n0x401050/0x9 0x9/0x401030\n",
        b"# branches 4\n# entries 0\n# inside 0\n# unmapped FromOutside 0x9 0x400ff0 1\n"
        b"# unmapped FromOutside 0x9 0x401030 1\n# unmapped FromOutside 0x401050 0x9 1\n"
        b"# unmapped ToOutside 0x401004 0x9 1\n", 0, outside=2,
    )


def bases_and_loads():
    # Discriminator 17 has base 0, by which hits count four times.
    copied = changed(ONE, (278, 278, 0x11))
    thrice = b"0x401021/0x9 0x9/0x401020\n" * 3
    unmapped = b"# unmapped FromOutside 0x9 0x401020 3\n# unmapped ToOutside 0x401021 0x9 3\n"
    report = b"# branches 6\n# entries 0\n# inside 0\n" + unmapped
    profile("a discriminator", copied, thrice, b"f0000:3:0\n 2.17: 3\n" + report, 3)
    profile("its base and its factor", copied, thrice, b"f0000:12:0\n 2: 12\n" + report, 3, "--base")
    call = LOAD + b"0x7f0000000034/0x7f0000000000/P/-/-/1"
    profile(
        "a moved call", ONE, call, b"f0000:0:1\n 3: 0 f0000:1\n# branches 1\n# entries 1\n# inside 0\n", 0, "--map=/bin/x",
    )
    profile(
        "a foreign call", ONE, call,
        b"# branches 1\n# entries 0\n# inside 0\n# unmapped FromOutside 0x0 0x0 1\n", 0, "--map=/bin/y",
    )
    profile(
        "a moved range between foreign ends", ONE, LOAD + b"0x7f0000000004/0x9 0x9/0x7f0000000000",
        b"f0000:1:1\n 0: 1\n# branches 2\n# entries 1\n# inside 0\n# unmapped ToOutside 0x401004 0x0 1\n", 1, "--map=/bin/x",
    )
    profile(
        "a moved range of which the newer end is foreign", ONE, LOAD + b"0x9/0x7f0000000004 0x7f0000000004/0x7f0000000008",
        b"# branches 2\n# entries 0\n# inside 1\n# unmapped FromOutside 0x0 0x401004 1\n", 0, "--map=/bin/x", outside=1,
    )
    profile(
        "a moved range of which the older end is foreign", ONE, LOAD + b"0x7f0000000004/0x7f0000000008 0x7f0000000004/0x9",
        b"# branches 2\n# entries 0\n# inside 1\n# unmapped ToOutside 0x401004 0x0 1\n", 0, "--map=/bin/x", outside=1,
    )


# The generated block text of one function.
BLOCKS = (
    b"func f0000\nblock 0 0x401000 0x401008\nblock 1 0x401008 0x401010\nblock 2 0x401010 0x401020\n"
    b"block 3 0x401020 0x401040 exit\nedge 0 1\nedge 0 2\nedge 1 3\nedge 2 3\nend\n"
)
LOOP = b"func loop\nblock 0 0x401000 0x401008\nblock 1 0x401008 0x401010\nedge 0 1\nedge 1 0\nend\n"


def without_prices(out):
    """The output without the prices of blocks, of which any that fit may be told."""
    return re.sub(rb"( count \d+) in -?\d+ out -?\d+$", rb"\1", out, flags=re.M)


def within(most):
    """The output without prices, and with a range in place of a number of augmentations that lies in it."""
    def told(out):
        front, _, count = without_prices(out).rpartition(b"# augmentations ")
        return front + b"# augmentations " + (b"from 1 to %d\n" % most if 1 <= int(count) <= most else count)
    return told


def repaired(title, text, blocks, wanted, *options):
    """What is told of repairs alone, without their prices."""
    lines = rb"# (?:function|block|edge|end) .*\n"
    only = lambda out: b"".join(re.findall(lines, without_prices(out)))
    judge(title, (DONE, wanted, b""), ["build", *options, "bin", "perf", "cfg"], told=only, bin=ONE, perf=text, cfg=blocks)


def counted(weights, counts, cost, name=b"f0000", edges=None):
    """The lines of counts of the function of the generated block text, with the weights of its edges or without."""
    lines = [b"# function %s flow" % name]
    lines += [b"# block %d weight %s count %d" % (k, weight, count) for k, (weight, count) in enumerate(zip(weights, counts[:4]))]
    for k, (pair, count) in enumerate(zip((b"0 1", b"0 2", b"1 3", b"2 3"), counts[4:])):
        lines.append(b"# edge %s %scount %d" % (pair, b"weight %s " % edges[k] if edges else b"", count))
    return b"\n".join(lines) + b"\n# end %d\n" % cost


def builds():
    # The profile, the repairs and the report, whole; no counts cost as little.
    first = TWO_SAMPLES.split(b"\n")[0]
    wanted = b"f0000:4:1\n 0: 1\n 1: 1\n 2.2: 1\n 3: 1 f0000:1\n" + counted(
        (b"1", b"1", b"0", b"1"), (1, 1, 0, 1, 1, 0, 1, 0), 0
    ) + (
        b"# branches 3\n# entries 1\n# inside 2\n# ranges ran 2\n# ranges reversed 0\n# ranges outside 0\n"
        b"# ranges crossing 0\n# units read 1 passed 0\n"
    )
    judge(
        "a repair between profile and report", (DONE, wanted, b""), ["build", "bin", "perf", "cfg"], told=without_prices,
        bin=ONE, perf=first, cfg=BLOCKS,
    )
    wanted = b"f0000:5:5\n 0: 5\n" + CUT + (
        b"# branches 10\n# entries 5\n# inside 0\n# unmapped ToOutside 0x401000 0x9 5\n# ranges ran 5\n"
        b"# ranges reversed 0\n# ranges outside 0\n# ranges crossing 0\n# units read 1 passed 0\n"
    )
    judge(
        "a cut between profile and report", (DONE, wanted, b""), ["build", "bin", "perf", "cfg"],
        bin=ONE, perf=b"0x401000/0x9 0x9/0x401000\n" * 5, cfg=LOOP,
    )
    none = (b"0", b"0", b"0", b"0"), (0,) * 8, 0
    repaired("no sample", b"", BLOCKS, counted(*none))
    repaired("no sample of edges", b"", BLOCKS, counted(*none, edges=(b"0",) * 4), "--edges")
    uneven = b"0x401001/0x9 0x9/0x401001\n" * 100 + b"0x401008/0x9 0x9/0x401008\n" * 60 + b"0x401020/0x9 0x9/0x401020\n" * 100
    weights, counts = (b"100", b"60", b"0", b"100"), (100, 100, 0, 100, 100, 0, 100, 0)
    ends = [b"0x401001 0x9 100", b"0x401008 0x9 60", b"0x401020 0x9 100"]
    wanted = b"f0000:260:0\n 0: 100\n 1: 60\n 2.2: 100\n" + counted(weights, counts, 400) + (
        b"# branches 520\n# entries 0\n# inside 0\n# unmapped FromOutside 0x9 0x401001 100\n"
        b"# unmapped FromOutside 0x9 0x401008 60\n# unmapped FromOutside 0x9 0x401020 100\n"
    ) + b"".join(b"# unmapped ToOutside %s\n" % end for end in ends) + (
        b"# ranges ran 260\n# ranges reversed 0\n# ranges outside 0\n# ranges crossing 0\n# units read 1 passed 0\n"
    )
    judge(
        "weights that do not conserve", (DONE, wanted, b""), ["build", "bin", "perf", "cfg"], told=without_prices,
        bin=ONE, perf=uneven, cfg=BLOCKS,
    )
    # The greatest weight has seven binary digits: at most 8 phases of 32 * (4 + 4 + 1) augmentations each.
    options: Any
    for options, cost in ([], 400), (["--edges"], 1000):
        edges = (b"0",) * 4 if options else None
        told = wanted.replace(counted(weights, counts, 400), counted(weights, counts, cost, edges=edges))
        judge(
            " ".join(["within a bound on augmentations", *options]), (DONE, told + b"# augmentations from 1 to 2304\n", b""),
            ["build", "--scaled", *options, "bin", "perf", "cfg"], told=within(2304), bin=ONE, perf=uneven, cfg=BLOCKS,
        )
    judge(
        "a cut within a bound on augmentations", (DONE, CUT + b"# augmentations\n", b""), ["build", "--scaled", "bin", "perf", "cfg"],
        told=lambda out: b"".join(re.findall(rb"# (?:function|block|edge|end|augmentations)\b.*\n", re.sub(rb"(# augmentations) \d+", rb"\1", out))),
        bin=ONE, perf=b"0x401000/0x9 0x9/0x401000\n" * 5, cfg=LOOP,
    )
    great = BLOCKS.replace(b"0x401000 0x401008", b"0x401000 0x401008 lo=68719476736", 1)
    judge(
        "a count to start from that has too many digits", (DONE, b"# augmentations 0\n", b""),
        ["build", "--scaled", "bin", "perf", "cfg"], told=lambda out: out[out.rindex(b"# "):], bin=ONE, perf=uneven, cfg=great,
    )
    # One less has 36 digits, and is solved: at most 37 phases of 32 * 9.
    less, most = great.replace(b"lo=68719476736", b"lo=68719476735"), 37 * 32 * 9
    judge(
        "a count to start from that has as many digits as may be", (DONE, b"# augmentations from 1 to %d\n" % most, b""),
        ["build", "--scaled", "bin", "perf", "cfg"], told=lambda out: within(most)(out[out.rindex(b"# "):]), bin=ONE, perf=uneven, cfg=less,
    )
    judge(
        "no augmentation without a function", (DONE, b"# augmentations 0\n", b""),
        ["build", "--scaled", "bin", "perf", "cfg"], told=lambda out: out[out.rindex(b"# "):], bin=ONE, perf=uneven, cfg=b"",
    )
    repaired("the same with edges that no branch took", uneven, BLOCKS, counted(weights, counts, 1000, edges=(b"0",) * 4), "--edges")
    both = (b"1", b"1", b"1", b"2"), (2, 1, 1, 2, 1, 1, 1, 1), 40
    judge(
        "two ways, of which several counts cost as little", (DONE, b"# end 40\n", b""), ["build", "bin", "perf", "cfg"],
        told=lambda out: b"".join(re.findall(rb"# end .*\n", out)), bin=ONE, perf=TWO_SAMPLES, cfg=BLOCKS,
    )
    wanted = b"f0000:7:1\n 0: 1\n 1: 1\n 2.2: 2\n 3: 2 f0000:1\n 2.1: g:1\n  1: 1\n" + counted(*both, edges=(b"1",) * 4) + (
        b"# branches 5\n# entries 1\n# inside 4\n# ranges ran 3\n# ranges reversed 0\n# ranges outside 0\n"
        b"# ranges crossing 0\n# units read 1 passed 0\n"
    )
    judge(
        "two ways by their edges", (DONE, wanted, b""), ["build", "--edges", "bin", "perf", "cfg"], told=without_prices,
        bin=ONE, perf=TWO_SAMPLES, cfg=BLOCKS,
    )
    repaired("a function twice", uneven, BLOCKS + BLOCKS, 2 * counted(weights, counts, 400))
    repaired("no function", TWO_SAMPLES, b"", b"")
    repaired(
        "a function of other addresses", TWO_SAMPLES, b"func far\nblock 0 0x1 0x2 exit\nend\n",
        b"# function far flow\n# block 0 weight ? count 0\n# end 0\n",
    )
    loop = b"0x401000/0x9 0x9/0x401000\n" * 5
    repaired(
        "a loop without an exit", loop, LOOP,
        b"# function loop cut 0\n# block 0 weight 5 in 1 out 1\n# block 1 weight 0 in 1 out 1\n# end 1 0\n",
    )
    bounded = BLOCKS.replace(b"exit\n", b"exit hi=1\n")
    judge(
        "a bound from above", (DONE, b"# block 3 weight 2 count 1\n# end 40\n", b""), ["build", "bin", "perf", "cfg"],
        told=lambda out: b"".join(re.findall(rb"# (?:block 3|end) .*\n", without_prices(out))),
        bin=ONE, perf=TWO_SAMPLES, cfg=bounded,
    )
    repaired(
        "bounds that no counts meet", TWO_SAMPLES, bounded.replace(b"0x401008\nblock 1", b"0x401008 lo=2\nblock 1"),
        b"# function f0000 cut 0\n# block 0 weight 1 in 0 out 1\n# block 1 weight 1 in 1 out 1\n"
        b"# block 2 weight 1 in 1 out 1\n# block 3 weight 2 in 1 out 0\n# end 2 1\n",
    )
    # As many blocks and edges as a function may have: a chain to the exit, and from each block edges that lead no nearer.
    ends_of = [(0, 65535), (0, 0), (1, 0), (1, 1), (1, 2), (1, 3), (1, 4), (1, 5), (1, 65535)]
    ends_of += [pair for n in range(2, 65535) for pair in ((n, n - 1), (n, n), (n, 0), (n, 65535))]
    ends_of += [(65535, 65534), (65535, 65535), (65535, 0)]
    widest = [b"func widest", b"block 0 0x401000 0x401001"]
    widest += [b"block %d 0x%x 0x%x%s" % (n, 0x500000 + n, 0x500001 + n, b" exit" if n == 1 else b"") for n in range(1, 65536)]
    widest += [b"edge %d %d" % pair for pair in ends_of] + [b"end\n"]
    judge(
        "the widest function", (DONE, b"65536 262144 # end 65535\n", b""), ["build", "bin", "perf", "cfg"],
        told=lambda out: b"%d %d " % (out.count(b"# block "), out.count(b"# edge ")) + b"".join(re.findall(rb"# end .*\n", out)),
        bin=ONE, perf=b"0x401000/0x9 0x9/0x401000\n", cfg=b"\n".join(widest),
    )
    # Eight functions of as many blocks: a chain from the one that was sampled to the exit, through all others.
    chain = [b"func chain", b"block 0 0x401000 0x401001"]
    chain += [b"block %d 0x%x 0x%x%s" % (n, 0x500000 + n, 0x500001 + n, b" exit" if n == 1 else b"") for n in range(1, 65536)]
    chain += [b"edge 0 65535"] + [b"edge %d %d" % (n, n - 1) for n in range(2, 65536)] + [b"end\n"]
    chains = 8 * b"\n".join(chain)
    judge(
        "eight chains", (DONE, 8 * b"# end 65535\n", b""), ["build", "bin", "perf", "cfg"],
        told=lambda out: b"".join(re.findall(rb"# end .*\n", out)), bin=ONE, perf=b"0x401000/0x9 0x9/0x401000\n", cfg=chains,
    )
    # One block more than a function may have, and one edge more.
    full = b"func f\n" + b"".join(b"block %d 0x%x 0x%x\n" % (n, n + 1, n + 2) for n in range(65536))
    too_many_edges = full + b"".join(b"edge %d %d\n" % (n // 4, n % 4) for n in range(262145))
    for said, text, blocks, perf in [
        (b"file 3 at 65538: TooManyBlocks", ONE, full + b"block 65536 0x10001 0x10002\n", b""),
        (b"file 3 at 327682: TooManyEdges", ONE, too_many_edges, b""),
        (b"file 3 at 2: BlockOrder", ONE, b"func a\nblock 1 0x1 0x2\n", b""),
        (b"file 3 at 2: BadBound", ONE, b"func a\nblock 0 0x1 0x2 lo=3 hi=2\n", b""),
        (b"file 3 at 3: NoEndLine", ONE, b"func a\nblock 0 0x1 0x2\n", b""),
        (b"file 2 at 1: BadLine", ONE, b"zz\n", b"zz\n"),
        (b"file 1 at 0: NotElf", b"zz\n", b"zz\n", b"zz\n"),
        (b"file 3 at 3: BlockOverlap", ONE, b"func a\nblock 0 0x1 0x3\nblock 1 0x2 0x4\n", b""),
        (b"file 3 at 2: NoBlocks", ONE, b"func a\nend\n", b""),
        (b"file 3 at 2: BadLine", ONE, b"func a\nblock 0 0x1 0x2 never ran\n", b""),
        (b"file 3 at 2: BadLine", ONE, b"func a\nfunc b\n", b""),
        (b"file 3 at 1: BadLine", ONE, b"func a b\n", b""),
        (b"file 3 at 1: BadLine", ONE, b"end\n", b""),
        (b"file 3 at 2: BlockEmpty", ONE, b"func a\nblock 0 0x2 0x2\n", b""),
        (b"file 3 at 3: BlockOverlap", ONE, b"func a\nblock 0 0x5 0x9\nblock 1 0x1 0x6\n", b""),
        (b"file 3 at 2: EdgeEnd", ONE, b"func a\nedge 0 0\n", b""),
        (b"file 3 at 4: EdgeTwice", ONE, b"func a\nblock 0 0x1 0x2\nedge 0 0\nedge 0 0\n", b""),
        (b"file 3 at 2: BadLine", ONE, b"func a\nblock 0 0x1 0x10000000000000000\n", b""),
        (b"file 3 at 2: BadLine", ONE, b"func a\nblock 0 0x1 0x2 lo=17592186044416\n", b""),
        (b"file 3 at 11: BadLine", ONE, BLOCKS + b"block 0 0x1 0x2\n", TWO_SAMPLES),
    ]:
        judge(
            said.decode(), (REFUSED, b"", b"refused: " + said + b"\n"), ["build", "bin", "perf", "cfg"],
            bin=text, perf=perf, cfg=blocks,
        )
    for k, words in enumerate((["x", "perf", "cfg"], ["bin", "x", "cfg"], ["bin", "perf", "x"]), 1):
        judge(
            "file %d missing" % k, (MISSING, b"", b"no such file: %d\n" % k), ["build", *words],
            bin=ONE, perf=b"", cfg=BLOCKS,
        )
    for said, words in [(b"file 1 at 0: NotElf", ["cfg", "x", "x"]), (b"file 2 at 1: BadLine", ["bin", "cfg", "x"])]:
        judge(
            "a bad file before a missing one", (REFUSED, b"", b"refused: " + said + b"\n"), ["build", *words],
            bin=ONE, perf=b"", cfg=BLOCKS,
        )


# The generated function as two blocks, of which the second begins at 0x401020.
HALVES = b"func f0000\nblock 0 0x401000 0x401020\nblock 1 0x401020 0x401040 exit\nedge 0 1\nend\n"


def builds_with_options():
    def halves(title, binary, perf, profile, weights, counts, cost, report, *options, ran=0, outside=0):
        wanted = profile + b"# function f0000 flow\n" + b"".join(
            b"# block %d weight %d count %d\n" % (k, weight, counts) for k, weight in enumerate(weights)
        ) + b"# edge 0 1 %scount %d\n# end %d\n" % (b"weight 0 " if "--edges" in options else b"", counts, cost) + report + (
            b"# ranges ran %d\n# ranges reversed 0\n# ranges outside %d\n# ranges crossing 0\n" % (ran, outside)
            + b"# units read 1 passed 0\n"
        )
        judge(
            title, (DONE, wanted, b""), ["build", *options, "bin", "perf", "cfg"], told=without_prices,
            bin=binary, perf=perf, cfg=HALVES,
        )

    # A block is known by the line that its addresses have with bases too, and counted with its factor.
    copied = changed(ONE, (278, 278, 0x11))
    thrice = b"0x401021/0x9 0x9/0x401020\n" * 3
    report = (
        b"# branches 6\n# entries 0\n# inside 0\n# unmapped FromOutside 0x9 0x401020 3\n# unmapped ToOutside 0x401021 0x9 3\n"
    )
    halves("a discriminator", copied, thrice, b"f0000:3:0\n 2.17: 3\n", (0, 3), 1, 80, report, ran=3)
    halves("its base and its factor", copied, thrice, b"f0000:12:0\n 2: 12\n", (0, 12), 1, 260, report, "--base", ran=3)
    # Addresses that were moved by load lines.
    call = LOAD + b"0x7f0000000034/0x7f0000000000/P/-/-/1"
    called = b"# branches 1\n# entries 1\n# inside 0\n"
    halves("a moved call", ONE, call, b"f0000:0:1\n 3: 0 f0000:1\n", (0, 0), 0, 0, called, "--map=/bin/x")
    halves(
        "a foreign call", ONE, call, b"", (0, 0), 0, 0,
        b"# branches 1\n# entries 0\n# inside 0\n# unmapped FromOutside 0x0 0x0 1\n", "--map=/bin/y",
    )
    moved = LOAD + b"0x7f0000000004/0x9 0x9/0x7f0000000000"
    entered = b"# branches 2\n# entries 1\n# inside 0\n# unmapped ToOutside 0x401004 0x0 1\n"
    halves("a moved range", ONE, moved, b"f0000:1:1\n 0: 1\n", (1, 0), 1, 11, entered, "--map=/bin/x", ran=1)
    # All options, in each order: an edge that nothing took costs 3 more.
    for options in itertools.permutations(["--map=/bin/x", "--base", "--edges"]):
        halves(" ".join(options), ONE, moved, b"f0000:1:1\n 0: 1\n", (1, 0), 1, 14, entered, *options, ran=1)
    # A branch over the edge that was moved with its text.
    judge(
        "a moved branch over an edge",
        (DONE, b"# edge 0 1 weight 1 count 1\n", b""), ["build", "--edges", "--map=/bin/x", "bin", "perf", "cfg"],
        told=lambda out: b"".join(re.findall(rb"# edge .*\n", out)), bin=ONE,
        perf=LOAD + b"0x7f0000000004/0x7f0000000020 0x9/0x7f0000000000", cfg=HALVES,
    )


def block_texts():
    def judged(title, text, said):
        judge("a block text: " + title, (REFUSED, b"", b"refused: " + said + b"\n"), ["check", "cfg", "out"], cfg=text, out=b"")

    def good(text):
        # No repair is told of its functions, and nothing else is wrong.
        judged(repr(text), text, b"file 2 at 1: Missing")

    def bad(at, kind, text):
        judged(repr(text), text, b"file 1 at %d: %s" % (at, kind))

    def block(line):
        return b"func a\n" + line + b"\nend\n"

    def blocks(*extents):
        return b"func a\n" + b"".join(b"block %d 0x%x 0x%x\n" % (k, *extent) for k, extent in enumerate(extents))

    # Which lines there are, and where they stand.
    for line in [b"func", b"func a b", b"end", b"block 0 0x1 0x2", b"edge 0 0", b"Func a", b" # func", b"\xef\xbb\xbffunc a"]:
        bad(1, b"BadLine", line + b"\n")
    bad(3, b"BadLine", blocks((1, 2)) + b"func b\n")
    bad(3, b"BadLine", blocks((1, 2)) + b"end end\n")
    bad(3, b"BadLine", blocks((1, 2)) + b"end\r\n")
    bad(4, b"BadLine", blocks((1, 2)) + b"edge 0 0\nblock 1 0x2 0x3\n")
    bad(2, b"NoBlocks", b"func a\nend\nzz\n")
    bad(3, b"NoEndLine", b"func a\nblock 0 0x1 0x2")
    bad(4, b"NoEndLine", b"func a\nblock 0 0x1 0x2\n\n")
    good(b"# a\n\n \t\nfunc\ta\n \tblock 00  0x1\t0x2 \n#\nend ")
    good(2 * (blocks((1, 3)) + b"end\n") + b"func b\nblock 0 0x2 0x4\nend\n")
    # Blocks: the next number, not empty, apart from all before, and a bound that some count meets, in this order.
    bad(3, b"BlockOrder", b"func a\nblock 0 0x1 0x3\nblock 0 0x3 0x4\n")
    bad(3, b"BlockOrder", b"func a\nblock 0 0x1 0x3\nblock 2 0x2 0x2 lo=1 hi=0\n")
    bad(2, b"BlockEmpty", blocks((2, 2)))
    bad(3, b"BlockEmpty", blocks((1, 5), (3, 2)))
    bad(4, b"BlockOverlap", blocks((1, 3), (5, 7), (2, 4)))
    bad(3, b"BlockOverlap", blocks((1, 9), (3, 5)))
    bad(3, b"BlockOverlap", blocks((3, 5), (1, 9)))
    bad(3, b"BlockOverlap", blocks((1, 3)) + b"block 1 0x2 0x4 lo=3 hi=2\n")
    bad(2, b"BadBound", b"func a\nblock 0 0x1 0x2 lo=1 hi=0\n")
    good(blocks((5, 7), (3, 5), (7, 9)) + b"end\n")
    for line in [
        b"block 0 1 0x2", b"block 0 0x1 2", b"block 0 0X1 0x2", b"block 0 0x 0x2", b"block 0 0x1 0x10000000000000000", b"block 0x0 0x1 0x2",
        b"block -0 0x1 0x2", b"block 18446744073709551616 0x1 0x2", b"block 0 0x1", b"block 0 0x1 0x2 exit exit", b"block 0 0x1 0x2 lo=1 exit",
        b"block 0 0x1 0x2 ran exit", b"block 0 0x1 0x2 Exit", b"block 0 0x1 0x2 hi=3 lo=2", b"block 0 0x1 0x2 lo=2 lo=3", b"block 0 0x1 0x2 ran ran",
        b"block 0 0x1 0x2 never hi=0", b"block 0 0x1 0x2 lo=1 hi=2 ran", b"block 0 0x1 0x2 lo=", b"block 0 0x1 0x2 lo= 1", b"block 0 0x1 0x2 lo=0x1",
        b"block 0 0x1 0x2 lo=-1", b"block 0 0x1 0x2 lo=17592186044416", b"block 0 0x1 0x2 hi=17592186044416", b"block 0 0x1 0x2 lo=1 hi=17592186044416",
    ]:
        bad(2, b"BadLine", block(line))
    for line in [
        b"block 0 0xa 0xB", b"block 0 0x00000000000000001 0xffffffffffffffff", b"block 0 0x1 0x2 exit never", b"block 0 0x1 0x2 exit ran",
        b"block 0 0x1 0x2 exit lo=2 hi=2", b"block 0 0x1 0x2 lo=17592186044415", b"block 0 0x1 0x2 hi=017592186044415", b"block 0 0x1 0x2 lo=0 hi=0",
    ]:
        good(block(line))
    # Edges: both ends, once, and a bound, in this order.
    for line in [b"edge 0 2", b"edge 2 0", b"edge 0 4294967296", b"edge 18446744073709551615 0", b"edge 0 2 lo=3 hi=2"]:
        bad(4, b"EdgeEnd", blocks((1, 2), (2, 3)) + line + b"\n")
    for line in [b"edge 0 18446744073709551616", b"edge 0", b"edge 0 0 ran", b"edge 0 0 exit", b"edge 0 0x1", b"edge 0 0 hi=1 lo=1"]:
        bad(4, b"BadLine", blocks((1, 2), (2, 3)) + line + b"\n")
    bad(5, b"EdgeTwice", blocks((1, 2), (2, 3)) + b"edge 0 1\nedge 0 1 lo=3 hi=2\n")
    bad(4, b"BadBound", blocks((1, 2), (2, 3)) + b"edge 0 1 lo=3 hi=2\n")
    good(blocks((1, 2), (2, 3)) + b"edge 0 1 lo=2 hi=2\nedge 1 0 never\nedge 1 1\nedge 00 0 hi=3\nend\n")


def weights():
    def found(title, binary, perf, blocks, wanted, *options):
        told = lambda out: b"".join(re.findall(rb"# (?:block|edge|end) .*\n", without_prices(out)))
        judge("weighed: " + title, (DONE, wanted, b""), ["build", *options, "bin", "perf", "cfg"], told=told, bin=binary, perf=perf, cfg=blocks)

    def at(address, times, last=None):
        """A range from this address up to the last one, or of it alone, so many times."""
        return b"0x%x/0x9 0x9/0x%x\n" % (last or address, address) * times

    # The largest count of the keys of a block, wherever a key ran so often: neither the first, nor a sum. One call has to come,
    # and one more through both blocks costs 11 and saves 10.
    halves = b"# block 0 weight %d count %d\n# block 1 weight %d count %d\n# edge 0 1 count %d\n# end %d\n"
    found("the largest of two lines", ONE, at(0x401001, 2) + at(0x401008, 3), HALVES, halves % (3, 1, 0, 1, 1, 31))
    single = b"# block 0 weight %s count %d\n# end %d\n"
    part = b"func part\nblock 0 0x%x 0x%x exit\nend\n"
    found("a line that ran behind the block", ONE, at(0x401005, 5), part % (0x401000, 0x401004), single % (b"5", 5, 0))
    found("a line that begins behind the block", ONE, at(0x401008, 5), part % (0x401000, 0x401008), single % (b"0", 0, 0))
    found("addresses outside of the function", ONE, at(0x401000, 5), part % (0x400FF0, 0x401008), single % (b"5", 5, 0))
    # Where `outer` and `inner` lie over one another, a block of `inner` has the lines of `outer`, and behind that its own.
    within = b"func inner\nblock 0 0x%x 0x%x exit\nend\n"
    found("a block of another function's lines", CHAINED, at(0x401079, 3), within % (0x401078, 0x401090), single % (b"3", 3, 0))
    found("the larger of both", CHAINED, at(0x401088, 1) + at(0x401090, 2), within % (0x401088, 0x401098), single % (b"2", 2, 0))
    # Two functions of one name, the second from line 9: its first line is the second one of the other.
    alike = changed(TWO, (233, 233, 0x30), (235, 235, 0x09))
    for ran, block in (0x401040, 0x401008), (0x401008, 0x401040):
        found("a line of another function of the name", alike, at(ran, 4), part % (block, block + 8), single % (b"4", 4, 0))
    found("addresses of two functions", TWO, at(0x401030, 2) + at(0x401040, 4), part % (0x401030, 0x401048), single % (b"4", 4, 0))
    found("addresses without a line alone", ONE, at(0x401000, 5), part % (0x401040, 0x401048), single % (b"?", 0, 0))
    found("calls are no runs", ONE, b"0x401034/0x401000\n" * 3, part % (0x401000, 0x401008), single % (b"0", 0, 0))

    # Both ways over an edge add up, and an edge below its weight costs 4.
    over = b"# block 0 weight %b count %d\n# block 1 weight %b count %d\n# edge 0 1 weight %b count %d\n# end %d\n"
    both = b"0x401004/0x401020\n" + at(0x401018, 1, 0x401028)
    found("a branch and running on", ONE, both, HALVES, over % (b"1", 1, b"1", 1, b"2", 1, 4), "--edges")
    often = b"0x401004/0x401020\n" * 2 + at(0x401018, 3, 0x401028)
    found("a branch twice and running on three times", ONE, often, HALVES, over % (b"3", 3, b"3", 3, b"5", 3, 8), "--edges")
    found("a branch alone", ONE, b"0x40101f/0x401020", HALVES, over % (b"0", 0, b"0", 0, b"1", 0, 4), "--edges")
    # From behind the block, past the start of the next one, and up to its end: nothing went over.
    for title, branch in [("from the next block", b"0x401020/0x401020"), ("past its start", b"0x401004/0x401021"), ("from in front", b"0x400fff/0x401020")]:
        found("a branch " + title, ONE, branch, HALVES, over % (b"0", 0, b"0", 0, b"0", 0, 0), "--edges")
    found("a range up to the end", ONE, at(0x401010, 1, 0x40101F), HALVES, over % (b"1", 1, b"0", 1, b"0", 1, 14), "--edges")
    found("a range from the start", ONE, at(0x401020, 1, 0x40102F), HALVES, over % (b"0", 1, b"1", 1, b"0", 1, 43), "--edges")
    found("a range one further", ONE, at(0x40101F, 1, 0x401020), HALVES, over % (b"1", 1, b"1", 1, b"1", 1, 0), "--edges")
    # A range from one function into another did not run.
    crossing = b"func a\nblock 0 0x401030 0x401040\nblock 1 0x401040 0x401050 exit\nedge 0 1\nend\n"
    found("a range that crosses", TWO, at(0x401030, 1, 0x401050), crossing, over % (b"0", 0, b"0", 0, b"0", 0, 0), "--edges")
    # An edge is known where both of its blocks are.
    for known, first, second in [((b"5", b"?"), 0x401000, 0x501000), ((b"?", b"5"), 0x501000, 0x401000)]:
        apart = b"func a\nblock 0 0x%x 0x%x\nblock 1 0x%x 0x%x exit\nedge 0 1\nend\n" % (first, first + 8, second, second + 8)
        found(f"one unknown block, {known}", ONE, at(0x401000, 5), apart, over % (known[0], 5, known[1], 5, b"?", 5, 5), "--edges")
        found(f"a branch over it, {known}", ONE, at(0x401000, 5) + b"0x%x/0x%x" % (first, second), apart, over % (known[0], 5, known[1], 5, b"?", 5, 5), "--edges")

    # What bounds ask without a sample, at each price: 40 for block 0, 11 for another, 1 for an unknown one.
    told = lambda title, blocks, *numbers: found(title, ONE, b"", blocks, counted((b"0",) * 4, *numbers).split(b"\n", 1)[1])
    told("a block that ran", BLOCKS.replace(b"0x401020\n", b"0x401020 ran\n", 1), (1, 0, 1, 1, 0, 1, 0, 1), 62)
    told("an edge that was taken twice", BLOCKS.replace(b"edge 0 2", b"edge 0 2 lo=2"), (2, 0, 2, 2, 0, 2, 0, 2), 124)
    found("an unknown block that ran", ONE, b"", b"func far\nblock 0 0x1 0x2 exit ran\nend\n", single % (b"?", 1, 1))
    # An edge that is never taken: all goes by block 2, at 60 * 20 below and 100 * 11 above.
    uneven = at(0x401001, 100) + at(0x401008, 60) + at(0x401020, 100)
    found(
        "an edge that is never taken", ONE, uneven, BLOCKS.replace(b"edge 0 1", b"edge 0 1 never"),
        counted((b"100", b"60", b"0", b"100"), (100, 0, 100, 100, 0, 100, 0, 100), 2300).split(b"\n", 1)[1],
    )


# Counts that repair the weights 100, 60, 0 and 100 of that function, with prices that fit them; and a cut of the loop.
COUNTS = (
    b"# function f0000 flow\n# block 0 weight 100 count 100 in 0 out 0\n# block 1 weight 60 count 100 in 0 out 10\n"
    b"# block 2 weight 0 count 0 in 0 out 10\n# block 3 weight 100 count 100 in 10 out 0\n"
    b"# edge 0 1 count 100\n# edge 0 2 count 0\n# edge 1 3 count 100\n# edge 2 3 count 0\n# end 400\n"
)
CUT = b"# function loop cut 0\n# block 0 weight 5 in 1 out 1\n# block 1 weight 0 in 1 out 1\n# end 1 0\n"
# The weights 1, 1, 1 and 2, with the weights of edges.
WEIGHED = (
    b"# function f0000 flow\n# block 0 weight 1 count 2 in 0 out 40\n# block 1 weight 1 count 1 in 40 out 20\n"
    b"# block 2 weight 1 count 1 in 40 out 20\n# block 3 weight 2 count 2 in 20 out 0\n# edge 0 1 weight 1 count 1\n"
    b"# edge 0 2 weight 1 count 1\n# edge 1 3 weight 1 count 1\n# edge 2 3 weight 1 count 1\n# end 40\n"
)
BOUNDED = BLOCKS.replace(b"exit\n", b"exit hi=1\n").replace(b"0x401008\nblock 1", b"0x401008 lo=2\nblock 1")
BOUNDED_CUT = (
    b"# function f0000 cut 0\n# block 0 weight 1 in 0 out 1\n# block 1 weight 1 in 1 out 1\n"
    b"# block 2 weight 1 in 1 out 1\n# block 3 weight 2 in 1 out 0\n# end 2 1\n"
)


def shown():
    """The repair text that docs/FORMATS.md shows."""
    page = TOP / "docs" / "FORMATS.md"
    with open(page, "rb") as text:
        return found_in(rb"```\n(# function f0000 flow\n.*?)```", text.read(), re.DOTALL)[1]


def with_line(text, number, line):
    """A text with another line in the place of this one, or without it."""
    lines = text.splitlines(keepends=True)
    lines[number - 1 : number] = [] if line is None else [line + b"\n"]
    return b"".join(lines)


def checks():
    def check(title, blocks, text, wanted):
        judge(title, wanted, ["check", "cfg", "out"], cfg=blocks, out=text)

    def passes(title, blocks, text, functions=1):
        check("checked: " + title, blocks, text, (DONE, b"checked %d\n" % functions, b""))

    def fails(line, text, blocks=BLOCKS):
        check("fails at line %d" % line, blocks, text, (FAILED, b"", b"check failed at line %d\n" % line))

    def bad(said, text, blocks=BLOCKS):
        check(said.decode(), blocks, text, (REFUSED, b"", b"refused: " + said + b"\n"))

    passes("counts", BLOCKS, COUNTS)
    passes("a cut", LOOP, CUT)
    two = b"func f0000\nblock 0 0x401000 0x401008\nblock 1 0x401008 0x401010 exit\nedge 0 1\nend\n"
    passes("what docs/FORMATS.md shows", two + LOOP, shown(), 2)
    passes("weights of edges", BLOCKS, WEIGHED)
    passes("a cut by bounds", BOUNDED, BOUNDED_CUT)
    passes("no function", b"", b"", 0)
    passes("two functions, other lines outside of them", BLOCKS + LOOP, b"a\n" + COUNTS + b"# end 7\n\n#function x\n" + CUT + b"b", 2)
    passes("spaces and leading zeros", BLOCKS, COUNTS.replace(b" count 1", b"  \tcount 001").replace(b" in 0", b" in -0"))
    passes("the last line not ended", BLOCKS, COUNTS[:-1])

    # The first line that breaks its test, and not the first test that some line breaks.
    fails(4, with_line(COUNTS, 4, b"# block 2 weight 0 count 1 in 0 out 10"))
    fails(10, with_line(COUNTS, 10, b"# end 401"))
    fails(3, with_line(COUNTS, 3, b"# block 1 weight 60 count 100 in 0 out 9"))
    fails(4, with_line(with_line(COUNTS, 4, b"# block 2 weight 0 count 1 in 0 out 10"), 10, b"# end 401"))
    fails(2, with_line(COUNTS, 2, b"# block 0 weight 100 count 100 in 1 out 0"))
    fails(5, with_line(COUNTS, 5, b"# block 3 weight 100 count 100 in 10 out 1"))
    # Edges that in 64 bits add up to the count of their block, and prices of which the difference in 64 bits would fit.
    around = with_line(COUNTS, 6, b"# edge 0 1 count 9223372036854775858")
    fails(2, with_line(around, 7, b"# edge 0 2 count 9223372036854775858"))
    fails(3, with_line(COUNTS, 3, b"# block 1 weight 60 count 100 in 9223372036854775803 out -9223372036854775803"))
    # A price that fits the block and not the edge that leads on.
    fails(6, with_line(COUNTS, 2, b"# block 0 weight 100 count 100 in 0 out 10"))
    fails(4, with_line(CUT, 4, b"# end 2 0"), LOOP)
    fails(4, with_line(CUT, 2, b"# block 0 weight 5 in 0 out 1"), LOOP)
    fails(6, with_line(BOUNDED_CUT, 6, b"# end 1 1"), BOUNDED)
    fails(2, WEIGHED, BOUNDED.replace(b" lo=2", b" hi=1"))
    fails(2, with_line(WEIGHED, 7, b"# edge 0 2 weight 1 count 2"))
    fails(6, WEIGHED, BLOCKS.replace(b"edge 0 1\n", b"edge 0 1 never\n"))

    # Of two functions that fail the first, and of two tests the first.
    fails(10, with_line(COUNTS, 10, b"# end 401") + with_line(CUT, 4, b"# end 2 0"), BLOCKS + LOOP)
    fails(6, with_line(with_line(COUNTS, 2, b"# block 0 weight 100 count 100 in 0 out 10"), 10, b"# end 401"))
    # A block at its upper bound, over which the price may rise, and one at its lower bound, over which it may fall.
    full = (
        b"# function f0000 flow\n# block 0 weight 1 count 1 in 0 out 30\n# block 1 weight 1 count 1 in 30 out 10\n"
        b"# block 2 weight 1 count 0 in 30 out 10\n# block 3 weight 2 count 1 in 10 out 0\n# edge 0 1 count 1\n"
        b"# edge 0 2 count 0\n# edge 1 3 count 1\n# edge 2 3 count 0\n# end 40\n"
    )
    passes("a block at its upper bound", BLOCKS.replace(b"exit\n", b"exit hi=1\n"), full)
    fails(5, full, BLOCKS.replace(b"exit\n", b"exit hi=2\n"))
    chain = b"func a\nblock 0 0x1 0x2\nblock 1 0x2 0x3 exit ran\nedge 0 1\nend\n"
    ran = b"# function a flow\n# block 0 weight %b count 1 in 0 out %d\n# block 1 weight %b count 1 in %d out 0\n# edge 0 1 %bcount 1\n# end %d\n"
    passes("unknown blocks that ran", chain, ran % (b"?", 1, b"?", 1, b"", 2))
    passes("blocks that ran and were not sampled", chain, ran % (b"0", 40, b"0", 40, b"", 51))
    passes("an edge of weight 0", chain, ran % (b"0", 40, b"0", 43, b"weight 0 ", 54))
    for cost in 50, 52:
        fails(5, ran % (b"0", 40, b"0", 40, b"", cost), chain)
    fails(3, ran % (b"?", 1, b"?", 1, b"", 2), chain.replace(b" ran", b""))
    # Counts at which prices of 0 fit, and which do not conserve: a call into block 1, a return from block 0, and more that leaves
    # an exit than ran there.
    kept = b"# function a flow\n# block 0 weight %d count %d in 0 out 0\n# block 1 weight %d count %d in 0 out 0\n# edge 0 1 count %d\n# end 0\n"
    for number, blocks, counts in (None, chain, (2, 2, 2)), (3, chain, (1, 2, 1)), (2, chain, (2, 1, 1)), (3, chain, (2, 1, 2)), (2, chain, (1, 2, 2)):
        text = kept % (counts[0], counts[0], counts[1], counts[1], counts[2])
        if number:
            fails(number, text, blocks)
        else:
            passes("what was sampled conserves", blocks, text)
    three = b"func a\nblock 0 0x1 0x2\nblock 1 0x2 0x3 exit\nblock 2 0x3 0x4 exit\nedge 0 1\nedge 1 2\nend\n"
    left = b"".join(b"# block %d weight %d count %d in 0 out 0\n" % (k, count, count) for k, count in enumerate((1, 1, 2)))
    fails(3, b"# function a flow\n" + left + b"# edge 0 1 count 1\n# edge 1 2 count 2\n# end 0\n", three)
    # Who was sampled was called; who was not need not be.
    idle = b"# function loop flow\n# block 0 weight 0 count 0 in 0 out 0\n# block 1 weight 0 count 0 in 0 out 0\n# edge 0 1 count 0\n# edge 1 0 count 0\n# end 0\n"
    passes("a loop that was not sampled", LOOP, idle)
    fails(2, re.sub(rb"(weight|count) 0", rb"\1 1", idle), LOOP)
    # Cuts: equal sums show nothing, what leaves has to have a bound, its lower bound counts for nothing, and the outside may be in it.
    fails(4, CUT.replace(b"weight 5", b"weight 0").replace(b"# end 1 0", b"# end 0 0"), LOOP)
    fails(4, with_line(with_line(CUT, 2, b"# block 0 weight 5 in 1 out 0"), 3, b"# block 1 weight 0 in 0 out 0"), LOOP)
    passes("a cut over what has a lower bound as well", BOUNDED.replace(b"exit hi=1", b"exit lo=1 hi=1"), BOUNDED_CUT)
    passes("a cut with an unknown block", LOOP, CUT.replace(b"weight 0", b"weight ?"))
    twice = b"func a\nblock 0 0x1 0x2 hi=1\nblock 1 0x2 0x3 exit lo=2\nedge 0 1\nend\n"
    outside = b"# function a cut %d\n# block 0 weight ? in 1 out 0\n# block 1 weight ? in 0 out 1\n# end 2 1\n"
    passes("a cut with the outside", twice, outside % 1)
    fails(4, outside % 0, twice)
    passes("bits with zeros in front", LOOP, CUT.replace(b"cut 0", b"cut 00").replace(b"in 1", b"in 01"))

    # Each cause of each line, the first of two where both hold.
    bad(b"file 2 at 11: Missing", COUNTS.replace(b"# function", b"#  function"))
    bad(b"file 2 at 1: WrongFunction", CUT + COUNTS, BLOCKS + LOOP)
    bad(b"file 2 at 11: BadLine", COUNTS + b"# function f0001\n")
    bad(b"file 2 at 6: WrongEdge", with_line(with_line(COUNTS, 6, b"# edge 0 2 count 0"), 7, b"# edge 0 1 count 100"))
    bad(b"file 2 at 2: BadLine", with_line(CUT, 2, b"# block 0 weight 5 count 5 in 1 out 1"), LOOP)
    bad(b"file 2 at 2: BadLine", with_line(COUNTS, 2, b"# block 0 weight ?? count 100 in 0 out 0"))
    bad(b"file 2 at 4: WrongBlock", with_line(COUNTS, 4, None))
    bad(b"file 2 at 10: Missing", with_line(COUNTS, 10, None))
    bad(b"file 2 at 1: Missing", b"")
    bad(b"file 2 at 2: Missing", b"# functions\n")
    bad(b"file 2 at 5: Missing", b"".join(COUNTS.splitlines(keepends=True)[:4]))
    for k, line in [
        (1, b"# function f0000 cut"), (1, b"# function f0000 cut 2"), (1, b"# function f0000 flow 0"), (1, b"# function g cut 2"),
        (2, b""), (2, b"# function f0000 flow"), (2, b"# block 1 weight 100 count 100 in 0 out"), (2, b"# block 0 weight 100 in 0 out 0"),
        (2, b"# block 0 weight 17592186044416 count 100 in 0 out 0"), (2, b"# block 0 weight 100 count 18446744073709551616 in 0 out 0"),
        (2, b"# block 0 weight 100 count 100 in 9223372036854775808 out 0"), (2, b"# block 0 weight 100 count 100 in 0 out -9223372036854775809"),
        (2, b"# block 0 weight 100 count 100 in 0 out 0\r"), (2, b"block 0 weight 100 count 100 in 0 out 0"), (2, b"# end 1 0"),
        (6, b"# edge 0 1 count 18446744073709551616"), (6, b"# edge 0 1 weight 17592186044416 count 1"), (6, b"# edge 0 count 1"),
        (10, b"# end 340282366920938463463374607431768211456"), (10, b"# end 1 0"), (10, b"# end -1"),
    ]:
        bad(b"file 2 at %d: BadLine" % k, with_line(COUNTS, k, line))
    for k, line in [
        (2, b"# block 0 weight 17592186044415 count 18446744073709551615 in 9223372036854775807 out -9223372036854775808"),
        (6, b"# edge 0 1 weight 17592186044415 count 18446744073709551615"), (10, b"# end 340282366920938463463374607431768211455"),
    ]:
        fails(2 if k != 10 else 10, with_line(COUNTS, k, line))
    bad(b"file 2 at 1: WrongFunction", with_line(COUNTS, 1, b"# function f0001 flow"))
    bad(b"file 2 at 11: Extra", COUNTS + b"# function f0001 flow\n")
    bad(b"file 2 at 6: Extra", with_line(COUNTS, 6, b"# block 7 weight 1 count 1 in 0 out 0"))
    bad(b"file 2 at 10: Extra", with_line(COUNTS, 10, b"# edge 2 3 count 0"))
    bad(b"file 2 at 4: Extra", with_line(CUT, 4, b"# edge 5 5 count 0"), LOOP)
    bad(b"file 2 at 2: WrongBlock", with_line(COUNTS, 2, b"# block 1 weight 100 count 100 in 0 out 0"))
    bad(b"file 2 at 2: Missing", with_line(COUNTS, 2, b"# edge 0 2 count 0"))
    bad(b"file 2 at 6: WrongEdge", with_line(COUNTS, 6, b"# edge 1 0 count 100"))
    bad(b"file 2 at 5: Missing", with_line(COUNTS, 5, b"# end 400"))
    bad(b"file 2 at 9: Missing", with_line(COUNTS, 9, b"# end 400"))
    bad(b"file 1 at 2: BlockOrder", b"zz\n", b"func a\nblock 1 0x1 0x2\n")
    for k, words in enumerate((["x", "out"], ["cfg", "x"]), 1):
        judge(
            "checked: file %d missing" % k, (MISSING, b"", b"no such file: %d\n" % k), ["check", *words],
            cfg=BLOCKS, out=COUNTS,
        )
    for words in (["check", "cfg"], ["check", "cfg", "out", "out"], ["check", "--base", "cfg", "out"]):
        judge("checked: " + " ".join(words), (BAD_WORDS, b"", USAGE), words, cfg=BLOCKS, out=COUNTS)

    # What `build` wrote, as it is, with the weights of edges and without.
    options: Any
    for title, blocks, perf, options in [
        ("a profile in front", BLOCKS, TWO_SAMPLES, []), ("edges", BLOCKS + LOOP, TWO_SAMPLES, ["--edges"]),
        ("cuts", LOOP + BOUNDED, TWO_SAMPLES, []), ("nothing sampled", BLOCKS + LOOP, b"", ["--edges"]),
    ]:
        built = run(["build", *options, "bin", "perf", "cfg"], {"bin": ONE, "perf": perf, "cfg": blocks})
        passes("what build wrote, " + title, blocks, built.out, blocks.count(b"func "))


# The profile of those weights, and the generated function as one block that leaves at once.
SAMPLED = b"f0000:260:0\n 0: 100\n 1: 60\n 2.2: 100\n"
FRONT = b"func front\nblock 0 0x401000 0x401010 exit\nend\n"


def at_once(weight, name=b"front"):
    """The counts of a function of one block, which are its weight."""
    return b"# function %s flow\n# block 0 weight %d count %d in 0 out 0\n# end 0\n" % (name, weight, weight)


def lifts():
    def lift(title, blocks, text, wanted, *options, binary=ONE):
        judge(title, wanted, ["lift", *options, "bin", "cfg", "out"], bin=binary, cfg=blocks, out=text)

    def lifted(title, blocks, text, wanted, *options):
        lift("lifted: " + title, blocks, text, (DONE, wanted, b""), *options)

    def bad(said, text, blocks=BLOCKS, binary=ONE):
        lift("lifted: " + said.decode(), blocks, text, (REFUSED, b"", b"refused: " + said + b"\n"), binary=binary)

    def fails(line, text, blocks=BLOCKS):
        lift("lifted: fails at line %d" % line, blocks, text, (FAILED, b"", b"check failed at line %d\n" % line))

    # Blocks 0, 1 and 3 have the count 100; block 2, of which the lines are those of the call of `g`, has 0.
    all_lines = b"f0000:400:0\n 0: 100\n 1: 100\n 2.2: 100\n 3: 100\n"
    lifted("counts", BLOCKS, SAMPLED + COUNTS, all_lines)
    lifted("no line before", BLOCKS, COUNTS, all_lines)
    lifted("lines behind the repairs", BLOCKS, COUNTS + SAMPLED, all_lines)
    lifted("a report behind", BLOCKS, SAMPLED + COUNTS + b"# branches 520\n# entries 0\n", all_lines)
    lifted("a cut", LOOP, b"f0000:5:5\n 0: 5\n" + CUT, b"f0000:5:5\n 0: 5\n")
    lifted("no function", b"", SAMPLED, SAMPLED)
    lifted("nothing", b"", b"", b"")
    lifted("a function with a cut behind one with counts", BLOCKS + LOOP, SAMPLED + COUNTS + CUT, all_lines)
    # Bases are told apart as `where` tells them: 2.1 is the place, and 2.2 none.
    lifted("bases", BLOCKS, COUNTS, b"f0000:400:0\n 0: 100\n 1: 100\n 2.1: 100\n 3: 100\n", "--base")
    lifted(
        "bases, and a line of another place", BLOCKS, SAMPLED + COUNTS,
        b"f0000:500:0\n 0: 100\n 1: 100\n 2.1: 100\n 2.2: 100\n 3: 100\n", "--base",
    )
    # Two functions over one address: the larger of their counts, whichever stands first, and not their sum.
    for weight, first in (150, 150), (20, 100):
        wanted = b"f0000:%d:0\n 0: %d\n 1: %d\n 2.2: 100\n 3: 100\n" % (2 * first + 200, first, first)
        lifted("two functions, %d" % weight, BLOCKS + FRONT, COUNTS + at_once(weight), wanted)
        lifted("two functions, %d in front" % weight, FRONT + BLOCKS, at_once(weight) + COUNTS, wanted)
    # A count of 0 is a count, also for the lines of a call; targets, heads and other functions stay as they are.
    lifted(
        "counts of 0", BLOCKS, b"f0000:9:4\n 2.1: g:9\n  1: 9\n" + COUNTS, b"f0000:400:4\n 0: 100\n 1: 100\n 2.2: 100\n 3: 100\n",
    )
    lifted(
        "a count of 0 with a target", BLOCKS, b"f0000:9:4\n 3: 7 x:9\n 2.1: g:9\n  1: 9 y:3 z:5\n" + COUNTS,
        b"f0000:400:4\n 0: 100\n 1: 100\n 2.2: 100\n 3: 100 x:9\n 2.1: g:0\n  1: 0 z:5 y:3\n",
    )
    lifted(
        "a count of 0 alone", FRONT, b"f0000:9:4\n 0: 9\nh:0:18446744073709551615\n" + at_once(0), b"f0000:0:4\nh:0:18446744073709551615\n",
    )
    lifted(
        "lines that the binary has not", BLOCKS, b"other:3:1\n 1: 3\nf0000:7:0\n 9: 4\n 2.1: k:3\n  1: 3\n" + COUNTS,
        b"f0000:407:0\n 0: 100\n 1: 100\n 2.2: 100\n 3: 100\n 9: 4\n 2.1: k:3\n  1: 3\nother:3:1\n 1: 3\n",
    )
    lift(
        "lifted: a block of two functions' lines", b"func inner\nblock 0 0x401078 0x401098 exit\nend\n", at_once(5, b"inner"),
        (DONE, b"outer:15:0\n 10: 5\n 11: 5\n 12: 5\ninner:5:0\n 6: 5\n", b""), binary=CHAINED,
    )
    lifted("a block of no line", FRONT.replace(b"0x4010", b"0x5010"), SAMPLED + at_once(9), SAMPLED)
    most = 2**64 - 1
    lifted(
        "totals that stand still", b"", b"f0000:0:0\n 0: %d\n 1: %d\n" % (most, most), b"f0000:%d:0\n 0: %d\n 1: %d\n" % (most, most, most),
    )

    # The first line that fails is one of file 3, behind four lines of the profile; nothing is written.
    fails(14, SAMPLED + with_line(COUNTS, 10, b"# end 401"))
    fails(10, with_line(COUNTS, 10, b"# end 401") + SAMPLED)
    fails(8, SAMPLED + with_line(COUNTS, 4, b"# block 2 weight 0 count 1 in 0 out 10"))
    fails(4, with_line(CUT, 4, b"# end 2 0"), LOOP)

    # All lines as those of a profile first, then as those of repairs, and then the tests.
    bad(b"file 3 at 11: BadLine", with_line(COUNTS, 1, b"# function g flow") + b"f0000\n")
    bad(b"file 3 at 12: KeyTwice", with_line(COUNTS, 10, b"# end 401") + b"f0000:0:0\nf0000:0:0\n")
    bad(b"file 3 at 1: BadIndent", b" 0: 1\n" + COUNTS)
    bad(b"file 3 at 1: TooDeep", b" " * 257 + b"0: 1\n" + COUNTS)
    bad(b"file 3 at 5: WrongFunction", SAMPLED + with_line(with_line(COUNTS, 1, b"# function g flow"), 10, b"# end 401"))
    bad(b"file 3 at 15: Extra", SAMPLED + with_line(COUNTS, 10, b"# end 401") + b"# function g flow\n")
    bad(b"file 3 at 5: Missing", SAMPLED)
    bad(b"file 3 at 6: BadLine", SAMPLED + with_line(COUNTS, 2, b"0: 1"))
    bad(b"file 2 at 2: NoBlocks", b"zz\n", b"func a\nend\n")
    bad(b"file 1 at 0: NotElf", b"zz\n", b"zz\n", b"zz\n")
    bad(b"file 2 at 1: BadLine", SAMPLED + COUNTS, SAMPLED + COUNTS)
    for k, words in enumerate((["x", "cfg", "out"], ["bin", "x", "out"], ["bin", "cfg", "x"]), 1):
        judge(
            "lifted: file %d missing" % k, (MISSING, b"", b"no such file: %d\n" % k), ["lift", *words],
            bin=ONE, cfg=BLOCKS, out=COUNTS,
        )
    for said, words in [(b"file 1 at 0: NotElf", ["cfg", "x", "x"]), (b"file 2 at 1: BadLine", ["bin", "out", "x"])]:
        judge(
            "lifted: a bad file before a missing one", (REFUSED, b"", b"refused: " + said + b"\n"), ["lift", *words],
            bin=ONE, cfg=BLOCKS, out=SAMPLED + COUNTS,
        )
    for spelled in [
        "lift", "lift bin cfg", "lift bin cfg out out", "lift --map=/x bin cfg out", "lift --edges bin cfg out", "lift --scaled bin cfg out",
        "lift --base --base bin cfg out", "lift bin cfg out --base", "lift --bases bin cfg out", "lifts bin cfg out", "lift --base bin cfg",
    ]:
        judge("lifted: " + spelled, (BAD_WORDS, b"", USAGE), spelled.split(), bin=ONE, cfg=BLOCKS, out=COUNTS)

    # What `build` wrote, as it is; what was lifted of it is a profile, and lifts to itself behind the same repairs.
    options: Any
    for options in [], ["--base"], ["--edges"], ["--base", "--edges"]:
        files = {"bin": ONE, "perf": TWO_SAMPLES, "cfg": BLOCKS + LOOP}
        built = run(["build", *options, "bin", "perf", "cfg"], files).out
        bases = [option for option in options if option == "--base"]
        made = run(["lift", *bases, "bin", "cfg", "out"], {**files, "out": built}).out
        title = " ".join(["again", *options])
        judge("lifted and merged alone, " + title, (DONE, made, b""), ["merge", "1", "made"], made=made)
        repairs = b"".join(line for line in built.splitlines(keepends=True) if line[:1] == b"#")
        lifted(title, BLOCKS + LOOP, made + repairs, made, *bases)


def summary_of(built):
    """The summary of what `build` wrote."""
    lines = built.splitlines()
    told = lambda front: [int(line.split()[2]) for line in lines if line.startswith(front)]
    return b"functions %d branches %d total %d cost %d cuts %d\n" % (
        sum(line.startswith(b"# function ") for line in lines), *told(b"# branches "),
        sum(int(line.split(b":")[1]) for line in lines if line[:1] not in (b" ", b"#")), sum(told(b"# end ")),
        sum(line.startswith(b"# function ") and b" cut " in line for line in lines),
    )


# Of two functions the first is called by the second, once, and the second by the first, twice.
SAMPLES_OF_2 = (
    b"401076 0x401038/0x401076/P/-/-/1 0x40100c/0x401020/P/-/-/1 0x401074/0x401000/P/-/-/1\n"
    b"401076 0x401038/0x401076/P/-/-/1 0x401004/0x401010/P/-/-/1\n"
    b"401036 0x401078/0x401036/P/-/-/1 0x40104c/0x401060/P/-/-/1 0x401034/0x401040/P/-/-/1\n"
    b"401036 0x401078/0x401036/P/-/-/1 0x40104c/0x401060/P/-/-/1 0x401034/0x401040/P/-/-/1\n"
    b"401036 0x401078/0x401036/P/-/-/1 0x401044/0x401050/P/-/-/1\n"
)
BLOCKS_OF_2 = BLOCKS + (
    b"func f0001\nblock 0 0x401040 0x401048\nblock 1 0x401048 0x401050\nblock 2 0x401050 0x401060\n"
    b"block 3 0x401060 0x401080 exit\nedge 0 1\nedge 0 2\nedge 1 3\nedge 2 3\nend\n"
)


def makes():
    # No form reads a file: there is none.
    for spelled, wanted in [
        ("0 bin", make.small(0)), ("1 bin", ONE), ("01 bin", ONE), ("2 bin", TWO), ("4096 bin", make.small(4096)),
        ("1 perf", TWO_SAMPLES), ("0000001 cfg", BLOCKS), ("0 perf", b""), ("0 cfg", b""), ("2 perf", SAMPLES_OF_2), ("2 cfg", BLOCKS_OF_2),
    ]:
        judge("make " + spelled, (DONE, wanted, b""), ["make", *spelled.split()])
    for count, branches, total, cost in [(0, 0, 0, 0), (1, 5, 7, 40), (64, 6368, 8512, 2560), (4096, 407552, 544768, 163840)]:
        line = b"functions %d branches %d total %d cost %d cuts 0\n" % (count, branches, total, cost)
        judge("the summary of %d functions" % count, (DONE, line, b""), ["make", "%d" % count, "sum"])
    for spelled in [
        "make", "make 64", "make sum", "make 64 sum x", "make --base 1 bin", "make 1 --base bin", "make 4097 bin", "make 4097 sum",
        "make 18446744073709551617 bin", "make 0x1 bin", "make -1 bin", "make +1 bin", "make 1 Bin", "make 1 sums", "make bin 1",
    ]:
        judge(spelled, (BAD_WORDS, b"", USAGE), spelled.split())
    judge("a number without digits", (BAD_WORDS, b"", USAGE), ["make", "", "bin"])

    # What is built of 64 functions is the same twice, and its summary is that of its lines.
    files = {part: run(["make", "64", part], {}).out for part in ("bin", "perf", "cfg")}
    built = run(["build", "bin", "perf", "cfg"], files).out
    judge("64 functions built again", (DONE, built, b""), ["build", "bin", "perf", "cfg"], **files)
    judge("what is built and its summary", (DONE, summary_of(built), b""), ["make", "64", "sum"])
    # The second solver's counts cost as little, 40 a function.
    judge(
        "64 functions within a bound on augmentations", (DONE, b"# end 40\n" * 64, b""), ["build", "--scaled", "bin", "perf", "cfg"],
        told=lambda out: b"".join(re.findall(rb"# end .*\n", out)), **files,
    )
    # Whoever reads what it wrote passes its last line over: the answers are those to the text without it.
    scaled = run(["build", "--scaled", "bin", "perf", "cfg"], files).out
    for words in ["check cfg out", "lift bin cfg out", "merge 1 out", "summary out"]:
        front, _, _ = scaled.rpartition(b"# augmentations ")
        whole = run(words.split(), {**files, "out": front})
        judge("the last line is passed over: " + words, (DONE, whole.out, b""), words.split(), out=scaled, **files)


def large():
    # More functions than 16 bits number, with two lines each. Function k calls the next three from its line 11 + 2 k,
    # and itself begins in line 5. The three branches of a sample have two ranges between them, which go back to that
    # function but for those of the last two samples that begin in function 0 or 1.
    count = 70000
    lines = []
    for name, k in sorted((b"f%d" % k, k) for k in range(count)):
        called = sorted(b"f%d" % ((k + d) % count) for d in (1, 2, 3))
        one, two, three = called
        lines.append(b"%s:0:3\n %d: 0 %s:1 %s:1 %s:1\n" % (name, (6 + 2 * k) % 65536, one, two, three))
    report = b"# branches %d\n# entries %d\n# inside 0\n" % (3 * count, 3 * count)
    profile(
        "70,000 functions", make.lined_functions(count), make.calls_of_each(count), b"".join(lines) + report, 0,
        reversed=2 * count - 3, crossing=3,
    )
    shared = make.shared_table(2000, 4000)
    profile("4,000 units with one table", shared, b"", b"# branches 0\n# entries 0\n# inside 0\n", 0, units=4000)
    count = 1600000
    judge(
        "1.6 million branches", (DONE, b"".join(b"0x%x 0x%x 1\n" % (k, k + 9) for k in range(count)) + b"# branches %d\n" % count, b""),
        ["counts", "perf"], perf=b"".join(b"0x%x/0x%x\n" % (k, k + 9) for k in range(count)),
    )


takes(20)(large)

PARTS = [
    places, range_lists, other_places, chains, chained_profiles, refusals, words, profiles, touched, reports, bases_and_loads, builds,
    builds_with_options, block_texts, weights, checks, lifts, makes, large,
]
