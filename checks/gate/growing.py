#!/usr/bin/env python3
"""growing.py [NAME..]: what is made to be slow, in one way each: families of inputs whose time may not grow faster than they do.

test_hostile.py judges each family at two sizes. By hand this tells what each takes at a quarter, at half and at the whole of the size that
docs/LIMITS.md speaks of: bytes, how it ended, the processor's seconds in user mode and in the system, as the least of three runs.
"""
import functools
import importlib
import os
import pathlib
import re
import resource
import signal
import struct
import subprocess
import sys
import tempfile
from typing import Callable, NamedTuple

from common import COLD, CONTRIB, HERE, PGO, TEXT, TOP, WORDS, loaded

make, LADDER = loaded(HERE / "program" / "make.py"), loaded(TOP / "bench" / "ladder")
ADDR, CODE, DECL_LINE, HIGH, LOADED, LOW, NAME = make.ADDR, make.CODE, make.DECL_LINE, make.HIGH, make.LOADED, make.LOW, make.NAME
ORIGIN, RANGES, REF4, STRING = make.ORIGIN, make.RANGES, make.REF4, make.STRING
abbreviation, elf, function_text, load_line = make.abbreviation, make.elf, make.function_text, make.load_line

# What no run of the gate may pass: seconds of a processor, and how many times as long as half the input takes.
MOST_SECONDS, MOST_GROWTH = 5, 3
# Times below this are taken for this, as the start of a program is part of them.
LEAST_SECONDS = 0.03


class Ended(NamedTuple):
    """How a run ended: its status (negative for a signal), its first line, what it said, and seconds of a processor."""

    status: int
    first: bytes
    said: bytes
    seconds: float


def timed(words, folder, seconds, megabytes) -> Ended:
    """Runs a program within so many seconds of a processor and so large an address space."""

    def limited():
        resource.setrlimit(resource.RLIMIT_CPU, (seconds, seconds + 1))
        resource.setrlimit(resource.RLIMIT_AS, (megabytes << 20, megabytes << 20))

    with open(folder / "written", "w+b") as out, open(folder / "said", "w+b") as err:
        # What a script that is ended leaves behind goes with the folder.
        started = subprocess.Popen(
            words, cwd=folder, env={**os.environ, "TMPDIR": str(folder)}, stdin=subprocess.DEVNULL, stdout=out, stderr=err, preexec_fn=limited,
            start_new_session=True,
        )
        try:
            _, status, used = os.wait4(started.pid, 0)
        except BaseException:
            os.killpg(started.pid, signal.SIGKILL)
            raise
        started.returncode = os.waitstatus_to_exitcode(status)
        out.seek(0)
        err.seek(0)
        return Ended(started.returncode, out.readline().rstrip(b"\n"), err.read(300), used.ru_utime + used.ru_stime)


# Binaries.

ADDRX1, DATA1, LINE_STRP, REF1, REF_ADDR, RNGLISTX, STRX1, SECTION = 0x29, 0x0B, 0x1F, 0x11, 0x10, 0x23, 0x25, 0x17
STR_OFFSETS_BASE, ADDR_BASE, RNGLISTS_BASE, LINKAGE_NAME = 0x72, 0x73, 0x74, 0x6E


def versioned(behind, body):
    """A table of DWARF 5: its length, its version, what stands behind these, and its body."""
    return struct.pack("<IH", len(behind) + len(body) + 2, 5) + behind + body


def short_forms(function, entries, more=b"", passed=b"", **others):
    """A binary of one unit whose functions have these attributes, in short forms that mean the first text and the first address. Behind it
    stand units that are passed over."""
    bases = ((STR_OFFSETS_BASE, SECTION), (ADDR_BASE, SECTION), (RNGLISTS_BASE, SECTION))
    abbrevs = abbreviation(1, 0x11, 1, *bases) + abbreviation(2, 0x2E, 0, *function) + more + b"\0"
    unit = versioned(bytes([1, 8]) + bytes(4), b"\x01" + struct.pack("<III", 8, 8, 12) + entries + b"\0") + passed
    tables = {"str_offsets": versioned(bytes(2), bytes(4)), "addr": versioned(bytes([8, 0]), struct.pack("<Q", CODE)), **others}
    sections = [(b".debug_abbrev", abbrevs), (b".debug_info", unit)]
    return elf(sections + [(b".debug_" + name.encode(), data) for name, data in tables.items()], 16)


def one_long_name(size):
    """Functions of 4 bytes that all have one name, which is half of the file."""
    function = ((NAME, STRX1), (LOW, ADDRX1), (HIGH, DATA1))
    return short_forms(function, b"\x02\0\0\x10" * (size // 8), str=b"n" * (size // 2) + b"\0")


def one_range_list(size):
    """Functions of 3 bytes that all have one list of ranges in no code: 65,536, or as many as half of the file has room for."""
    ranges = b"\x04\x01\x02" * min(size // 6, 65536) + b"\0"
    lists = versioned(bytes([8, 0]) + struct.pack("<I", 1), struct.pack("<I", 4) + ranges)
    entries = b"\x02\0\0" * ((size - len(ranges)) // 3)
    return short_forms(((NAME, STRX1), (RANGES, RNGLISTX)), entries, str=b"f\0", rnglists=lists)


def one_name_of_lines(size):
    """Functions of 7 bytes that all have one name among the texts of line programs, which is half of the file."""
    function = ((NAME, LINE_STRP), (LOW, ADDRX1), (HIGH, DATA1))
    return short_forms(function, b"\x02\0\0\0\0\0\x10" * (size // 14), line_str=b"n" * (size // 2) + b"\0")


def one_origin(size):
    """Functions of 5 bytes that all have the name of another one, which stands in its entry and is half of the file."""
    function = ((ORIGIN, REF1), (DECL_LINE, DATA1), (LOW, ADDRX1), (HIGH, DATA1))
    entries = b"\x03" + b"n" * (size // 2) + b"\0" + b"\x02\x19\0\0\x10" * (size // 10)
    return short_forms(function, entries, more=abbreviation(3, 0x2E, 0, (NAME, STRING)))


def one_origin_of_named(size):
    """Functions of 6 bytes with a short name each, that all have the linkage name of another one, which is half of the file."""
    function = ((NAME, STRX1), (DECL_LINE, DATA1), (ORIGIN, REF1), (LOW, ADDRX1), (HIGH, DATA1))
    entries = b"\x03" + b"n" * (size // 2) + b"\0" + b"\x02\0\0\x19\0\x10" * (size // 12)
    return short_forms(function, entries, more=abbreviation(3, 0x2E, 0, (LINKAGE_NAME, STRING)), str=b"f\0")


def origins_in_turn(size):
    """The same with two others, of half as long a name, to which they lead in turn."""
    function, name = ((ORIGIN, REF4), (DECL_LINE, DATA1), (LOW, ADDRX1), (HIGH, DATA1)), b"\x03" + b"n" * (size // 4) + b"\0"
    each = [b"\x02" + struct.pack("<I", 0x19 + k * len(name)) + b"\0\0\x10" for k in range(2)]
    return short_forms(function, name * 2 + b"".join(each) * (size // 32), more=abbreviation(3, 0x2E, 0, (NAME, STRING)))


def origins_passed_over(size):
    """Functions of 7 bytes that lead into the last of many units of version 2, of 6 bytes each, which are passed over: half of the file."""
    function, count, passed = ((ORIGIN, REF_ADDR), (LOW, ADDRX1), (HIGH, DATA1)), size // 14, size // 12
    begins = 26 + 7 * count
    return short_forms(function, (b"\x02" + struct.pack("<I", begins + 6 * (passed - 1)) + b"\0\x10") * count, passed=b"\x02\0\0\0\x02\0" * passed)


def tails_of_a_range_list(size, step=1, last=b""):
    """Functions of 5 bytes, each with another tail of one list of ranges in no code: 65,535, or as many as half of the file has room for."""
    count = min(size // 8, 65536) - 1
    lists = versioned(bytes([8, 0]) + struct.pack("<I", 0), b"\x04\x01\x02" * count + last + b"\0")
    entries = [b"\x02" + struct.pack("<I", 12 + 3 * k) for k in range(count)]
    return short_forms(((RANGES, SECTION),), b"".join(entries[::step]), rnglists=lists)


def tails_backwards(size):
    """The same with the shortest tail first."""
    return tails_of_a_range_list(size, -1)


def tails_with_code(size):
    """The same with a range at the end that is code."""
    return tails_of_a_range_list(size, last=b"\x07" + struct.pack("<QB", CODE, 16))


def range_list_of_bases(size):
    """Units of 36 bytes, each with a base address of its own and a function that has one list of ranges in no code."""
    ranges = b"\x04\x01\x02" * min(size // 6, 65536) + b"\0"
    lists = versioned(bytes([8, 0]) + struct.pack("<I", 1), struct.pack("<I", 4) + ranges)
    abbrevs = abbreviation(1, 0x11, 1, (RNGLISTS_BASE, SECTION), (LOW, ADDR)) + abbreviation(2, 0x2E, 0, (RANGES, RNGLISTX)) + b"\0"
    unit = lambda k: versioned(bytes([1, 8]) + bytes(4), b"\x01" + struct.pack("<IQ", 12, k) + b"\x02\0\0")
    units = b"".join(unit(k) for k in range((size - len(ranges)) // len(unit(0))))
    return elf([(b".debug_abbrev", abbrevs), (b".debug_info", units), (b".debug_rnglists", lists)], 16)


def range_list_of_units(size):
    """Units of 25 bytes, each with a function that has one list of ranges in no code, which is half of the file at most."""
    ranges = b"\x04\x01\x02" * min(size // 6, 65536) + b"\0"
    lists = versioned(bytes([8, 0]) + struct.pack("<I", 1), struct.pack("<I", 4) + ranges)
    abbrevs = abbreviation(1, 0x11, 1, (RNGLISTS_BASE, SECTION)) + abbreviation(2, 0x2E, 0, (RANGES, RNGLISTX)) + b"\0"
    unit = versioned(bytes([1, 8]) + bytes(4), b"\x01" + struct.pack("<I", 12) + b"\x02\0\0")
    return elf([(b".debug_abbrev", abbrevs), (b".debug_info", unit * ((size - len(ranges)) // len(unit))), (b".debug_rnglists", lists)], 16)


def tails_of_a_name(size):
    return make.tails_of_a_name(size // 19)


def tails_of_a_table(size):
    return make.tails_of_a_table(size * 10 // 191)


def lines_of_a_byte(count):
    """A binary of a function of so many addresses, each of which has a line, whose row is a byte."""
    return make.with_lines(make.set_address(CODE) + b"\x03\x09\x01" + b"\x21" * count + make.END, count)


def one_line(count):
    """A binary of a function of so many addresses and of one line."""
    return make.with_lines(make.set_address(CODE) + b"\x03\x09\x01\x02" + make.uleb(count) + make.END, count)


loaded(CONTRIB / "pgo_tools")
DEMO = importlib.import_module("pgo_tools.elf").Elf(str(WORDS))


def demo_with(**behind):
    """The demo with these bytes behind those of its sections of debugging information."""
    data = bytearray(WORDS.read_bytes())
    for number, section in enumerate(DEMO.sections):
        more = behind.get(section.name[len(".debug_") :])
        if more is not None:
            header = struct.unpack_from("<Q", data, 40)[0] + 64 * number
            struct.pack_into("<QQ", data, header + 24, len(data), section.size + len(more))
            data += data[section.offset : section.offset + section.size] + more
    return {"bin": bytes(data)}


def units_of_nothing(size):
    """The demo with units of no bytes behind its own."""
    return demo_with(info=bytes(size))


def units_of_attributes(size):
    """The demo with units of 12 bytes behind its own, each with many attributes of no bytes."""
    unit = struct.pack("<IHIBB", 8, 4, DEMO.section(".debug_abbrev").size, 8, 1)
    flags = [(0x3000 + k, 0x19) for k in range(200)]
    return demo_with(info=unit * (size // len(unit)), abbrev=abbreviation(1, 0x11, 0, *flags) + b"\0")


# Texts.


def times_until(size, one):
    """The text so often that it comes to about this size."""
    return one * (size // len(one))


def blocks_over_all(size):
    """A binary of many lines, and functions of one block each, which is all of it."""
    count = size // 3
    one = function_text(b"f", [(CODE, CODE + count)], [], {0})
    return {"bin": lines_of_a_byte(count), "perf": make.ranges_within(80), "cfg": times_until(size - count, one)}


def branches_of_an_edge(size):
    """Branches from each address of a block to the one behind it, and functions that have that edge."""
    count = size // 36
    one = function_text(b"f", [(CODE, CODE + count), (CODE + count, CODE + count + 1)], [(0, 1)], {1})
    return {"bin": one_line(count + 1), "perf": make.calls_to_one(count), "cfg": times_until(size // 2, one)}


def nested_loads(size):
    """Load lines, each within the one before, with a range behind each."""
    one = lambda start, count: load_line(start, count) + b"0x%x/0x9 0x9/0x%x\n" % (start, LOADED)
    count = size // len(one(LOADED, 1 << 16))
    return {"bin": one_line(count), "perf": b"".join(one(LOADED + k, 2 * (count - k)) for k in range(count))}


def loads_apart(size):
    """The demo's text behind its load line, many further load lines of that name, apart from each other, and branches in none of them."""
    count = size // 170
    load = "words 7 PERF_RECORD_MMAP2 7/7: [0x%x(0x1000) @ 0x1000 08:02 5 0]: r-xp /srv/app/words\n"
    loads = [load % 0x401000] + [load % (0x7F0000000000 + k * 0x10000) for k in range(count)]
    branches = ["0x%x/0x%x\n" % (0x5000000000 + k * 16, 0x5000000008 + k * 16) for k in range(3 * count)]
    return {"perf": "".join(loads + branches).encode() + TEXT.read_bytes()}


@functools.lru_cache(maxsize=None)
def alike(what, count):
    """What program/alike.c prints."""
    with tempfile.TemporaryDirectory(prefix="pgo-check-") as folder:
        subprocess.run(["cc", "-O2", "-o", f"{folder}/alike", HERE / "program" / "alike.c"], check=True)
        return subprocess.run([f"{folder}/alike", what, str(count)], check=True, stdout=subprocess.PIPE).stdout


def names_of_one_hash(size):
    return {"prof": alike("names", size // 17), "bin": make.small(1)}


def names_of_one_keyed_hash(size):
    return {"prof": alike("keyed", size // 17)}


def keys_of_one_hash(size):
    return {"prof": alike("keys", size // 14)}


def branches_of_one_hash(size):
    return {"perf": make.colliding_branches(size // 25)}


def branches_of_one_keyed_hash(size):
    return {"perf": make.colliding_branches(size // 25, keyed=True)}


# What takes many augmentations, by bench/ladder.
def ladder(size, unit=1):
    """A ladder twice as large has twice as many steps for twice as many edges between its rows."""
    width = round((size / 62) ** 0.5)
    return {"bin": make.small(1), "perf": b"", "cfg": LADDER.text_of(width, size // 410, unit).encode()}


def ladder_of_great_counts(size):
    """The same with counts above 2^36, from which `--scaled` does not go on in phases of its own."""
    return ladder(size, 1000000)


def ladder_and_one_more(size):
    """A ladder with a function behind it that has such a count."""
    files = ladder(size)
    return {**files, "cfg": files["cfg"] + b"func more\nblock 0 0x20000000 0x20000008 exit lo=%d\nend\n" % (1 << 37)}


def drawn(size, edges_of):
    """The repair of a function with so many edges."""
    count = size // 73
    lines = [b"# function f flow"] + [b"# block %d weight 5 count 5 in 0 out 0" % k for k in range(count)]
    lines += [b"# edge %d %d weight 5 count 5" % edge for edge in edges_of(count)]
    return {"built": b"\n".join(lines) + b"\n# end 0\n"}


# What the scripts read.

BLOCK_MAP, SYMBOLS, LANDING_PAD, RETURNS = 0x6FFF4C0A, 2, 4, 1


def map_of(blocks):
    """The map of a function of blocks of 4 bytes, (what it is, successors) each."""
    out = [b"\x02\x04", struct.pack("<Q", CODE), make.uleb(len(blocks))]
    out += [make.uleb(number) + b"\0\4" + make.uleb(what) for number, (what, _) in enumerate(blocks)]
    out += [make.uleb(len(there)) + b"".join(make.uleb(it) + b"\1" for it in there) for _, there in blocks]
    return b"".join(out)


def mapped(blocks):
    """A binary with clang's map of these blocks, all of which is code of the function f."""
    size = 4 * len(blocks)
    symbol = struct.pack("<IBBHQQ", 1, 0x12, 0, 1, CODE, size)
    raw = bytearray(elf([(b".llvm_bb_addr_map", map_of(blocks)), (b".symtab", symbol), (b".strtab", b"\0f\0")], size))
    table, = struct.unpack_from("<Q", raw, 40)
    struct.pack_into("<Q", raw, 96, size)
    struct.pack_into("<I", raw, table + 64 + 4, BLOCK_MAP)
    struct.pack_into("<I", raw, table + 128 + 4, SYMBOLS)
    struct.pack_into("<I", raw, table + 128 + 40, 3)
    return bytes(raw)


def loads_of_blocks(size):
    """Load lines, each within the one before, with a range behind each, for a binary with a map of its blocks."""
    return {"bin": mapped([(RETURNS, [])]), "perf": nested_loads(size)["perf"]}


def behind_a_pad(size):
    """Blocks in a chain behind a landing pad. Samples touched all of them but the pad."""
    count = size // 12
    blocks = [(RETURNS, [1]), (LANDING_PAD, [2])] + [(0, [k]) for k in range(3, count)] + [(RETURNS, [])]
    return {"bin": mapped(blocks), "perf": b"0x%x/0x10 0x10/0x%x 0x%x/0x10\n" % (CODE + 4 * count - 1, CODE + 8, CODE)}


def laid_out(size):
    """A chain of blocks, each of which ran."""
    count = size // 140
    follow = [[k + 1] for k in range(count - 1)] + [[]]
    places = [(CODE + 4 * k, CODE + 4 * k + 4) for k in range(count)]
    edges = [(k, k + 1) for k in range(count - 1)]
    return {"bin": mapped([(0, there) for there in follow]), "cfg": function_text(b"f", places, edges, {count - 1}),
            "built": drawn(73 * count, lambda _: edges)["built"]}


def segments_and_blocks(size):
    """A binary of many segments of code, and ten blocks for each of them."""
    count = size // 440
    one = function_text(b"f", [(CODE + k, CODE + k + 1) for k in range(10 * count)], [], {0})
    raw, other = elf([], 10 * count), struct.pack("<IIQQQQQQ", 1, 5, 0, 1, 1, 0, 1, 0x1000)
    head = raw[:32] + struct.pack("<Q", len(raw)) + raw[40:56] + struct.pack("<H", count) + raw[58:64]
    return {"bin": head + raw[64:] + other * (count - 1) + raw[64:120], "cfg": one}


def alike_hot(size):
    """A profile whose functions all ran as often."""
    return {"prof": b"".join(b"f%d:1:1\n 1: 1\n" % k for k in range(size // 16))}


def chain(size):
    return drawn(size, lambda count: [(k, k + 1) for k in range(count - 1)])


def star(size):
    return drawn(size, lambda count: [(0, k) for k in range(1, count)])


# The families.


class Family(NamedTuple):
    """Inputs of one kind, what is run on them, the first line of its answer (a pattern), the size that docs/LIMITS.md speaks of, the
    address space in megabytes that suffices for it, whether making them takes a C compiler, how many times as long twice the input may take,
    and what it says besides (a pattern)."""

    name: str
    files: "Callable[[int], dict[str, bytes]]"
    words: list
    first: bytes
    size: int
    megabytes: int = 400
    compiled: bool = False
    growth: float = MOST_GROWTH
    said: bytes = b""

    def sizes(self):
        """The sizes of the gate: a quarter of that size, and half of it."""
        return self.size // 4, self.size // 2

    def write(self, folder: pathlib.Path, size: int) -> int:
        """Writes the files, and gives their size."""
        files = self.files(size)
        for name, content in files.items():
            (folder / name).write_bytes(content)
        return sum(map(len, files.values()))

    def run(self, folder: pathlib.Path, seconds: int = 60) -> Ended:
        return timed(self.words, folder, seconds, self.megabytes)

    def wrong(self, ended: Ended) -> str:
        """What is wrong with the answer, however long it took, or nothing."""
        if ended.status == 0 and re.fullmatch(self.said, ended.said) and re.fullmatch(self.first, ended.first):
            return ""
        return f"status {ended.status}, first line {ended.first[:80]!r}, {ended.said[:200]!r}"


def binary(made):
    return lambda size: {"bin": made(size)}


def script(name, *words):
    """A call of a script of contrib."""
    return [sys.executable, CONTRIB / name, *words]


MB = 1000000
WHERE, MERGE = [PGO, "where", "bin", "401000"], [PGO, "merge", "1", "prof"]
# Twice a ladder has twice as many ways from an edge to a want, and each is looked for among twice as many blocks.
LADDER_GROWTH = 4.5
BUILT, WITH_EDGES, SCALED = ([PGO, "build", *option, "bin", "perf", "cfg"] for option in ((), ("--edges",), ("--scaled",)))
MERGED, BUILT_LADDER, MADE = rb"n[0-9a-f]{10}[A-Z]:0:1", b"# function ladder flow", b"prof: 3 functions; .*"
DRAWN, BY_MAP = script("draw", "--svg", "f", "built"), b"# Blocks of bin, by its map of basic blocks"
FAMILIES = [
    Family("one long name", binary(one_long_name), WHERE, b"noline", MB),
    Family("one long name of lines", binary(one_name_of_lines), WHERE, b"noline", MB),
    Family("one origin", binary(one_origin), WHERE, b"noline", MB),
    Family("one origin of named", binary(one_origin_of_named), WHERE, b"noline", MB),
    Family("origins in turn", binary(origins_in_turn), WHERE, b"noline", MB),
    Family("origins passed over", binary(origins_passed_over), WHERE, b"nameless", MB),
    Family("tails of a name", binary(tails_of_a_name), WHERE, b"noline", MB),
    Family("one range list", binary(one_range_list), WHERE, b"outside", MB),
    Family("one range list of units", binary(range_list_of_units), WHERE, b"outside", MB),
    Family("tails of a range list", binary(tails_of_a_range_list), WHERE, b"outside", MB),
    Family("tails of a range list, backwards", binary(tails_backwards), WHERE, b"outside", MB),
    Family("tails of a range list, with code", binary(tails_with_code), WHERE, b"nameless", MB),
    Family("one range list of bases", binary(range_list_of_bases), WHERE, b"outside", MB),
    Family("tails of a table", binary(tails_of_a_table), WHERE, b"outside", 56000 * 2),
    Family("blocks over all", blocks_over_all, BUILT, b"f:[0-9]+:[0-9]+", MB),
    Family("branches of an edge", branches_of_an_edge, WITH_EDGES, b"# function f flow", 8 * MB),
    Family("nested loads", nested_loads, [PGO, "profile", "--map=/bin/x", "bin", "perf"], b"f:[0-9]+:[0-9]+", 16 * MB),
    Family("names of one hash, merge", names_of_one_hash, MERGE, MERGED, MB, compiled=True),
    Family("names of one hash, summary", names_of_one_hash, [PGO, "summary", "prof"], b"functions [0-9]+", MB, compiled=True),
    Family("names of one hash, pgo-cold", names_of_one_hash, [COLD, "bin", "prof"], MERGED, MB, compiled=True),
    Family("names of one keyed hash", names_of_one_keyed_hash, MERGE, MERGED, MB, compiled=True),
    Family("keys of one hash", keys_of_one_hash, MERGE, b"f:[0-9]+:0", MB, compiled=True),
    Family("branches of one hash", branches_of_one_hash, [PGO, "counts", "perf"], b"0x0 0x[0-9a-f]+ 1", 2 * MB),
    Family("branches of one keyed hash", branches_of_one_keyed_hash, [PGO, "counts", "perf"], b"0x0 0x[0-9a-f]+ 1", 2 * MB),
    Family("ladder", ladder, BUILT, BUILT_LADDER, 64000, growth=LADDER_GROWTH),
    Family("ladder, scaled", ladder, SCALED, BUILT_LADDER, 64000, growth=LADDER_GROWTH),
    Family("ladder and one more, scaled", ladder_and_one_more, SCALED, BUILT_LADDER, 64000, growth=LADDER_GROWTH),
    Family("ladder of great counts, scaled", ladder_of_great_counts, SCALED, BUILT_LADDER, 64000, growth=LADDER_GROWTH),
    Family("a chain, drawn", chain, DRAWN, b"<svg .*", 600000),
    Family("a star, drawn", star, DRAWN, b"<svg .*", 600000),
    Family("nested loads, blocks", loads_of_blocks, script("blocks", "--perf=perf", "--map=/bin/x", "bin"), BY_MAP, 1600000),
    Family("behind a pad, blocks", behind_a_pad, script("blocks", "--perf=perf", "bin"), BY_MAP, 48000),
    Family("a chain, laid out", laid_out, script("layout", "bin", "cfg", "built"), b"v1", 1400000),
    Family("segments and blocks, lined", segments_and_blocks, script("lined", "bin", "cfg"), rb"(?s)\x7fELF.*", 1760000, said=b"lined: for pgo build, .*\n"),
    Family("functions alike, compared", alike_hot, script("compare", "prof", "prof"), b"lines 100.0% alike, functions 100.0%", 200000),
    Family("loads apart, pgo-profile", loads_apart, script("pgo-profile", "--map=/srv/app/words", WORDS, "perf", "prof"), MADE, 3 * MB),
    Family("units of nothing, pgo-profile", units_of_nothing, script("pgo-profile", "bin", TEXT, "prof"), MADE, 32 * MB),
    Family("units of attributes, pgo-profile", units_of_attributes, script("pgo-profile", "bin", TEXT, "prof"), MADE, 4 * MB),
]


def least(family, folder, size):
    """The size of the input, and the quickest of three runs."""
    made = family.write(folder, size)
    return made, min((family.run(folder) for _ in range(3)), key=lambda it: it.seconds)


def main(names):
    for family in FAMILIES:
        if names and not any(name in family.name for name in names):
            continue
        for part in (4, 2, 1):
            with tempfile.TemporaryDirectory(prefix="pgo-check-") as folder:
                size, ended = least(family, pathlib.Path(folder), family.size // part)
            told = family.wrong(ended) or "its answer"
            print(f"{family.name:32} {size:10} bytes  {ended.seconds:7.2f} s  {told}", flush=True)


if __name__ == "__main__":
    main(sys.argv[1:])
