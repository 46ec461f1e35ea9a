"""contrib/blocks holds against strangers: names like options, hostile programs, a full device, a signal; and two faults of its reading."""
import os
import pathlib
import random
import signal
import struct
import subprocess
import time
from collections import Counter
from types import SimpleNamespace
from typing import Any, Dict

from common import (BAD_WORDS, BLOCKS, CONTRIB, DONE, FAILED, MISSING, REFUSED, WORDS, WRITE_FAULT, Case, into_closed_pipe, needs, needs_file,
                    on_closed_output, run, within)
from make import elf
from pgo_tools.blocks.block_map import BLOCK_MAP, BlockMap
from pgo_tools.blocks.code import Code
from pgo_tools.blocks.exceptions import landing_pads
from pgo_tools.blocks.flow import CALL
from pgo_tools.blocks.program import Refused

SCRIPT = CONTRIB / "blocks"
# Two tables beside each other, each with offsets from itself, and one register for both. Behind each place are as many
# instructions of a byte as the tables are apart, so that a table beside the other one's base leads to instructions too.
TWO_TABLES = """
    .text
    .globl main
    .type main, @function
main:
    mov %edi, %eax
    lea first(%rip), %r13
    cmp $1, %edi
    je jump
    lea second(%rip), %r13
jump:
    cmp $1, %eax
    ja out
    movslq (%r13,%rax,4), %rax
    add %r13, %rax
    jmp *%rax
PLACES
out:
    ret
    .size main, . - main
    .section .rodata
    .align 4
first: .long place0 - first, place1 - first
second: .long place2 - second, place3 - second
"""
PLACES = "\n".join(f"place{k}:\n" + "nop\n" * 16 + "ret" for k in range(4))


def functions(text):
    """The functions of a block text: by name their edges, as pairs of addresses, and the addresses of exits."""
    found: Dict[Any, Any] = {}
    for line in text.decode("utf-8", "surrogateescape").splitlines():
        words = line.split()
        if words[0] == "func":
            lows, edges, exits = found.setdefault(words[1], ([], [], []))
        elif words[0] == "block":
            lows.append(int(words[2], 16))
            exits.extend(lows[-1:] if words[-1] == "exit" else [])
        elif words[0] == "edge":
            edges.append((lows[int(words[1])], lows[int(words[2])]))
    return found


@needs("objdump")
class Words(Case):
    def renamed(self, name):
        """The demo with one function renamed: by_times."""
        old = b"\0by_times\0"
        return self.file("renamed", WORDS.read_bytes().replace(old, (b"\0" + name + b"\0").ljust(len(old), b"\0")))

    def test_functions_by_name(self):
        ran = run(SCRIPT, WORDS, "main", "count_word")
        self.assertEqual((ran.status, sorted(functions(ran.out))), (DONE, ["count_word", "main"]))

    def test_functions_named_like_options(self):
        for name in (b"-d", b"--fit", b"--", b"@x"):
            path = self.renamed(name)
            for words in ((path, "--", name), ("--", path, name), (path, "main", "--", name)):
                with self.subTest(name=name, words=words):
                    ran = self.run_here(SCRIPT, *words)
                    self.assertEqual((ran.status, ran.said), (DONE, ""))
                    self.assertIn(b"func " + name + b"\n", ran.out)
            listed = self.file("names", name + b"\n")
            self.assertIn(b"func " + name + b"\n", self.run_here(SCRIPT, path, f"--names={listed}").out)

    def test_an_option_that_is_none(self):
        self.tells(run(SCRIPT, WORDS, "-d"), BAD_WORDS, "there is no option -d: a name that begins with - stands behind --")
        self.tells(run(SCRIPT), BAD_WORDS, "no program is named")

    def test_names_of_files_like_options(self):
        for name in ("-x", "@x", "--help"):
            self.file("x", "--version\n")
            self.file(name, WORDS.read_bytes())
            with self.subTest(name=name):
                ran = self.run_here(SCRIPT, "--", name)
                self.assertEqual((ran.status, ran.said), (DONE, ""))
                self.assertEqual(ran.out.split(b"\n", 1)[1], BLOCKS.read_bytes().split(b"\n", 1)[1])

    def test_no_name_at_all(self):
        self.file("none")
        self.expect(self.run_here(SCRIPT, "--known", "--names=none", WORDS), FAILED, err="blocks: no function is named\n")
        self.tells(self.run_here(SCRIPT, "--known", WORDS, "other"), FAILED, "code has none of the functions that were named")
        self.tells(self.run_here(SCRIPT, WORDS, "main", "nothing"), FAILED, "the program's code has no function nothing$")

    def test_names_of_bytes_that_are_no_text(self):
        path = self.renamed(b"\xff\x1b[2J")
        self.assertIn(b"func \xff\x1b[2J\n", self.run_here(SCRIPT, path).out)
        said = self.run_here(SCRIPT, path, b"no\xff\x1b[2J").err
        self.assertNotIn(b"\x1b", said)


def header_of(raw, name):
    """Where the header of the section of this name stands in a program."""
    table, = struct.unpack_from("<Q", raw, 40)
    size, count, names = struct.unpack_from("<HHH", raw, 58)
    texts, = struct.unpack_from("<Q", raw, table + size * names + 24)
    headers = range(table, table + size * count, size)
    return next(at for at in headers if raw[texts + int.from_bytes(raw[at : at + 4], "little") :].startswith(name + b"\0"))


@needs("objdump")
class Programs(Case):
    def test_refusals(self):
        self.expect(self.run_here(SCRIPT, "none"), MISSING, err="blocks: none: No such file or directory\n")
        self.tells(run(SCRIPT, SCRIPT), REFUSED, "is no ELF file")
        self.tells(run(SCRIPT, self.file("short", WORDS.read_bytes()[:20000])), REFUSED, "short is damaged or cut off")
        self.tells(run(SCRIPT, self.file("empty")), REFUSED, "empty is no ELF file")
        # The table of sections is said to lie where no number of the system's leads.
        good = WORDS.read_bytes()
        self.tells(run(SCRIPT, self.file("astray", good[:40] + b"\xff" * 8 + good[48:])), REFUSED, "astray is damaged or cut off")

    def test_more_sections_than_a_file_has_room_for(self):
        # Headers of no size, and as many as header 0 says.
        raw = bytearray(WORDS.read_bytes())
        at = int.from_bytes(raw[40:48], "little")
        raw[58:62] = bytes(4)
        raw[at + 32 : at + 40] = b"\xff" * 7 + b"\0"
        self.tells(run(SCRIPT, self.file("many", bytes(raw))), REFUSED, "many is damaged or cut off")

    def test_tables_of_exceptions_that_lie_nowhere(self):
        """Their section begins, or ends, where no number of the system's leads."""
        for field, value in ((24, b"\xff" * 8), (24, bytes(7) + b"\x80"), (32, b"\xff" * 8)):
            with self.subTest((field, value)):
                raw = bytearray(WORDS.read_bytes())
                place = header_of(raw, b".eh_frame") + field
                raw[place : place + 8] = value
                ran = run(SCRIPT, "--code", self.file("nowhere", bytes(raw)))
                self.tells(ran, REFUSED, "nowhere is damaged or cut off|tables of exceptions are damaged|objdump failed")

    @needs("objcopy")
    def test_a_debug_file(self):
        subprocess.run(["objcopy", "--only-keep-debug", WORDS, self.folder / "words.debug"], check=True)
        self.tells(self.run_here(SCRIPT, "words.debug"), REFUSED, "no debug file")

    @needs("strip")
    def test_a_stripped_program(self):
        subprocess.run(["strip", "-o", self.folder / "bare", WORDS], check=True)
        self.tells(self.run_here(SCRIPT, "bare"), REFUSED, "no symbols of functions: give it as it was before it was stripped")

    def test_programs_with_bytes_changed(self):
        good = WORDS.read_bytes()
        for seed in range(16):
            drawn, raw = random.Random(seed), bytearray(good)
            for _ in range(drawn.choice((1, 8, 200))):
                # Headers, symbols and tables stand at both ends.
                at = drawn.randrange(4096) if drawn.random() < 0.5 else drawn.randrange(len(raw) - 4096, len(raw))
                raw[at] = drawn.choice((0, 1, 0x7F, 0x80, 0xFF, drawn.randrange(256)))
            with self.subTest(seed=seed):
                ran = self.run_here(SCRIPT, self.file("drawn", bytes(raw)), limit=120)
                self.assertNotIn("Traceback", ran.said)
                self.assertIn(ran.status, (DONE, FAILED, REFUSED))
                self.assertEqual(ran.status == DONE, ran.out != b"")


@needs("objdump")
class Outputs(Case):
    @needs_file("/dev/full")
    def test_a_full_device(self):
        self.ends_on_full_device("blocks", SCRIPT, WORDS)

    def test_a_closed_output(self):
        self.tells(on_closed_output(SCRIPT, WORDS), WRITE_FAULT, "^blocks: output: it is closed$")

    def test_a_closed_pipe_is_quiet(self):
        self.expect(into_closed_pipe(SCRIPT, WORDS), WRITE_FAULT)


class Objdump(Case):
    """Another objdump in front."""

    def tool(self, lines):
        path = self.file("bin/objdump", f"#!/bin/sh\n{lines}\n")
        path.chmod(0o755)
        return {"PATH": f"{path.parent}:{os.environ['PATH']}"}

    def test_much_that_it_complains_of(self):
        ran = run(SCRIPT, WORDS, environment=self.tool("yes 'objdump: odd' | head -c 2000000 >&2; exit 1"), limit=120)
        self.tells(ran, REFUSED, "^blocks: objdump failed: objdump: odd")
        self.assertLess(len(ran.err), 1000)

    def test_it_ends_with_the_script(self):
        mark = self.folder / "pid"
        held = {**os.environ, **self.tool(f"echo $$ >{mark}; exec sleep 100")}
        for by in (signal.SIGTERM, signal.SIGHUP, signal.SIGINT, signal.SIGQUIT):
            with self.subTest(by=by.name), subprocess.Popen([SCRIPT, WORDS], env=held, stderr=subprocess.PIPE) as script:
                while not (mark.exists() and mark.read_text().strip()):
                    time.sleep(0.01)
                script.send_signal(by)
                assert script.stderr
                self.assertEqual((script.wait(60), script.stderr.read()), (128 + by, b""))
                left = pathlib.Path(f"/proc/{mark.read_text().strip()}")
                mark.unlink()
                self.assertFalse(left.exists())


class Tables(Case):
    @needs("gcc", "objdump")
    def test_a_table_is_read_beside_the_base_that_its_register_had(self):
        source = self.file("two.s", TWO_TABLES.replace("PLACES", PLACES))
        made = self.run_here("gcc", "-nostdlib", "-no-pie", "-Wl,-e,main", "-o", "two", source)
        if made.status:
            self.skipTest("gcc makes no program for x86-64 here")
        edges = functions(self.run_here(SCRIPT, "two", "main").out)["main"][1]
        jump, _ = Counter(low for low, _ in edges).most_common(1)[0]
        places = sorted(there for low, there in edges if low == jump)
        self.assertEqual([it - places[0] for it in places], [0, 17, 34, 51])


def uleb(value):
    return bytes([value]) if value < 128 else bytes([value & 127 | 128]) + uleb(value >> 7)


def mapped(blocks):
    """The map of one function at 0x1000, of blocks (number, size, successors)."""
    raw = bytes([2, 4]) + (0x1000).to_bytes(8, "little") + uleb(len(blocks))
    for number, size, _ in blocks:
        raw += uleb(number) + uleb(0) + uleb(size) + uleb(0)
    for _, _, there in blocks:
        raw += uleb(len(there)) + b"".join(uleb(it) + uleb(7) for it in there)
    return raw


def read_map(raw, headers=1, size=None):
    section = SimpleNamespace(kind=BLOCK_MAP, offset=0, size=len(raw) if size is None else size)
    program: Any = SimpleNamespace(data=raw, sections=[section] * headers, names={}, read=lambda low, size: None)
    return BlockMap(program)


class Maps(Case):
    def edges(self, blocks):
        rows, _ = read_map(mapped(blocks)).blocks(0x1000)
        return {row[0]: row[2] for row in rows}

    def test_a_block_without_code_behind_a_call_that_never_returns_leads_nowhere(self):
        # A call with a landing pad, block 3; behind the call block 2 has no code, and block 5 that comes next is none of its ways.
        blocks = [(0, 4, [1, 5]), (1, 6, [2, 3]), (2, 0, []), (5, 8, []), (3, 2, [5])]
        self.assertEqual(self.edges(blocks), {0x1000: [0x1004, 0x100A], 0x1004: [0x1012], 0x100A: [], 0x1012: [0x100A]})

    def test_a_block_without_code_leads_where_its_successors_are(self):
        blocks = [(0, 4, [1]), (1, 0, [2]), (2, 0, [3]), (3, 8, [])]
        self.assertEqual(self.edges(blocks), {0x1000: [0x1004], 0x1004: []})
        self.assertEqual(self.edges([(0, 4, [1]), (1, 0, [2]), (2, 0, [1])]), {0x1000: []})

    def test_damaged_maps(self):
        good = mapped([(0, 4, [1]), (1, 2, [])])
        cases = [good[:-1], mapped([(0, 4, [7])]), mapped([(0, 4, []), (0, 4, [])]), bytes([2, 4]) + b"\x80" * 100000, bytes([9]) + good]
        for raw in cases:
            with self.subTest(raw=raw[:20]), self.assertRaises(Refused):
                read_map(raw)

    def test_headers_that_name_one_map(self):
        raw = mapped([(0, 4, [1]), (1, 2, [])])
        self.assertEqual(len(read_map(raw).functions), 1)
        for size in (len(raw), 1):
            with self.subTest(size=size), self.assertRaisesRegex(Refused, "map of basic blocks is damaged: its pieces overlap"):
                read_map(raw, 2, size)

    def test_many_ways_through_blocks_without_code(self):
        """Each leads to the next one and to a block of its own; in either order; or one to all, and all to it."""
        count = 400
        chain = [(k, 0, [k + 1, count + k]) for k in range(count - 1)] + [(count - 1, 0, [])]
        code = [(count + k, 4, [0]) for k in range(count)]
        star = [(0, 0, list(range(count, 2 * count)))]
        for number, blocks in enumerate((chain + code, code + chain[::-1], star + code)):
            with self.subTest(number), self.assertRaisesRegex(Refused, "too many ways lead through blocks without code"):
                read_map(mapped(blocks)).blocks(0x1000)


def frames(tables):
    """Frames of 64 bytes of code from 0x2000 on, each with its table at this place of the section behind."""
    head = struct.pack("<I", 0) + b"\1zLR\0\1\1\1\2\0\0"
    out = struct.pack("<I", len(head)) + head
    for k, at in enumerate(tables):
        body = struct.pack("<QQB", 0x2000 + 64 * k, 64, 8) + struct.pack("<Q", 0x9000 + at)
        out += struct.pack("<II", len(body) + 4, len(out) + 4) + body
    return out


class Exceptions(Case):
    """Frames that share a table of calls."""

    def pads(self, count, calls):
        """What so many frames have, whose table tells of the first calls of each, of a byte, with a pad at the eighth byte."""
        raw, rows = frames([0] * count), b"".join(bytes([k, 1, 8, 0]) for k in range(calls))
        lsda = b"\xff\xff\1" + uleb(len(rows)) + rows
        sections = [SimpleNamespace(name=".eh_frame", kind=1, offset=0, size=len(raw), address=0x8000)]
        table = SimpleNamespace(name=".gcc_except_table", kind=1, offset=len(raw), size=len(lsda), address=0x9000)
        program: Any = SimpleNamespace(data=raw + lsda, sections=sections, section_of=lambda at: table)
        return landing_pads(program)

    def test_a_table_for_a_few_frames(self):
        self.assertEqual(self.pads(2, 2), [(at + k, at + k + 1, at + 8) for at in (0x2000, 0x2040) for k in (0, 1)])

    def test_a_table_for_too_many_frames(self):
        with self.assertRaisesRegex(Refused, "tables of exceptions are damaged: they overlap"):
            self.pads(100, 64)

    def test_calls_with_too_many_pads(self):
        """A function has no more of them than bytes, however large the file is."""
        code: Any = Code.__new__(Code)
        code.program, code.pads = SimpleNamespace(data=bytes(1000)), [(0x10, 0x20, 0x30 + k) for k in range(4)]
        code.pad_starts = [it[0] for it in code.pads]
        rows = [(0x10 + k, 0x11 + k, CALL, 0) for k in range(16)]
        found = code.pads_of([(0x10, 0x50)], rows)
        self.assertEqual(found, {row[0]: [0x30, 0x31, 0x32, 0x33] for row in rows})
        with self.assertRaisesRegex(Refused, "tables of exceptions are damaged: they overlap"):
            code.pads_of([(0x10, 0x4F)], rows)


@needs("objdump")
class Overlaps(Case):
    def test_tables_that_several_headers_name(self):
        """A section of symbols, or of relocations, of half of the file and more: twice is more than the file has."""
        for kind, name in ((2, b".symtab"), (4, b".rela")):
            with self.subTest(kind=kind):
                raw = elf([(b".table", bytes(24 * 100)), (b".strtab", bytes(2))], 16)
                once, twice = (named_again(raw, kind, times) for times in (1, 2))
                self.tells(run(SCRIPT, self.file("once", once)), REFUSED, "no code")
                self.tells(run(SCRIPT, self.file("twice", twice)), REFUSED, "twice is damaged or cut off: its tables overlap")

    def test_code_that_several_headers_name(self):
        """objdump would print it once for each of them: 55 KB took 4 s and 108 MB, and twice the headers twice that."""
        raw = WORDS.read_bytes()
        table, = struct.unpack_from("<Q", raw, 40)
        count, = struct.unpack_from("<H", raw, 60)
        rows = [raw[table + 64 * k : table + 64 * k + 64] for k in range(count)]
        text = max((row for row in rows if row[8] & 4), key=lambda row: struct.unpack_from("<Q", row, 32))
        rows += [text] * 500
        many = raw[:40] + struct.pack("<Q", len(raw)) + raw[48:60] + struct.pack("<H", len(rows)) + raw[62:] + b"".join(rows)
        ran = run(*within("ulimit -v 1000000", SCRIPT, "--code", self.file("many", many)), limit=20)
        self.tells(ran, REFUSED, "the program is damaged: its sections of code overlap at 0x")


def named_again(raw, kind, times):
    """The binary, of whose first section so many headers tell, which is loaded and is of this kind."""
    table, = struct.unpack_from("<Q", raw, 40)
    row = raw[table + 64 : table + 68] + struct.pack("<IQ", kind, 2) + raw[table + 80 : table + 128]
    rows = raw[table : table + 64] + row * times + raw[table + 128 :]
    count = len(rows) // 64
    return raw[:60] + struct.pack("<HH", count, count - 1) + raw[64:table] + rows
