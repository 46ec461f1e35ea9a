"""Small files of strangers that would take memory or time without end: each ends soon, in little memory, with what a script says."""
import gzip
import struct
import unittest

from common import CONTRIB, DONE, FAILED, BAD_WORDS, REFUSED, WORDS, Case, needs, within

TEXT = b"401036 0x401038/0x401036/P/-/-/1 0x40100c/0x401020/P/-/-/1\n"
# Below a fault each of them took gigabytes or minutes.
LIMIT = "ulimit -v 2000000 && ulimit -t 15"
PROGRAM, SYMBOLS, STRINGS, NOTES, CODE = 1, 2, 3, 7, 6
NAMES = b"\0.text\0.symtab\0.debug_info\0.debug_abbrev\0.debug_str\0"


def elf(*sections):
    """A program of these sections, each as (name, kind, flags, address, bytes, link); the last one behind them has the names."""
    rows, pieces, at = [bytes(64)], [], 64
    for name, kind, flags, address, data, link in [*sections, (b"", STRINGS, 0, 0, NAMES, 0)]:
        place = NAMES.index(b"\0" + name + b"\0") + 1 if name else 0
        rows.append(struct.pack("<IIQQQQIIQQ", place, kind, flags, address, at, len(data), link, 0, 1, 0))
        pieces.append(data)
        at += len(data)
    head = b"\x7fELF\2\1\1".ljust(16, b"\0") + struct.pack("<HHIQQQIHHHHHH", 2, 62, 1, 0, 0, at, 0, 64, 56, 0, 64, len(rows), len(rows) - 1)
    return head + b"".join(pieces + rows)


def with_units(units, table, strings=b"p\0"):
    """A program of these units, each as (the offset of its abbreviations, its first entry)."""
    told = [struct.pack("<HIB", 4, at, 8) + entry for at, entry in units]
    info = b"".join(struct.pack("<I", len(each)) + each for each in told)
    return elf((b".debug_info", PROGRAM, 0, 0, info, 0), (b".debug_abbrev", PROGRAM, 0, 0, table, 0), (b".debug_str", PROGRAM, 0, 0, strings, 0))


class SmallFiles(Case):
    def ends(self, status, pattern, script, *words, **how):
        ran = self.run_here(*within(LIMIT, CONTRIB / script, *words), limit=60, **how)
        self.tells(ran, status, pattern)
        return ran

    def profiled(self, pattern, program, status=FAILED):
        self.file("program", program)
        self.file("text", TEXT)
        self.ends(status, pattern, "pgo-profile", "program", "text", "made")

    def test_units_whose_maker_is_a_text_of_megabytes(self):
        table = b"\x01\x11\0\x25\x0e\0\0\0"
        self.profiled("none of 2 branches", with_units([(0, b"\1" + struct.pack("<I", k)) for k in range(20000)], table, b"p" * 1000000 + b"\0"))

    def test_units_whose_abbreviations_overlap(self):
        table = b"\x01\x11\0\0\0" * 100000 + b"\0"
        self.profiled("CodeTwice", with_units([(5 * k, b"\2") for k in range(20000)], table), REFUSED)

    def test_a_form_that_stands_for_itself(self):
        self.profiled("IndirectTwice", with_units([(0, b"\1" + b"\x16" * 100000)], b"\x01\x11\0\x25\x16\0\0\0"), REFUSED)

    def test_a_base_of_texts_that_is_no_number(self):
        """Its form is that of a text, or of bytes."""
        for form, value in ((b"\x08", b"p\0"), (b"\x0a", b"\1p")):
            with self.subTest(form):
                self.profiled("BadClass", with_units([(0, b"\1\0" + value)], b"\x01\x11\0\x25\x1a\x72" + form + b"\0\0\0"), REFUSED)

    def test_sections_that_name_the_same_notes(self):
        made = bytearray(elf(*[(b"", NOTES, 0, 0, struct.pack("<III", 0, 0, 9) * 200000 if not k else b"", 0) for k in range(50000)]))
        rows, = struct.unpack_from("<Q", made, 40)
        for k in range(2, 50001):
            struct.pack_into("<QQ", made, rows + 64 * k + 24, 64, 2400000 - 12 * k)
        self.profiled("no debugging information", bytes(made))

    def test_names_of_megabytes_that_overlap(self):
        """Of symbols, and of sections."""
        symbols = bytes(24) + b"".join(struct.pack("<IBBHQQ", k, 0x12, 0, 1, 0x1000 + k, 1) for k in range(50000))
        made = elf((b".text", PROGRAM, CODE, 0x1000, b"\x90" * 60000, 0), (b".symtab", SYMBOLS, 0, 0, symbols, 3),
                   (b"", STRINGS, 0, 0, b"n" * 1000000 + b"\0", 0))
        self.file("program", made)
        self.ends(REFUSED, "program is damaged or cut off: its names overlap", "blocks", "program")
        rows, = struct.unpack_from("<Q", made, 40)
        made = bytearray(made[:rows] + made[rows:] * 2000)
        struct.pack_into("<HH", made, 60, 8000, 3)
        for k in range(8000):
            struct.pack_into("<I", made, rows + 64 * k, k)
        self.file("program", bytes(made))
        for words in (["blocks", "program"], ["lined", "program", "text", "-o", "made"]):
            self.ends(REFUSED, "program is damaged or cut off: its names overlap", *words)

    @needs("c++filt")
    def test_a_name_that_stands_for_terabytes(self):
        places = ["S_", *(f"S{'0123456789ABCDEFGHIJKLMNOPQRSTUVWXYZ'[k]}_" for k in range(36))]
        name = "_Z1f1tIiiE" + "".join(f"S_I{it}{it}E" for it in places[1:36])
        self.file("profile", f"{name}:9:1\n 1: 9\n")
        ran = self.run_here(CONTRIB / "hot", "profile")
        self.assertEqual((ran.status, ran.err), (DONE, b""))
        self.assertIn(name[:20].encode(), ran.out)

    def test_a_load_line_that_begins_again_and_again(self):
        self.file("text", b"PERF_RECORD_MMAP2 " + b"x: [0x1(0x1) @ 0 " * 3800 + b"\n")
        self.ends(FAILED, "text has no branches", "pgo-profile", WORDS, "text", "made")

    @needs("objdump")
    def test_a_packed_line_without_an_end(self):
        pieces = gzip.compress(bytes(1 << 24)) * 100
        self.file("packed", pieces)
        self.file("profile", "f:1:1\n 1: 1\n")
        self.ends(REFUSED, "packed has more than 268435456 bytes", "compare", "profile", "packed")
        self.ends(REFUSED, "packed: refused at 1: LineTooLong", "blocks", "--perf", "packed", WORDS)

    @needs("objdump")
    def test_a_closed_input(self):
        for script, *words in (("hot", "-"), ("hot", "--blocks=text", "-"), ("draw", "f"), ("blocks", "--names=-", str(WORDS)), ("merge-tree",)):
            with self.subTest(script, words=words):
                ran = self.run_here("sh", "-c", '"$@" <&-', "sh", CONTRIB / script, *words)
                self.tells(ran, BAD_WORDS, "the input is closed, and no file is named")


if __name__ == "__main__":
    unittest.main()
