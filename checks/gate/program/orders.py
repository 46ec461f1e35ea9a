"""The built program on lines that are bad for two reasons: the first of the two in docs/FORMATS.md is told."""
from common import DONE, REFUSED
from judging import judge

# A loop that is never left, the cut that shows it, and counts of two blocks of which the first is an exit.
LOOP = b"func loop\nblock 0 0x401000 0x401008\nblock 1 0x401008 0x401010\nedge 0 1\nedge 1 0\nend\n"
CUT = b"# function loop cut 0\n# block 0 weight 5 in 1 out 1\n# block 1 weight 0 in 1 out 1\n"
COUNTS = b"# function loop flow\n# block 0 weight ? count 0 in 0 out 0\n# block 1 weight ? count 0 in 0 out 0\n"


def refused(title, kind, words, file, line, **files):
    judge(title, (REFUSED, b"", b"refused: file %d at %d: %s\n" % (file, line, kind)), words, **files)


def repair_lines():
    """Lines of a repair text."""
    for title, text, line, kind in [
        ("a block of a cut that is also too much, among counts", COUNTS + b"# block 2 weight 0 in 1 out 1\n", 4, b"BadLine"),
        ("a block with a count that is also too much, in a cut", CUT + b"# block 2 weight 0 count 0 in 1 out 1\n", 4, b"BadLine"),
        ("a block of the right form that is too much, among counts", COUNTS + b"# block 2 weight 0 count 0 in 0 out 0\n", 4, b"Extra"),
        ("a block of the right form that is too much, in a cut", CUT + b"# block 2 weight 0 in 1 out 1\n", 4, b"Extra"),
        ("an edge in a cut, where a block is due", CUT[:CUT.index(b"# block 1")] + b"# edge 0 1 count 0\n", 3, b"Missing"),
        ("an edge in a cut, where none is due", CUT + b"# edge 0 1 count 0\n", 4, b"Extra"),
    ]:
        refused(title, kind, ["check", "cfg", "out"], 2, line, cfg=LOOP, out=text)
    judge("the cut alone", (DONE, b"checked 1\n", b""), ["check", "cfg", "out"], cfg=LOOP, out=CUT + b"# end 1 0\n")


def block_lines():
    """Lines of a block text."""
    blocks = b"func f\n" + b"".join(b"block %d 0x%x 0x%x\n" % (n, n + 1, n + 2) for n in range(513))
    full = blocks + b"".join(b"edge %d %d\n" % (n // 513, n % 513) for n in range(262144))
    for title, text, line, kind in [
        ("an edge too many, from a block that is none", full + b"edge 999 0\n", 262659, b"TooManyEdges"),
        ("an edge from a block that is none", blocks + b"edge 999 0\n", 515, b"EdgeEnd"),
        ("a block behind edges, with a number that is not the next", LOOP.replace(b"end", b"block 7 0x1 0x2\nend"), 6, b"BadLine"),
        ("a block behind edges, with the next number", LOOP.replace(b"end", b"block 2 0x1 0x2\nend"), 6, b"BadLine"),
        ("a block with a number that is not the next", b"func f\nblock 7 0x1 0x2\nend\n", 2, b"BlockOrder"),
    ]:
        refused(title, kind, ["check", "cfg", "out"], 1, line, cfg=text, out=b"")


PARTS = [repair_lines, block_lines]
