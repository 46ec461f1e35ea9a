"""The built program `pgo-cold`, on binaries, profile texts and branch texts of which each byte is known.

What it has to write is worked out by hand from docs/FORMATS.md and docs/RULES.md.
"""
import known
import make
from common import BAD_WORDS, DONE, MISSING, REFUSED
from judging import judge

USAGE = b"usage: pgo-cold [--base] BIN PROFILE, or profile [--map=NAME] [--base] BIN PERF\n"
# A function `f0000` with the places 0, 1, 2.2 and 3, and 1 in a call of `g` from 2.1; and `f0001` behind it, alike.
ONE = make.small(1)
TWO = make.small(2)
F = b"f0000:7:1\n 0: 1\n 1: 1\n 2.2: 2\n 3: 2 f0000:1\n 2.1: g:1\n  1: 1\n"


def made(title, wanted, text, binary=ONE, options=()):
    judge(title, (DONE, wanted, b""), [*options, "bin", "prof"], bin=binary, prof=text)


def by_hand():
    made("each place has a line", F, F)
    made("lines that never ran", b"f0000:1:1\n 0: 0\n 1: 1\n 2.2: 0\n 3: 0\n 2.1: g:0\n  1: 0\n", b"f0000:1:1\n 1: 1\n")
    made("in a call that ran", b"f0000:3:0\n 0: 0\n 1: 0\n 2.2: 0\n 3: 0\n 2.1: g:3\n  1: 0\n  9: 3\n", b"f0000:3:0\n 2.1: g:3\n  9: 3\n")
    made("only a head", b"f0000:0:4\n 0: 0\n 1: 0\n 2.2: 0\n 3: 0\n 2.1: g:0\n  1: 0\n", b"f0000:0:4\n")
    made("a target and no count", b"f0000:0:0\n 0: 0\n 1: 0 k:2\n 2.2: 0\n 3: 0\n 2.1: g:0\n  1: 0\n", b"f0000:0:0\n 1: 0 k:2\n")
    made("a function that the profile has not", b"f0001:5:0\n 0: 0\n 1: 5\n 2.2: 0\n 3: 0\n 2.1: g:0\n  1: 0\n", b"f0001:5:0\n 1: 5\n", TWO)
    made("a function that the binary has not", b"main:9:3\n 7: 9\n", b"main:9:3\n 7: 9\n")
    made("a callee is no function of the profile", b"main:9:3\n 7: f0000:9\n  1: 9\n", b"main:9:3\n 7: f0000:9\n  1: 9\n")
    made("a line that the binary has not", b"f0000:2:0\n 0: 0\n 1: 0\n 2.2: 0\n 3: 0\n 65535: 2\n 2.1: g:0\n  1: 0\n", b"f0000:2:0\n 65535: 2\n")
    made("an empty text", b"", b"")
    made("comments alone", b"", b"# branches 0\n\n")
    made("no number above 0", b"", b"f0000:0:0\n 2.1: g:7\n")
    made("totals are summed anew", b"f0000:1:1\n 0: 0\n 1: 1\n 2.2: 0\n 3: 0\n 2.1: g:0\n  1: 0\n", b"# g\nf0000:77:1\n 1: 1\n")
    made("bases", F.replace(b"2.2", b"2.1").replace(b"2.1: g", b"2: g"), b"f0000:7:1\n 0: 1\n 1: 1\n 2.1: 2\n 3: 2 f0000:1\n 2: g:1\n  1: 1\n", ONE, ["--base"])
    made(
        "a text of discriminators, and bases of the binary",
        b"f0000:7:1\n 0: 1\n 1: 1\n 2.1: 0\n 2.2: 2\n 3: 2 f0000:1\n 2: g:0\n  1: 0\n 2.1: g:1\n  1: 1\n", F, ONE, ["--base"],
    )
    # A second function of that name, from line 9, has its places as well.
    alike = TWO[:233] + b"0\0\x09" + TWO[236:]
    made("two functions of one name", b"f0000:1:1\n 0: 0\n 1: 1\n 2: 0\n 2.2: 0\n 3: 0\n 3.2: 0\n 4: 0\n 2.1: g:0\n  1: 0\n 3.1: g:0\n  1: 0\n", b"f0000:1:1\n 1: 1\n", alike)
    two = b"f0001:1:0\n 0: 0\n 1: 1\n 2.2: 0\n 3: 0\n 2.1: g:0\n  1: 0\n"
    made("functions in their order", b"f0000:2:0\n 0: 2\n 1: 0\n 2.2: 0\n 3: 0\n 2.1: g:0\n  1: 0\n" + two, b"f0001:0:0\n 1: 1\nf0000:0:0\n 0: 2\n", TWO)


def with_count_0():
    """Lines of count 0 that the profile has stay."""
    f = b"f0000:2:0\n 0: 0\n 1: 2\n 2.2: 0\n 3: 0\n%b 2.1: g:0\n  1: 0\n"
    made("a line that the binary has not", f % b" 65535: 0\n", b"f0000:2:0\n 1: 2\n 65535: 0\n")
    made("a line that the binary has", f % b"", b"f0000:2:0\n 1: 2\n 3.0: 0\n")
    made("a discriminator", f % b" 3.7: 0\n", b"f0000:2:0\n 1: 2\n 3.7: 0\n")
    made("a target of 0 does not", f % b" 9: 0\n", b"f0000:2:0\n 1: 2\n 9: 0 k:0\n")
    made("in an inlined call", f % b"" + b"  7.3: 0\n 4: h:0\n  5: k:0\n   6: 0\n", b"f0000:2:0\n 1: 2\n 2.1: g:9\n  7.3: 0\n 4: h:1\n  5: k:0\n   6: 0\n")
    made("a call without a line does not", f % b"", b"f0000:2:0\n 1: 2\n 4: h:0\n")
    made("a function that has no others gets no more", b"f0000:0:0\n 0: 0\n 3: 0\n", b"f0000:0:0\n 3: 0 k:0\n 0: 0\n")
    made("nor does it stand for another", b"f0001:1:0\n 0: 0\n 1: 1\n 2.2: 0\n 3: 0\n 2.1: g:0\n  1: 0\nf0000:0:0\n 0: 0\n", b"f0000:0:0\n 0: 0\nf0001:1:0\n 1: 1\n", TWO)
    made("functions that the binary has not", b"main:9:3\n 2: 0\n 7: 9\n_Z3foov:0:0\n 1: 0\n", b"_Z3foov:0:0\n 1: 0\nmain:9:3\n 7: 9\n 2: 0\n")


def refusals():
    refused = lambda file, at, kind: (REFUSED, b"", b"refused: file %d at %d: %s\n" % (file, at, kind))
    judge("no words", (BAD_WORDS, b"", USAGE), [])
    judge("one word", (BAD_WORDS, b"", USAGE), ["bin"], bin=ONE)
    judge("three words", (BAD_WORDS, b"", USAGE), ["bin", "prof", "prof"], bin=ONE, prof=F)
    judge("an option of `profile`", (BAD_WORDS, b"", USAGE), ["--map=bin", "bin", "prof"], bin=ONE, prof=F)
    judge("an option twice", (BAD_WORDS, b"", USAGE), ["--base", "--base", "bin", "prof"], bin=ONE, prof=F)
    judge("an option behind", (BAD_WORDS, b"", USAGE), ["bin", "prof", "--base"], bin=ONE, prof=F)
    judge("a command of `pgo`", (BAD_WORDS, b"", USAGE), ["merge", "1", "prof"], prof=F)
    judge("no binary", (MISSING, b"", b"no such file: 1\n"), ["bin", "prof"], prof=F)
    judge("no text", (MISSING, b"", b"no such file: 2\n"), ["bin", "prof"], bin=ONE)
    judge("a bad binary comes first", refused(1, 0, b"NotElf"), ["bin", "prof"], bin=b"ELF")
    judge("and before a bad text", refused(1, 0, b"NotElf"), ["bin", "prof"], bin=b"ELF", prof=b"f\n")
    judge("a bad line", refused(2, 2, b"BadLine"), ["bin", "prof"], bin=ONE, prof=b"f0000:1:1\n 1:1\n")
    judge("a line that stands twice", refused(2, 3, b"KeyTwice"), ["bin", "prof"], bin=ONE, prof=b"f0000:1:1\n 1: 1\n 1: 0\n")
    judge("a line below no function", refused(2, 1, b"BadIndent"), ["bin", "prof"], bin=ONE, prof=b" 1: 1\n")
    judge("a line too far in", refused(2, 1, b"TooDeep"), ["bin", "prof"], bin=ONE, prof=b" " * 257 + b"1: 1\n")
    # No numbers are added, so none is too large.
    most = 2**64 - 1
    wanted = b"f0000:%d:%d\n 0: 0\n 1: %d\n 2.2: 0\n 3: %d k:%d\n 2.1: g:0\n  1: 0\n" % (most, most, most, most, most)
    made("totals stand still", wanted, b"f0000:0:%d\n 1: %d\n 3: %d k:%d\n" % (most, most, most, most))
    for word in ("--help", "-h", "--version"):
        told = lambda out: out.split(b" ")[0]
        judge(word, (DONE, b"pgo-cold", b""), [word], told)


def again():
    """What was written is written again, and what one binary adds stays behind another, in either order."""
    text = b"f0000:1:1\n 0: 0\n 1: 1\n 2.2: 0\n 3: 0\n 2.1: g:0\n  1: 0\n"
    made("written again", text, text)
    # Two functions of one name, the second from line 9, and the first alone, by bases.
    alike = TWO[:233] + b"0\0\x09" + TWO[236:]
    one = b"f0000:1:1\n 0: 0\n 1: 1\n 2.1: 0\n 3: 0\n 2: g:0\n  1: 0\n"
    other = b"f0000:1:1\n 0: 0\n 1: 1\n 2: 0\n 2.2: 0\n 3: 0\n 3.2: 0\n 4: 0\n 2.1: g:0\n  1: 0\n 3.1: g:0\n  1: 0\n"
    both = other.replace(b" 2.2: 0\n", b" 2.1: 0\n 2.2: 0\n").replace(b" 2.1: g", b" 2: g:0\n  1: 0\n 2.1: g")
    made("one binary", one, b"f0000:1:1\n 1: 1\n", ONE, ["--base"])
    made("another behind it", both, one, alike)
    made("the other", other, b"f0000:1:1\n 1: 1\n", alike)
    made("the one behind it", both, other, ONE, ["--base"])


def report(ran, branches, entries, inside, unmapped=b""):
    """The report of `pgo profile`, where all ranges ran."""
    sums = b"# branches %d\n# entries %d\n# inside %d\n" % (branches, entries, inside)
    return sums + unmapped + b"# ranges ran %d\n# ranges reversed 0\n# ranges outside 0\n# ranges crossing 0\n# units read 1 passed 0\n" % ran


def of_samples(title, lines, text, told, binary=ONE, options=()):
    judge(title, (DONE, lines + told, b""), ["profile", *options, "bin", "perf"], bin=binary, perf=text)


def sampled():
    """The profile of a binary and its samples, with the lines that never ran, and its report."""
    text = known.TWO_SAMPLES
    of_samples("each place has a line", F, text, report(3, 5, 1, 4))
    of_samples("bases", F.replace(b"2.2", b"2.1").replace(b"2.1: g", b"2: g"), text, report(3, 5, 1, 4), ONE, ["--base"])
    of_samples("no sample", b"", b"", report(0, 0, 0, 0))
    f = b"f0000:%d:%d\n 0: %d\n 1: 0\n 2.2: 0\n 3: 0%b\n 2.1: g:0\n  1: 0\n"
    call = report(0, 1, 1, 0)
    of_samples("a call alone", f % (0, 1, 0, b" f0000:1"), b"0x401034/0x401000", call, TWO)
    moved = known.LOAD + b"0x7f0000000034/0x7f0000000000"
    of_samples("moved by a load line", f % (0, 1, 0, b" f0000:1"), moved, call, TWO, ["--map=/bin/x"])
    of_samples("and by bases", (f % (0, 1, 0, b" f0000:1")).replace(b"2.2", b"2.1").replace(b"2.1: g", b"2: g"), moved, call, TWO, ["--base", "--map=/bin/x"])
    # An entry from outside: the function stands by its head, and that of no sample does not.
    entry = b"# unmapped FromOutside 0x9 0x401004 1\n"
    of_samples("only a head", f % (0, 1, 0, b""), b"0x9/0x401000", report(0, 1, 1, 0), TWO)
    once = b"0x401004/0x9 0x9/0x401004"
    ends = report(1, 2, 0, 0, entry + b"# unmapped ToOutside 0x401004 0x9 1\n")
    of_samples("one address", f % (1, 0, 1, b""), once, ends, TWO)
    # A second function of that name, from line 9, in which nothing ran, has its places as well.
    alike = TWO[:233] + b"0\0\x09" + TWO[236:]
    of_samples("two functions of one name", b"f0000:1:0\n 0: 1\n 1: 0\n 2: 0\n 2.2: 0\n 3: 0\n 3.2: 0\n 4: 0\n 2.1: g:0\n  1: 0\n 3.1: g:0\n  1: 0\n", once, ends, alike)


def words_of_both():
    """Two words are a binary and a profile, also where the first is `profile`; behind it three are a binary and its samples."""
    text = known.TWO_SAMPLES
    both = (DONE, F + report(3, 5, 1, 4), b"")
    judge("a binary of this name", (DONE, F, b""), ["profile", "prof"], profile=ONE, prof=F)
    judge("and with an option", (DONE, F.replace(b"2.2: 2", b"2.1: 0\n 2.2: 2").replace(b" 2.1: g", b" 2: g:0\n  1: 0\n 2.1: g"), b""),
          ["--base", "profile", "prof"], profile=ONE, prof=F)
    judge("one of its name behind it", both, ["profile", "profile", "perf"], profile=ONE, perf=text)
    judge("a text of its name", both, ["profile", "bin", "profile"], bin=ONE, profile=text)
    for title, words in (
        ("one word", "profile"), ("four words", "profile bin perf perf"), ("an option in front", "--base profile bin perf"), ("one of `build`", "profile --edges bin perf"),
        ("an option twice", "profile --base --base bin perf"), ("two names", "profile --map=/x --map=/x bin perf"), ("no name", "profile --map= bin perf"),
        ("an option behind", "profile bin perf --base"), ("an option and one word", "profile --base bin"), ("another command", "build bin perf"),
    ):
        judge(title, (BAD_WORDS, b"", USAGE), words.split(), bin=ONE, perf=text)
    refused = lambda file, at, kind: (REFUSED, b"", b"refused: file %d at %d: %s\n" % (file, at, kind))
    judge("no binary", (MISSING, b"", b"no such file: 1\n"), ["profile", "bin", "perf"], perf=text)
    judge("no text", (MISSING, b"", b"no such file: 2\n"), ["profile", "bin", "perf"], bin=ONE)
    judge("a bad binary comes first", refused(1, 0, b"NotElf"), ["profile", "bin", "perf"], bin=b"ELF")
    judge("a profile is no branch text", refused(2, 1, b"BadLine"), ["profile", "bin", "perf"], bin=ONE, perf=F)


PARTS = [by_hand, with_count_0, refusals, again, sampled, words_of_both]
