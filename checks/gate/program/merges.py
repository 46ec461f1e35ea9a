"""`merge` and `summary` of the built program, on profile texts of which each byte is known.

First cases that were worked out by hand from docs/FORMATS.md; then texts drawn at random, with mistakes planted in them, of
which sums.py says what has to come.
"""
import collections
from typing import Any, Counter

import common
import judging
import make
import sums
from drawn import Text, damaged
from common import BAD_WORDS, DONE, MISSING, REFUSED
from judging import USAGE, judge, run

MOST = 2**64 - 1
# The profile of the two samples of the generated function.
F = b"f0000:7:1\n 0: 1\n 1: 1\n 2.2: 2\n 3: 2 f0000:1\n 2.1: g:1\n  1: 1\n"


def merged(title, wanted, *texts, weights=None):
    """The merge of these texts, with these weights or with 1 each."""
    files = {f"p{k}": text for k, text in enumerate(texts, 1)}
    pairs = [word for k, name in enumerate(files) for word in (str(weights[k] if weights else 1), name)]
    judge("merged: " + title, wanted, ["merge", *pairs], **files)


def gives(title, wanted, *texts, weights=None):
    merged(title, (DONE, wanted, b""), *texts, weights=weights)


def again(title, text):
    """A text whose merge with itself alone gives it back."""
    gives(title, text, text)


def summed(title, text, numbers, *told):
    """The summary of a text: how many functions and lines, the sum and the greatest count; then what cutoffs say."""
    wanted = b"functions %d\nlines %d\ntotal %d\nmax %d\n" % numbers + cutoffs(*told)
    judge("summed: " + title, (DONE, wanted, b""), ["summary", "p1"], p1=text)


def bad(title, at, kind, *texts, weights=None):
    """Texts of which the last one is refused there, also in a summary unless the numbers are only too large together."""
    merged(title, refusal(len(texts), at, kind), *texts, weights=weights)
    if kind != b"CountTooLarge":
        judge("summed: " + title, refusal(1, at, kind), ["summary", "p1"], p1=texts[-1])


def refusal(file, at, kind):
    return REFUSED, b"", b"refused: file %d at %d: %s\n" % (file, at, kind)


def cutoffs(*told):
    """The lines of all cutoffs: pairs of the last cutoff and of what its lines and those before it say."""
    made, left = b"", list(told)
    for cutoff in (
        *(10000, 100000, 200000, 300000, 400000, 500000, 600000, 700000, 800000, 900000),
        *(950000, 990000, 999000, 999900, 999990, 999999),
    ):
        if cutoff > left[0][0]:
            del left[0]
        made += b"cutoff %d least %d lines %d\n" % (cutoff, *left[0][1:])
    return made


def rows():
    gives("a profile once and twice", (
        b"f0000:21:3\n 0: 3\n 1: 3\n 2.2: 6\n 3: 6 f0000:3\n 2.1: g:3\n  1: 3\n"
    ), F, F, weights=(1, 2))
    summed("a profile", F, (1, 5, 7, 2), (500000, 2, 2), (999999, 1, 5))
    large = b"a:0:9223372036854775808\n"
    again("a head of 2^63", large)
    bad("twice a head of 2^63", 1, b"CountTooLarge", large, weights=(2,))
    bad("a head of 2^63, and again", 1, b"CountTooLarge", large, large)
    bad("a location with and without .0", 3, b"KeyTwice", b"a:1:0\n 1: 1\n 1.0: 1\n")
    bad("a step too deep", 2, b"BadIndent", b"a:1:0\n  1: 1\n")


def texts():
    gives("an empty text", b"", b"")
    gives("no text but remarks", b"", b"\n# a\n   # a\n \t \n#a:1:1\n")
    summed("an empty text", b"", (0, 0, 0, 0), (999999, 0, 0))
    again("what was merged", F)
    gives("remarks between lines", F, b"# a\n\n" + F.replace(b"\n", b"\n  # a\n\t\n  \n") + b"# branches 5\n")
    gives("the last line not ended", F, F[:-1])
    again("the longest numbers", b"a:%d:%d\n 65535.4294967295: %d b:%d\n" % ((MOST,) * 4))
    gives("zeros in front", b"a:1:2\n 3.4: 1 b:5\n", b"a:007:%b2\n 03.%b4: 01 b:0005\n" % (b"0" * 5000, b"0" * 40))
    again("names of other bytes", b"[a:1:0\n 1: 1 ~:1 \xc3\xa4\xff<>.#!0:1\n")
    gives("functions by total, then by name", (
        b"b:2:0\n 1: 2\na:1:0\n 1: 1\nab:1:0\n 1: 1\n"
    ), b"ab:9:0\n 1: 1\na:0:0\n 1: 1\nb:0:0\n 1: 2\n")
    gives("lines by offset and discriminator, calls behind them, by callee too", (
        b"a:6:0\n 2: 1\n 2.3: 1\n 10: 1\n 1: z:1\n  1: 1\n 2: y:1\n  1: 1\n 2: z:1\n  1: 1\n"
    ), b"a:0:0\n 2: z:0\n  1: 1\n 10: 1\n 2: y:0\n  1: 1\n 2.3: 1\n 1: z:0\n  1: 1\n 2: 1\n")
    gives("targets by times, then by name", b"a:0:0\n 1: 0 b:2 a:1 ab:1\n", b"a:9:0\n 1: 0 ab:1 b:2 a:1\n")
    # Totals are those of the lines, and stop at 2^64 - 1.
    gives("totals that are wrong", F, F.replace(b":7:", b":%d:" % MOST).replace(b"g:1", b"g:0"))
    gives("a total that stops", (
        b"a:%d:0\n 1: 1\n 1: b:%d\n  1: %d\n  2: %d\n" % (MOST, MOST, MOST, MOST)
    ), b"a:0:0\n 1: 1\n 1: b:0\n  1: %d\n  2: %d\n" % (MOST, MOST))
    gives("functions with totals that stop, by name", (
        b"a:%d:0\n 1: %d\n 2: 1\nb:%d:0\n 1: %d\n 2: 2\n" % ((MOST,) * 4)
    ), b"b:0:0\n 1: %d\n 2: 2\na:0:0\n 1: %d\n 2: 1\n" % (MOST, MOST))
    # What is 0 is not written.
    gives("zeros alone", b"", b"a:0:0\n 1: 0\n 2: 0 b:0\n 1: c:0\n  1: 0\n")
    gives("zeros beside others", (
        b"a:1:0\n 2: 1\n 1: c:0\n  2: 0 d:1\nb:0:1\n"
    ), b"a:0:0\n 1: 0\n 2: 1 b:0\n 1: c:0\n  1: 0\n  2: 0 d:1 e:0\n 1: d:0\n  1: 0\nb:0:1\n 7: 0\n")
    # What stands twice, and what only looks so.
    again("one location in two functions, in two calls, and as a line and a call", (
        b"a:4:0\n 1: 1\n 1: b:1\n  1: 1\n 1: c:1\n  1: 1\n 2: b:1\n  1: 1\nb:1:0\n 1: 1\n"
    ))
    gives("a body line closes a call of its depth, and a call or a remark of another none", (
        b"a:2:0\n 1: b:1\n  2: 1\n 2: b:1\n  1: 1\n"
    ), b"a:0:0\n 1: b:0\n# a\n# a\n  2: 1\n 2: b:0\n\n  1: 1\n")
    again("256 steps", b"".join(b" " * d + (b"1: f:1\n" if d else b"f:1:0\n") for d in range(256)) + b" " * 256 + b"1: 1\n")


def refusals():
    for line in [
        b"a", b"a:1", b"a:1:", b"a::1", b":1:1", b"a:1:1:1", b"a:1:1 ", b"a:1:1\r", b"a:1:1\t", b"a: 1:1", b"a:1: 1", b"a:-1:1", b"a:+1:1",
        b"a:0x1:1", b"a b:1:1", b"a\tb:1:1", b"\ta:1:1", b"1a:1:1", b"!a:1:1", b"a\x7f:1:1", b"a\x00:1:1", b"a\r:1:1", b"\x00",
        b"\t# a", b"\r", b"a:%d:1" % (MOST + 1), b"a:1:%d" % (MOST + 1), b"1: 1", b"1: a:1", b"a:1:1\x0c", b"[main:3 @ foo]:1:1",
        b"a:1.5:1", b"a:1:1 b:1", b"a:1,0:1",
    ]:
        bad(f"the function line {line!r}", 2, b"BadLine", b"z:1:1\n" + line + b"\n")
    for line in [
        b"1", b"1:", b"1: ", b"1:1", b"1:  1", b" 1 : 1", b"1: 1 ", b"1: 1  b:1", b"1: 1\tb:1", b"1: 1\r", b"1: 1 b:1\r", b"1: 1 b", b"1: 1 b:",
        b"1: 1 b:1 ", b"1: 1 :1", b"1: 1 2b:1", b"1: 1 #b:1", b"1: 1 !b:1", b"1: 1 b:1 2", b"1: 1 b:1:1", b"1.: 1", b".1: 1", b"1.2.3: 1", b"-1: 1",
        b"1.-2: 1", b"1.0x2: 1", b"a: 1", b"1: a", b"1: a:", b"1: a:1 ", b"1: a:1 b:1", b"1: a:1:1", b"1: a:1\r", b"1: #a:1", b"1: 2a:1",
        b"1: 1 b\x7f:1", b"1: b\x7f:1", b"1: 1 b:-1", b"1: -1", b"1: +1", b"1: 1.5", b"65536: 1", b"65536: a:1", b"100000000000000000000001: 1",
        b"1.4294967296: 1", b"1.4294967296: a:1", b"1: %d" % (MOST + 1), b"1: a:%d" % (MOST + 1), b"1: 1 b:%d" % (MOST + 1), b"a:1:1",
        b"!CFGChecksum: 1", b"!Attributes: 1", b"\t1: 1", b"1\t: 1",
    ]:
        bad(f"the line {line!r}", 2, b"BadLine", b"z:1:1\n " + line + b"\n")
    good = b"".join(b" " * d + (b"1: f:1\n" if d else b"f:1:0\n") for d in range(257))
    bad("a line 257 steps deep", 258, b"TooDeep", good + b" " * 257 + b"1: 1\n")
    bad("a call 257 steps deep", 258, b"TooDeep", good + b" " * 257 + b"1: f:1\n")
    bad("a bad line 257 steps deep", 258, b"BadLine", good + b" " * 257 + b"1:1\n")
    bad("a line too deep in no function", 1, b"TooDeep", b" " * 257 + b"1: 1\n")
    bad("a line of no function", 1, b"BadIndent", b" 1: 1\n")
    bad("a call of no function", 2, b"BadIndent", b"# a\n 1: b:1\n")
    bad("a line 256 steps deep in a function", 2, b"BadIndent", b"a:1:1\n" + b" " * 256 + b"1: 1\n")
    bad("a line below a line", 3, b"BadIndent", b"a:1:1\n 1: 1\n  1: 1\n")
    bad("a line below a call that is closed by a line", 4, b"BadIndent", b"a:1:1\n 1: b:1\n 2: 1\n  1: 1\n")
    bad("a line below a call that is closed by a function", 4, b"BadIndent", b"a:1:1\n 1: b:1\nb:1:1\n  1: 1\n")
    bad("a function twice", 3, b"KeyTwice", b"a:1:1\nb:1:1\na:1:1\n")
    bad("a function twice, the first of zeros", 2, b"KeyTwice", b"a:0:0\na:1:1\n")
    bad("a line twice", 4, b"KeyTwice", b"a:1:1\n 1.2: 1\n 1: 1\n 1.2: 1\n")
    bad("a line twice, with a call between", 5, b"KeyTwice", b"a:1:1\n 1: 1\n 2: b:1\n  1: 1\n 1: 1\n")
    bad("a line twice, by zeros in front", 3, b"KeyTwice", b"a:1:1\n 1: 1\n 01.00: 1\n")
    bad("a call twice", 5, b"KeyTwice", b"a:1:1\n 1: b:1\n  1: 1\n 2: 1\n 1: b:1\n")
    bad("a target twice", 2, b"KeyTwice", b"a:1:1\n 1: 1 b:1 c:1 b:2\n")
    bad("a target of 0 twice", 2, b"KeyTwice", b"a:1:1\n 1: 1 b:0 b:0\n")
    bad("a location and a target twice", 3, b"KeyTwice", b"a:1:1\n 1: 1\n 1: 1 b:1 b:1\n")
    bad("a bad place before a bad form", 2, b"BadIndent", b"a:1:1\n  1: 1\nz\n")
    bad("a bad form of an ended line", 1, b"BadLine", b"z\r\na:1:1\r\n")
    bad("ends of another system behind remarks", 3, b"BadLine", b"# a\r\n\n\r\na:1:1\n")


def large_sums():
    half = 2**63
    bad("twice a count", 2, b"CountTooLarge", b"a:0:0\n 1: %d\n" % half, weights=(2,))
    bad("twice a target", 2, b"CountTooLarge", b"a:0:0\n 1: 1 b:1 c:%d\n" % half, weights=(2,))
    again("a total past the numbers", b"a:%d:%d\n" % (0, MOST))
    gives("a total is no number that is added", b"a:2:0\n 1: 2\n", b"a:%d:0\n 1: 1\n" % MOST, weights=(2,))
    gives("as much as there may be", b"a:0:%d\n" % MOST, b"a:0:281479271743489\n", weights=(65535,))
    bad("one more", 1, b"CountTooLarge", b"a:0:281479271743490\n", weights=(65535,))
    gives("65,535 times and once", b"a:0:%d\n" % MOST, b"a:0:281479271743488\n", b"a:0:65535\n", weights=(65535, 1))
    bad("one more in the second", 1, b"CountTooLarge", b"a:0:281479271743488\n", b"a:0:65536\n", weights=(65535, 1))
    eighth, left = b"a:0:0\n 1: 1 b:%d\n" % (MOST // 8), MOST - 7 * (MOST // 8)
    gives("seven and as much as is left", b"a:8:0\n 1: 8 b:%d\nb:0:1\n" % MOST, *[eighth] * 7, b"b:1:1\na:0:0\n 1: 1 b:%d\n" % left)
    bad("seven and one more", 3, b"CountTooLarge", *[eighth] * 7, b"b:1:1\na:0:0\n 1: 1 b:%d\n" % (left + 1))
    # The first four causes come first, on whichever line; then the first line with the fifth.
    bad("a bad form behind a large number", 3, b"BadLine", b"a:0:%d\nb:0:1\nz\n" % half, weights=(2,))
    bad("a line twice behind a large number", 3, b"KeyTwice", b"a:0:%d\nb:0:1\na:0:1\n" % half, weights=(2,))
    two = b"b:0:1\na:0:1\n 1: 1 b:%d\nc:0:%d\n" % (half, half)
    bad("the first of two lines, whatever is too large there", 3, b"CountTooLarge", two, weights=(2,))
    bad("a file that is read behind one that is too large", 1, b"CountTooLarge", b"a:0:%d\n" % half, weights=(2,))
    merged("the first file that is too large", refusal(2, 1, b"CountTooLarge"), b"a:0:1\n", b"a:0:%d\n" % MOST, b"z\n")
    merged("a bad file before one that is too large", refusal(1, 1, b"BadLine"), b"z\n", b"a:0:%d\n" % MOST, b"a:0:1\n")
    again("numbers of zero times the most", b"a:0:%d\n" % MOST)
    gives("what was 0 before", b"a:0:%d\n" % MOST, b"a:0:0\n", b"a:0:%d\n" % MOST)


def words():
    for spelled in [
        "merge", "merge 1", "merge p1", "merge p1 1", "merge 1 p1 1", "merge 1 p1 p1", "merge 0 p1", "merge 00 p1", "merge 65536 p1",
        "merge -1 p1", "merge +1 p1", "merge 1.0 p1", "merge 0x1 p1", "merge 1x p1", "merge x p1", "merge 18446744073709551617 p1",
        "merge 1 p1 0 p1", "merge 1 p1 1 p1 65536 p1", "merge --x", "merge --x 1 p1", "merge --x p1", "merge --base 1 p1",
        "merge 1 p1 --base", "merge --1 p1", "merge --map=a 1 p1", "merge --edges 1 p1", "merge" + 9 * " 1 p1", "merge" + 16 * " 1 p1",
        "merge" + 8 * " 1 p1" + " 1", "summary", "summary p1 p1", "summary --x", "summary --x p1", "summary --base p1", "summary p1 --base",
        "summary 1 p1", "merges 1 p1", "Merge 1 p1", "sum p1",
    ]:
        judge(spelled, (BAD_WORDS, b"", USAGE), spelled.split(), p1=F)
    judge("an empty weight", (BAD_WORDS, b"", USAGE), ["merge", "", "p1"], p1=F)
    for weight in ["1", "01", "0" * 200 + "1"]:
        judge(f"the weight {weight}", (DONE, F, b""), ["merge", weight, "p1"], p1=F)
    judge("the largest weight", (DONE, b"a:0:65535\n", b""), ["merge", "65535", "p1"], p1=b"a:0:1\n")
    judge("a file that is named as a number", (DONE, F, b""), ["merge", "1", "1"], **{"1": F})
    judge("a file that is named as an option", (DONE, F, b""), ["merge", "1", "--x"], **{"--x": F})
    judge("one file eight times", (DONE, run(["merge", "8", "p1"], {"p1": F}).out, b""), ["merge"] + ["1", "p1"] * 8, p1=F)
    gives("eight files", b"a:0:36\n", *[b"a:0:1\n"] * 8, weights=range(1, 9))
    # Files that are missing, in turn; the files before are judged.
    for k in range(1, 9):
        names = ["x" if j == k else "p1" for j in range(1, 9)]
        pairs = [word for name in names for word in ("1", name)]
        missing, before = (MISSING, b"", b"no such file: %d\n" % k), pairs[: 2 * k]
        judge(f"file {k} missing", missing, ["merge", *pairs], p1=F)
        judge(f"file {k} missing and all behind it", missing, ["merge", *before, *["1", "x"] * (8 - k)], p1=F)
        judge(f"file {k} bad", refusal(k, 1, b"BadLine"), ["merge", *before, *["1", "y"] * (8 - k)], p1=F, x=b"z")
    judge("a file to sum up missing", (MISSING, b"", b"no such file: 1\n"), ["summary", "x"])
    judge("a missing file behind a bad one", refusal(1, 1, b"BadLine"), ["merge", "1", "p1", "1", "x"], p1=b"z")
    pairs = ["1", "p1", "1", "p1", "1", "x"]
    judge("a missing file behind a number too large", refusal(2, 1, b"CountTooLarge"), ["merge", *pairs], p1=b"a:0:%d\n" % 2**63)


def summaries():
    summed("a function without lines", b"a:0:1\n", (1, 0, 0, 0), (999999, 0, 0))
    summed("functions of zeros and of targets", b"a:0:0\n 1: 0\nb:0:0\n 1: 0 c:1\n", (1, 0, 0, 0), (999999, 0, 0))
    summed("one line", b"a:0:0\n 1: 5\n", (1, 1, 5, 5), (999999, 5, 1))
    # A cutoff that is met exactly, and one that is missed by one.
    summed("half of it", b"a:0:0\n 1: 5\n 2: 3\n 3: 2\n", (1, 3, 10, 5), (500000, 5, 1), (800000, 3, 2), (999999, 2, 3))
    summed("half of it but one", b"a:0:0\n 1: 4999\n 2: 5001\n", (1, 2, 10000, 5001), (500000, 5001, 1), (999999, 4999, 2))
    summed("less than half of it", b"a:0:0\n 1: 4999\n 2: 4998\n 3: 3\n", (1, 3, 10000, 4999), (400000, 4999, 1), (999000, 4998, 2), (999999, 3, 3))
    summed("lines that are equally hot", b"a:0:0\n 1: 1\n 2: 1\n 1: b:0\n  1: 1\nb:0:0\n 1: 1\n", (2, 4, 4, 1), (999999, 1, 4))
    summed("a millionth", b"a:0:0\n 1: 999999\n 2: 1\n", (1, 2, 1000000, 999999), (999999, 999999, 1))
    summed("a millionth and one", b"a:0:0\n 1: 999998\n 2: 2\n", (1, 2, 1000000, 999998), (999990, 999998, 1), (999999, 2, 2))
    summed("sums past 64 bits", b"a:0:0\n 1: %d\n 2: %d\n 3: 1\n" % (MOST, MOST), (1, 3, 2 * MOST + 1, MOST), (999999, MOST, 2))
    summed("heads and targets are no lines", b"a:0:9\n 1: 1 b:7\n", (1, 1, 1, 1), (999999, 1, 1))


def profiles():
    """What `profile` and `build` write, merged alone: the profile's lines again."""
    for count in (0, 1, 2, 64, 700):
        files = {part: run(["make", str(count), part], {}).out for part in ("bin", "perf", "cfg")}
        options: Any
        for command, options in (["profile"], []), (["profile"], ["--base"]), (["build"], []), (["build"], ["--edges"]):
            told = run([*command, *options, "bin", "perf", *["cfg"] * (command == ["build"])], files).out
            lines = b"".join(line for line in told.splitlines(keepends=True) if not line.startswith(b"#"))
            gives(f"what {command[0]} writes of {count} functions", lines, told)
    deep = run(["profile", "bin", "perf"], {"bin": make.nested_calls(400), "perf": b"0x4010fe/0x9 0x9/0x4010fe\n"}).out
    gives("calls 255 deep", b"".join(line for line in deep.splitlines(keepends=True) if not line.startswith(b"#")), deep)


def size_limit():
    # 2^28 bytes are judged line by line, and one more is not.
    too_large = 2**28, b"FileTooLarge"
    blank = b" \n" * 2**27
    judge("2^28 bytes", (DONE, b"", b""), ["merge", "1", "p1"], p1=blank)
    judge("2^28 bytes and one", refusal(1, *too_large), ["merge", "1", "p1"], p1=blank + b"\n")
    judge("2^28 bytes and a bad line", refusal(1, *too_large), ["summary", "p1"], p1=b"z\n" + blank)
    judge("2^28 bytes and one, as the second", refusal(2, *too_large), ["merge", "1", "p1", "1", "p2"], p1=F, p2=blank + b"\n")
    judge("the end of 2^28 bytes", refusal(1, 134217728, b"BadLine"), ["merge", "1", "p1"], p1=blank[:-1] + b"z")


common.takes(20)(size_limit)

# Texts at random.
KINDS: Counter[Any] = collections.Counter()


def compared(words, files):
    """Whether the program answers as sums.py does."""
    wanted = sums.answer(words, files.__getitem__)
    KINDS[wanted[2].split(b" ")[-1].strip() or b"done"] += 1
    judge(" ".join(words), wanted, words, **files)
    return wanted


def at_random(draw):
    files = {f"p{k}": Text(draw).spelled() for k in range(draw.choice([1, 2, 2, 3, 8]))}
    for name in files:
        if draw.random() < 0.25:
            files[name] = damaged(draw, files[name])
    pairs = [(str(draw.choice([1, 1, 2, 3, 1000, 65535])), draw.choice(sorted(files))) for _ in range(draw.randrange(1, 9))]
    first = compared(["merge", *(word for pair in pairs for word in pair)], files)
    draw.shuffle(pairs)
    second = compared(["merge", *(word for pair in pairs for word in pair)], files)
    assert first[:2] == second[:2]
    compared(["summary", "p0"], files)
    if first[0] == DONE:
        # What was merged is read, and has the same sums.
        judge("a merge, merged", first, ["merge", "1", "m"], m=first[1])
        compared(["summary", "m"], {"m": first[1]})


def kinds_at_random():
    """Of a few hundred texts by seeds some end in each way."""
    for kind in (b"done", b"BadLine", b"TooDeep", b"BadIndent", b"KeyTwice", b"CountTooLarge"):
        if KINDS[kind] < 10:
            judging.fail("texts at random", f"{KINDS[kind]} cases of {kind.decode()}")


PARTS = [rows, texts, refusals, large_sums, words, summaries, profiles, size_limit]
