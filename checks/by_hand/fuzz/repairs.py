#!/usr/bin/env python3
"""repairs.py PROGRAM SEED RUNS FINDS: runs `build`, `check` and `lift` of PROGRAM on texts with mistakes, beside flows.py.

Each run draws a branch text and a block text, plants mistakes in the block text or none, and builds them. Where that is refused,
flows.py has to refuse the block text alike. Else the profile and the report have to be those of `profile`, and what stands between
them a repair that flows.py accepts: of all functions, with the weights that the samples say. Then mistakes are planted in what was
built, and `check` and `lift` have to answer to it as flows.py does, by status, output and error output. Any other run, or one that
does not end within ten seconds, is a find, whose files are kept in the folder FINDS-SEED-RUN, and a line says what happened. The
same seed makes the same files. The last line counts the answers by what came of them. Ends with 1 where there was a find.
"""
import collections
import os
import random
import re
import subprocess
import sys
import tempfile
import time

sys.dont_write_bytecode = True
HERE = os.path.dirname(os.path.abspath(__file__))
sys.path.insert(0, os.path.join(HERE, "..", "..", "gate", "program"))
import flows
import lifts
import make
import sums

PROGRAM, SEED, RUNS, FINDS = os.path.abspath(sys.argv[1]), int(sys.argv[2]), int(sys.argv[3]), os.path.abspath(sys.argv[4])
# Two functions, of 64 bytes each.
BINARY, START, SIZE, LENGTH = make.small(2), make.CODE, 64, 128
NAMES = [b"f0000", b"f0001", b"a", b"flow", b"cut", b"end", b"#", b"0", b"block", b"x\xff\r", b"n" * 300]
NUMBERS = [
    b"0", b"1", b"2", b"7", b"00", b"-0", b"-1", b"65535", b"65536", b"17592186044415", b"17592186044416", b"9223372036854775807", b"9223372036854775808",
    b"-9223372036854775808", b"-9223372036854775809", b"18446744073709551615", b"18446744073709551616", b"0" * 60 + b"1", b"1" * 50,
    b"340282366920938463463374607431768211455", b"340282366920938463463374607431768211456", b"?", b"", b"x", b"+1", b"0x1", b"1.0",
]
ADDRESSES = [b"0x401000", b"0x401040", b"0x0", b"0x", b"0X401000", b"401000", b"0xffffffffffffffff", b"0x10000000000000000", b"0x" + b"0" * 40 + b"401010"]
WORDS = [
    b"exit", b"never", b"ran", b"lo=2", b"hi=1", b"hi=0", b"lo=3 hi=2", b"hi=2 lo=1", b"lo=", b"lo=17592186044415", b"hi=17592186044416", b"#", b"func",
    b"block", b"edge", b"end", b"function", b"flow", b"cut", b"cut 0", b"cut 1", b"weight", b"count", b"in", b"out", b"\r", b"\0", b"\xa0", b"\x0b",
]
LINES = [
    b"", b" ", b"\t", b"# a remark", b" # another", b"end", b"func f0000", b"func f0001", b"# function f0000 flow", b"# function f0000 cut 0", b"#",
    b"# end 0", b"# end 1 0", b"# edge 0 0 count 0", b"# edge 0 1 weight 1 count 1", b"# block 0 weight 0 count 0 in 0 out 0", b"# block 0 weight 0 in 0 out 0",
    b"edge 0 0", b"edge 0 1", b"block 0 0x401000 0x401010 exit", b"#  function f0000 flow", b"# functions", b" 3: 1", b"main:1:1",
    b"func a\nend", b"block 1 0x401030 0x401031 lo=1 hi=0", b"edge 0 0 lo=2 hi=1",
]


def bound(draw, of_block):
    least = draw.choice([0, 1, 2, draw.randrange(9)])
    most = least + draw.choice([0, 0, 1, draw.randrange(40)])
    return draw.choice([b"never", b"ran" if of_block else b"never", b"lo=%d" % least, b"hi=%d" % most, b"lo=%d hi=%d" % (least, most)])


def spelled(draw, words):
    """The words in a line, now and then with further blanks or zeros."""
    if draw.random() < 0.05:
        words = [re.sub(rb"^(0x|lo=|hi=)?(?=[0-9a-f]+$)", lambda front: front[0] + b"000", word) if word.isalnum() else word for word in words]
    gap = draw.choice([b" "] * 15 + [b"  ", b"\t", b" \t "])
    return draw.choice([b""] * 20 + [b" ", b"\t"]) + gap.join(words) + draw.choice([b""] * 20 + [b" ", b"\t"])


def function_text(draw):
    """The lines of a function without a mistake."""
    size = draw.choice([1, 1, 2, 3, 4, 5, 7])
    points = sorted(draw.sample(range(START - 2, START + LENGTH + 3), 2 * size))
    if draw.random() < 0.7:
        # Blocks that stand side by side, so that the program can run on from each into the next.
        points = [point for pair in zip(points, points[1:]) for point in pair][: 2 * size]
    spans = list(zip(points[::2], points[1::2]))
    if draw.random() < 0.3:
        draw.shuffle(spans)
    lines = [spelled(draw, [b"func", draw.choice(NAMES[:2] * 4 + NAMES)])]
    exits = {draw.randrange(size), draw.randrange(size)} if draw.random() < 0.9 else ()
    for index, (low, high) in enumerate(spans):
        words = [b"block", b"%d" % index, b"0x%x" % low, draw.choice([b"0x%x", b"0x%X"]) % high]
        words += [b"exit"] * (index in exits) + ([bound(draw, True)] if draw.random() < 0.15 else [])
        lines.append(spelled(draw, words))
    ways = {(index, index + 1) for index in range(size - 1)} | {(draw.randrange(size), draw.randrange(size)) for _ in range(draw.randrange(size + 1))}
    for way in sorted(ways, key=lambda way: draw.random() if size > 3 else way):
        lines.append(spelled(draw, [b"edge", b"%d" % way[0], b"%d" % way[1], *([bound(draw, False)] if draw.random() < 0.15 else [])]))
    return [*lines, spelled(draw, [b"end"])]


def joined(draw, lines):
    return b"\n".join(lines) + (b"" if draw.random() < 0.1 else b"\n")


def block_text(draw):
    """The lines of a block text without a mistake, with remarks between them."""
    made = []
    for _ in range(draw.choice([0, 1, 1, 1, 2, 2, 3])):
        for line in function_text(draw):
            made += [draw.choice([b"", b" \t", b"# a remark", b"#"])] * (draw.random() < 0.03) + [line]
    return made


def planted(draw, lines):
    """The lines with one mistake, or with what only looks like one; mostly in the lines of repairs, where there are any."""
    lines = lines or [b""]
    told = [at for at, line in enumerate(lines) if re.match(rb"# (?:function|block|edge|end) ", line)]
    at = draw.choice(told) if told and draw.random() < 0.8 else draw.randrange(len(lines))
    words = lines[at].split(b" ")
    place = draw.randrange(len(words))
    choice = draw.randrange(12)
    if choice == 0:
        lines.insert(draw.choice([at, at + 1, draw.randrange(len(lines) + 1)]), lines[at])
    elif choice == 1:
        del lines[at]
    elif choice == 2:
        other = draw.randrange(len(lines))
        lines[at], lines[other] = lines[other], lines[at]
    elif choice == 3:
        lines.insert(at, draw.choice(LINES))
    elif choice == 4:
        del lines[at + 1 :]
        lines[at] = lines[at][: draw.randrange(len(lines[at]) + 1)]
    elif choice == 5:
        cut = draw.randrange(len(lines[at]) + 1)
        lines[at] = lines[at][:cut] + bytes([draw.randrange(256)]) + lines[at][cut + draw.randrange(2) :]
    elif choice == 6:
        place = draw.choice([place, len(words)])
        words[place : place + draw.randrange(2)] = [draw.choice(WORDS)]
        lines[at] = b" ".join(words)
    elif choice == 7:
        words[place] = draw.choice(ADDRESSES if words[place].startswith(b"0x") else NUMBERS)
        lines[at] = b" ".join(words)
    else:
        # One number more or less by a little, of which some texts stay good.
        numbers = [k for k, word in enumerate(words) if re.fullmatch(rb"-?[0-9]+|0x[0-9a-f]+", word)]
        if numbers:
            place = draw.choice(numbers)
            more = draw.choice([-1, 1, 1, 2, 10])
            hexed = words[place].startswith(b"0x")
            changed = int(words[place], 16 if hexed else 10) + more
            words[place] = b"0x%x" % abs(changed) if hexed else b"%d" % changed
            lines[at] = b" ".join(words)
    return lines


def damaged(draw, lines):
    lines = list(lines)
    for _ in range(draw.choice([0, 1, 1, 1, 1, 2, 3])):
        lines = planted(draw, lines)
    return lines


class Samples:
    """A branch text drawn at random: its branches, and the ranges that ran, each within one function."""

    def __init__(self, draw):
        self.branches, self.ran, lines = [], [], []
        for _ in range(draw.choice([0, 1, 4, 12])):
            at = lambda: START + draw.choice([draw.randrange(-1, LENGTH + 1), *range(0, LENGTH, 16)])
            entries, times = [(at(), at()) for _ in range(draw.choice([1, 2, 2, 3]))], draw.choice([1, 1, 2, 5, 30])
            lines += [b" ".join(b"0x%x/0x%x" % entry for entry in entries)] * times
            self.branches += entries * times
            # Entries stand newest first: from where the older one went to where the newer one left.
            ranges = [(older[1], newer[0]) for newer, older in zip(entries, entries[1:])]
            self.ran += [pair for pair in ranges if self.runs(*pair)] * times
        self.text = b"".join(line + b"\n" for line in lines)

    @staticmethod
    def runs(low, high):
        return low <= high and START <= low and high < START + LENGTH and (low - START) // SIZE == (high - START) // SIZE

    def edge_weight(self, start, end):
        """How often the program went from one block to another."""
        taken = sum(start[0] <= branch[0] < start[1] and branch[1] == end[0] for branch in self.branches)
        return taken + sum(low < end[0] <= high for low, high in self.ran) * (start[1] == end[0])


class Case:
    """One run: the words of its commands, its files, and what it has to answer."""

    def __init__(self, draw, folder, keys):
        self.draw, self.folder, self.told, self.files = draw, folder, [], {}
        self.base = ["--base"] * (draw.random() < 0.2)
        self.keys = keys[bool(self.base)]
        self.options = [option for option in ("--edges", "--scaled") if draw.random() < 0.4]
        self.write("bin", BINARY)

    def write(self, name, data):
        self.files[name] = data
        with open(f"{self.folder}/{name}", "wb") as file:
            file.write(data)

    def run(self, *words):
        try:
            ran = subprocess.run([PROGRAM, *words], cwd=self.folder, stdin=subprocess.DEVNULL, capture_output=True, timeout=10)
        except subprocess.TimeoutExpired:
            return None, b"", b"it did not end"
        return ran.returncode, ran.stdout, ran.stderr

    def judge(self, words, got, wanted):
        """What is wrong, or nothing."""
        self.told.append(words[0] + " " + (wanted[2].decode().split(": ")[-1].strip() or "done" if wanted[0] != 1 else "failed"))
        return None if got == wanted else f"{' '.join(words)}: {got[0]} {got[1][:200]} {got[2][:200]}, wanted {wanted[0]} {wanted[1][:200]} {wanted[2]}"

    def try_all(self):
        draw, samples = self.draw, Samples(self.draw)
        self.write("perf", samples.text)
        lines = block_text(draw)
        self.write("cfg", joined(draw, damaged(draw, lines)))
        words = ["build", *self.base, *self.options, "bin", "perf", "cfg"]
        built = self.run(*words)
        functions, refused = flows.judged(3, lambda: flows.functions_of(self.files["cfg"]))
        if refused:
            wrong = self.judge(words, built, refused)
            if wrong:
                return wrong
            # The rest goes by the text without mistakes.
            self.write("cfg", joined(draw, lines))
            built = self.run(*words)
            functions = flows.functions_of(self.files["cfg"])
        wrong = self.judge(words, (built[0], b"", built[2]), (0, b"", b"")) or self.fault(built[1], functions, samples)
        self.told += ["a flow" if word == b"flow" else "a cut" for word in re.findall(rb"^# function .* (flow|cut [01])$", built[1], re.M)]
        if wrong:
            return wrong
        text = built[1].split(b"\n")[:-1]
        self.write("out", joined(draw, damaged(draw, text)))
        if draw.random() < 0.1:
            self.write("cfg", joined(draw, damaged(draw, lines)))
        checked = flows.answer(self.files["cfg"], self.files["out"])
        lift = ["lift", *self.base, "bin", "cfg", "out"]
        wanted = flows.answer_of_lift(self.keys, self.files["cfg"], self.files["out"])
        return self.judge(["check", "cfg", "out"], self.run("check", "cfg", "out"), checked) or self.judge(lift, self.run(*lift), wanted)

    def fault(self, built, functions, samples):
        """What is wrong with what was built, or nothing."""
        _, profile, _ = self.run("profile", *self.base, "bin", "perf")
        lines, report = (b"".join(line for line in profile.splitlines(True) if line.startswith(b"#") == of) for of in (False, True))
        if "--scaled" in self.options:
            built, _, last = built.rpartition(b"# augmentations ")
            if not re.fullmatch(rb"(0|[1-9][0-9]*)\n", last):
                return "no number of augmentations"
        if not (built.startswith(lines) and built.endswith(report) and len(built) >= len(lines) + len(report)):
            return "another profile, or another report"
        middle = built[len(lines) : len(built) - len(report)]
        repairs, refused = flows.judged(3, lambda: flows.repairs_of(functions, middle))
        if refused:
            return f"what was built is refused: {refused}"
        if self.respelled(repairs) != middle:
            return "what was built is spelled in another way"
        counts = {thing[1:]: times for _, thing, times in sums.read(lines) if thing[0] == "count"}
        for repair in repairs:
            wrong = self.other_weights(repair, counts, samples)
            if wrong:
                return wrong
        line = flows.failed_line(repairs)
        return line and f"line {line} of what was built fails"

    def respelled(self, repairs):
        said = lambda weight: b"?" if weight == "?" else b"%d" % weight
        made = []
        for repair in repairs:
            made.append(b"# function %b " % repair.function.name + (b"cut %d" % repair.root if repair.is_cut() else b"flow"))
            for index, (_, weight, *told) in enumerate(repair.blocks):
                front = b"# block %d weight %b" % (index, said(weight))
                made.append(front + (b" in %d out %d" if repair.is_cut() else b" count %d in %d out %d") % tuple(told))
            for (start, end, *_), (_, weight, count) in zip(repair.function.edges, repair.edges):
                weighed = b"weight %b " % said(weight) if "--edges" in self.options else b""
                made.append(b"# edge %d %d %bcount %d" % (start, end, weighed, count))
            made.append(b"# end " + b" ".join(b"%d" % told for told in repair.end[1]))
        return b"".join(line + b"\n" for line in made)

    def other_weights(self, repair, counts, samples):
        """The weights that the samples do not say, or nothing."""
        blocks, weights = repair.function.blocks, []
        for block in blocks:
            found = [counts.get(key, 0) for at, key in self.keys.items() if block[0] <= at < block[1]]
            weights.append(max(found) if found else "?")
        if weights != [told[1] for told in repair.blocks]:
            return f"weights of blocks {[told[1] for told in repair.blocks]}, wanted {weights}"
        if "--edges" not in self.options or repair.is_cut():
            return None
        wanted = [
            "?" if "?" in (weights[start], weights[end]) else samples.edge_weight(blocks[start], blocks[end]) for start, end, *_ in repair.function.edges
        ]
        told = [told[1] for told in repair.edges]
        return None if told == wanted else f"weights of edges {told}, wanted {wanted}"


def keys_of(folder, options):
    """The key of each address of the binary that has one."""
    with open(f"{folder}/bin", "wb") as file:
        file.write(BINARY)
    where = lambda at: subprocess.run([PROGRAM, "where", *options, f"{folder}/bin", "%x" % at], capture_output=True, check=True).stdout
    found = {at: lifts.key_of(where(at)) for at in range(START, START + LENGTH)}
    return {at: key for at, key in found.items() if key}


def main():
    told, finds, start = collections.Counter(), 0, time.monotonic()
    with tempfile.TemporaryDirectory() as folder:
        keys = [keys_of(folder, options) for options in ([], ["--base"])]
        for run in range(RUNS):
            case = Case(random.Random(SEED * 1000003 + run), folder, keys)
            wrong = case.try_all()
            told.update(case.told)
            if wrong:
                finds += 1
                os.makedirs(f"{FINDS}-{SEED}-{run}", exist_ok=True)
                for name, data in case.files.items():
                    with open(f"{FINDS}-{SEED}-{run}/{name}", "wb") as file:
                        file.write(data)
                print(f"{FINDS}-{SEED}-{run}: {wrong}", flush=True)
    print(f"{RUNS} runs, {RUNS / (time.monotonic() - start):.0f} a second, {finds} finds:", ", ".join(f"{kind} {times} times" for kind, times in sorted(told.items())))
    return finds > 0


sys.exit(main())
