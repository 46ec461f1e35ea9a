#!/usr/bin/env python3
"""profiles.py PROGRAM COLD SEED RUNS FINDS: runs `merge` and `summary` of PROGRAM, and COLD, on profile texts with mistakes.

COLD is `pgo-cold`, and also reads a generated binary, of which `where` of PROGRAM tells the places. Each run draws texts and changes
one of them, line by line or byte by byte; the same seed makes the same files. A run passes where the program ends within ten seconds
as sums.py says: by status, output and error output. Any other is a find, whose files are kept in the folder FINDS-SEED-RUN, and a
line says what happened. The last line counts the runs by what came of them. Ends with 1 where there was a find.
"""
import collections
import os
import random
import subprocess
import sys
import tempfile
import time

sys.dont_write_bytecode = True
HERE = os.path.dirname(os.path.abspath(__file__))
sys.path.insert(0, os.path.join(HERE, "..", "..", "gate", "program"))
import lifts
import make
import sums
from drawn import Text, damaged

if sys.argv[1:2] in (["-h"], ["--help"]):
    sys.exit(print(__doc__.strip()))
PROGRAM, COLD, SEED, RUNS, FINDS = *map(os.path.abspath, sys.argv[1:3]), *map(int, sys.argv[3:5]), os.path.abspath(sys.argv[5])
BINARY, ADDRESSES = make.small(2), range(make.CODE, make.CODE + 128)
# What is put into a text: numbers at the borders of their kinds, and what lines are made of.
WORDS = [
    b" ", b"  ", b"\n", b"\n ", b":", b": ", b".", b"#", b"!", b"0", b"1", b"\t", b"\r\n", b"\0", b"\x7f", b"\xff", b"a", b" a:1", b"1: 1\n", b" " * 256,
    b"65535", b"65536", b"4294967295", b"4294967296", b"9223372036854775808", b"18446744073709551615", b"18446744073709551616", b"0" * 30 + b"1",
]


def changed(draw, text):
    """The text with some bytes changed."""
    made = bytearray(text)
    for _ in range(draw.randrange(1, 6)):
        at, size = draw.randrange(len(made) + 1), draw.choice([0, 1, 1, 2, 8, 40])
        start = draw.randrange(len(made) + 1)
        copied = bytes(made[start : start + draw.randrange(200)])
        made[at : at + size] = draw.choice([draw.choice(WORDS), bytes([draw.randrange(256)]), copied, b""])
    return bytes(made)


def drawn(draw):
    """The words of a command, and its files."""
    files = {f"p{k}": Text(draw).spelled() for k in range(draw.choice([1, 1, 2, 3]))}
    name = draw.choice(sorted(files))
    for _ in range(draw.choice([0, 1, 1, 2])):
        files[name] = draw.choice([damaged, changed])(draw, files[name])
    if draw.random() < 0.3:
        # Some of the functions are those of the binary.
        told = files[name].replace(b"main", b"f0000").replace(b"_Z3fooi", b"f0001").replace(b" b:", b" g:")
        return ["pgo-cold", *["--base"] * draw.randrange(2), "bin", "prof"], {"bin": BINARY, "prof": told}
    if draw.random() < 0.4:
        return ["summary", name], files
    names = [name, *(draw.choice(sorted(files)) for _ in range(draw.randrange(8)))]
    draw.shuffle(names)
    weights = [1, 1, 2, 7, 255, 65535, draw.randrange(1, 65536)]
    return ["merge", *(word for name in names for word in (str(draw.choice(weights)), name))], files


def write(folder, files):
    os.makedirs(folder, exist_ok=True)
    for name, data in files.items():
        with open(f"{folder}/{name}", "wb") as file:
            file.write(data)


def keys_of(folder, options):
    """The keys of the binary."""
    write(folder, {"bin": BINARY})
    where = lambda at: subprocess.run([PROGRAM, "where", *options, f"{folder}/bin", "%x" % at], capture_output=True, check=True).stdout
    return {key for key in (lifts.key_of(where(at)) for at in ADDRESSES) if key}


def answer(keys, words, files):
    """What the words have to answer; `keys` are those of the binary, without and with bases."""
    if words[0] != "pgo-cold":
        return sums.answer(words, files.__getitem__)
    try:
        numbers = {thing: times for _, thing, times in sums.read(files["prof"])}
    except sums.Refused as bad:
        return 4, b"", b"refused: file 2 at %d: %b\n" % (bad.args[0], bad.args[1].encode())
    told = [thing[1:] for thing, times in numbers.items() if thing[0] == "count" and times == 0]
    return 0, sums.text_of(numbers, keys["--base" in words], told), b""


def ended(folder, words):
    """How the program ended."""
    spelled = [COLD, *words[1:]] if words[0] == "pgo-cold" else [PROGRAM, *words]
    try:
        ran = subprocess.run(spelled, cwd=folder, stdin=subprocess.DEVNULL, capture_output=True, timeout=10)
    except subprocess.TimeoutExpired:
        return None, b"", b"it did not end"
    return ran.returncode, ran.stdout, ran.stderr


def main():
    told, finds, start = collections.Counter(), 0, time.monotonic()
    with tempfile.TemporaryDirectory() as folder:
        keys = [keys_of(folder, options) for options in ([], ["--base"])]
    for run in range(RUNS):
        words, files = drawn(random.Random(SEED * 1000003 + run))
        wanted = answer(keys, words, files)
        with tempfile.TemporaryDirectory() as folder:
            write(folder, files)
            got = ended(folder, words)
        told[("pgo-cold " if words[0] == "pgo-cold" else "") + (wanted[2].decode().split(" ")[-1].strip() or "done")] += 1
        if got != wanted:
            finds += 1
            write(f"{FINDS}-{SEED}-{run}", files)
            came = f"status {got[0]}, {got[2][:200]}, wanted {wanted[0]}, {wanted[2]}"
            print(f"{FINDS}-{SEED}-{run}: {' '.join(words)}: {came}", flush=True)
    print(f"{RUNS} runs, {RUNS / (time.monotonic() - start):.0f} a second, {finds} finds:", ", ".join(f"{kind} {times} times" for kind, times in sorted(told.items())))
    return finds > 0


sys.exit(main())
