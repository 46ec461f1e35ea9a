"""The places of a program's instructions, read apart from pgo: by objdump and llvm-symbolizer, by docs/RULES.md."""
import bisect
import json
import os
import pickle
import re
import shutil
import subprocess
import tempfile

INSTRUCTION = re.compile(r"^ +([0-9a-f]+):\t", re.M)
NAME = re.compile(r"[^\s:0-9][^\s:]*")


def tool(name):
    found = next(filter(shutil.which, [name] + [f"{name}-{n}" for n in range(30, 13, -1)]), None)
    if not found:
        raise SystemExit(f"places: {name} is needed")
    return found


def instructions_of(path):
    told = subprocess.run(["objdump", "-d", "--no-show-raw-insn", path], capture_output=True, text=True, check=True).stdout
    return sorted({int(at, 16) for at in INSTRUCTION.findall(told)})


def base_of(discriminator):
    """The base that clang packs into a discriminator (LLVM, Discriminator.h, getBaseDiscriminatorFromDiscriminator)."""
    if discriminator & 1:
        return 0
    packed = discriminator >> 1
    return (packed >> 1 & 0xFE0) | (packed & 0x1F) if packed & 0x20 else packed & 0x1F


def factor_of(discriminator):
    """How often the code was copied, as clang packs it behind the base (getDuplicationFactorFromDiscriminator)."""
    rest = discriminator >> (1 if discriminator & 1 else 14 if discriminator & 0x40 else 7)
    packed = rest >> 1
    return (not rest & 1 and ((packed >> 1 & 0xFE0) | (packed & 0x1F) if packed & 0x20 else packed & 0x1F)) or 1


def way_of(frames, base):
    """The way that the frames of an address spell, the innermost frame first, with its factor; (None, 1) where there is none."""
    if not frames or not frames[0]["Line"] or not all(NAME.fullmatch(frame["FunctionName"]) for frame in frames):
        return None, 1
    split = base_of if base else int
    places = [((frame["Line"] - frame["StartLine"]) % 65536, split(frame.get("Discriminator", 0))) for frame in frames]
    calls = [(*places[k], frames[k - 1]["FunctionName"]) for k in range(len(frames) - 1, 0, -1)]
    return (frames[-1]["FunctionName"], tuple(calls), places[0]), factor_of(frames[0].get("Discriminator", 0)) if base else 1


def ways_of(path, base):
    """Each instruction's address with its way, None where it has none."""
    return {at: way for at, (way, _) in places_of(path, base).items()}


def places_of(path, base):
    """Each instruction's address with its way and factor. Where KEEP names a folder, they are kept there for the next time."""
    if "KEEP" not in os.environ:
        return looked_up(path, base)
    kept = os.path.join(os.environ["KEEP"], f"{os.path.basename(path)}.ways{'.base' if base else ''}")
    if not os.path.exists(kept) or os.path.getmtime(kept) < os.path.getmtime(path):
        made = pickle.dumps(looked_up(path, base))
        # Half a file would be taken for all of it the next time.
        new = f"{kept}.{os.getpid()}.new"
        with open(new, "wb") as file:
            file.write(made)
        os.replace(new, kept)
    with open(kept, "rb") as file:
        return pickle.load(file)


def looked_up(path, base):
    """The same by the tools. A copy without symbols has them go by the names of the debugging information alone."""
    addresses = instructions_of(path)
    with tempfile.TemporaryDirectory() as folder:
        plain = os.path.join(folder, "plain")
        subprocess.run(["objcopy", "--wildcard", "--strip-symbol=*", path, plain], check=True, stderr=subprocess.DEVNULL)
        words = [tool("llvm-symbolizer"), f"--obj={plain}", "--output-style=JSON", "--functions=linkage", "--no-demangle"]
        told = subprocess.run(words, input="".join(f"{at:#x}\n" for at in addresses), capture_output=True, text=True, check=True).stdout
    made = {}
    for line in told.splitlines():
        if line.strip():
            row = json.loads(line)
            made[int(row["Address"], 16)] = way_of(row.get("Symbol"), base)
    return {at: made.get(at, (None, 1)) for at in addresses}


def held_counts(ways, functions, repairs):
    """The largest count by way of all blocks that have counts and hold the way."""
    addresses, held = sorted(ways), {}
    for function, repair in zip(functions, repairs):
        for (low, high), count in zip(function.blocks, repair.counts):
            for at in addresses[bisect.bisect_left(addresses, low) : bisect.bisect_left(addresses, high)]:
                if ways[at] is not None:
                    held[ways[at]] = max(count, held.get(ways[at], 0))
    return held
