#!/usr/bin/env python3
"""corpus.py [add WORDS..]: the files that checks/by_hand/fuzz began with, and those that found something, with how each run ends.

They stand in corpus.tar.xz with a line for each run, and test_corpus.py runs them all. Without words this prints these lines. `add` takes a
command, as `pgo where FILE 401000`, keeps its files in the archive and the answer that it has now: look at it before you keep it.
"""
import io
import json
import os
import pathlib
import sys
import tarfile
from typing import NamedTuple

from common import COLD, HERE, PGO, run

ARCHIVE, LIST = HERE / "corpus.tar.xz", "runs"
PROGRAMS = {"pgo": PGO, "pgo-cold": COLD}
# No run takes more than this by the clock.
MOST_SECONDS = 20


class Kept(NamedTuple):
    """The words of a run, its status, and the first line of what it printed or said."""

    words: tuple
    status: int
    first: str

    def line(self):
        return json.dumps([*self]) + "\n"

    @classmethod
    def of_line(cls, line):
        words, status, first = json.loads(line)
        return cls(tuple(words), status, first)


def ended(words, folder) -> Kept:
    """How a run ends now."""
    ran = run(PROGRAMS[words[0]], *words[1:], folder=folder, limit=MOST_SECONDS)
    first = (ran.out or ran.err).partition(b"\n")[0][:200].decode("latin-1")
    return Kept(tuple(words), ran.status, first)


def unpacked() -> "tuple[dict[str, bytes], list[Kept]]":
    """The files, and the runs."""
    with tarfile.open(ARCHIVE) as archive:
        files = {member.name: content.read() for member in archive.getmembers() if (content := archive.extractfile(member))}
    return files, [Kept.of_line(line) for line in files.pop(LIST).decode().splitlines()]


def pack(files, runs):
    """Writes the archive anew, of which the same content makes the same bytes; similar files stand side by side."""
    listed = "".join(sorted({kept.line() for kept in runs}))
    made = io.BytesIO()
    with tarfile.open(fileobj=made, mode="w:xz", format=tarfile.USTAR_FORMAT) as archive:
        for name, content in sorted({**files, LIST: listed.encode()}.items()):
            member = tarfile.TarInfo(name)
            member.size = len(content)
            archive.addfile(member, io.BytesIO(content))
    scratch = ARCHIVE.with_suffix(".new")
    try:
        scratch.write_bytes(made.getvalue())
        os.replace(scratch, ARCHIVE)
    finally:
        scratch.unlink(missing_ok=True)


def add(words):
    """Keeps the files that the words name, by their last names, and the answer."""
    files, runs = unpacked() if ARCHIVE.exists() else ({}, [])
    taken, named = {}, [words[0]]
    for word in words[1:]:
        path = pathlib.Path(word)
        if path.is_file():
            taken[path.name] = path.read_bytes()
        named.append(path.name if path.is_file() else word)
    other = sorted(name for name, content in taken.items() if files.get(name, content) != content)
    if other:
        sys.exit(f"corpus.py: another file is called {' '.join(other)}")
    kept = ended(words, pathlib.Path.cwd())
    pack({**files, **taken}, [*runs, kept._replace(words=tuple(named))])
    print(kept.status, kept.first)


def main(words):
    if words[:1] == ["add"] and len(words) > 2 and words[1] in PROGRAMS:
        add(words[1:])
    elif words:
        sys.exit(__doc__.partition("\n")[0])
    else:
        print(*(kept.line() for kept in unpacked()[1]), sep="", end="")


if __name__ == "__main__":
    main(sys.argv[1:])
