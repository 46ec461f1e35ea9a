"""Merges texts: files as they are read, eight at once, and sums on the way.

A file that is no profile does not go in, and is named with its first bad place; nothing else that fails is passed over.
"""
import contextlib
import errno
import os
import re
import signal
import tempfile
from typing import IO, Iterator, List, NamedTuple, Optional, Sequence, Tuple, TypeVar, Union

from pgo_tools.cli import FAILED, NO_FILE, NO_MEMORY, NO_PROGRAM, READ_FAULT, REFUSED, WRITE_FAULT, Trouble
from pgo_tools.cli.files import MOST_TEXT, opened, scratch_folder
from pgo_tools.cli.programs import last_line
from pgo_tools.fleet import manifest as told
from pgo_tools.fleet import owner
from pgo_tools.fleet.children import call, took_too_long
from pgo_tools.fleet.tree import ANY, File, Tree
from pgo_tools.texts import profile_text
from pgo_tools.texts.names import text_of

MERGED_AT_ONCE = 8

# What pgo says of a file: what, which one, and where.
SAID = re.compile("(no such file|read fault|refused): (?:file )?([1-8])((?: at .*)?)")
# What may be so of a good file too, by what it is added to.
OF_SUMS = "CountTooLarge"
# Why a good file may not be opened: the system has no room for it.
OF_SYSTEM = (errno.EMFILE, errno.ENFILE, errno.ENOMEM, errno.ENOBUFS)

Item = TypeVar("Item")


class Faults(Trouble):
    """Files that are no profiles, each with its place. Only the first has a remedy: it is mostly the same for all."""

    def __init__(self, files: Sequence[told.LeftOut], helps: str) -> None:
        super().__init__(files[0].line(), files[0].status, helps)
        self.files = files

    def said(self) -> List[Tuple[str, str]]:
        return [(each.line(), "" if number else self.helps) for number, each in enumerate(self.files)]


def remedy(tree: Tree, file: told.LeftOut) -> str:
    """What helps with a file that is no profile from its first line on, by how that looks."""
    if not tree.choices.fetch and file.why == "refused at 1: BadLine":
        with contextlib.suppress(OSError), opened(file.name)[0] as text:
            return str(profile_text.remedy(text_of(text.readline(4096).rstrip(b"\n"))))
    return ""


class Against(NamedTuple):
    """Why a text does not go in, with the status, and whether that is a fault of the text."""

    why: str
    status: int = REFUSED
    bad: bool = True


class Source(NamedTuple):
    """A text that is open, to be merged."""

    name: str
    weight: int
    file: IO[bytes]
    facts: told.Facts
    stamp: List[int]

    def left_out(self, against: Against) -> told.LeftOut:
        """The file as one that does not go in."""
        return told.LeftOut(self.name, self.weight, against.why, against.status, against.bad, self.stamp)

    def entry(self) -> told.Entry:
        """The file as one that went in."""
        facts = self.facts
        return told.Entry(self.name, self.weight, facts.size, facts.sha256, facts.total, facts.heads, self.stamp)


# Files, as they are read.


def source_of(name: str, weight: int, path: str) -> Source:
    """A file as a source."""
    file, seen = opened(path)
    try:
        return Source(name, weight, file, told.facts_within(file, seen.st_size), told.stamp_of(seen))
    except BaseException:
        file.close()
        raise


@contextlib.contextmanager
def fetched(tree: Tree, name: str, scratch: str) -> Iterator[str]:
    """Where a file stands within the block: at its name, or where the farm's own command put it, in an empty folder."""
    if not tree.choices.fetch:
        yield name
        return
    with scratch_folder("fetched.", scratch) as folder:
        # The file is read from this very folder, whichever takes its name meanwhile.
        held = os.open(folder, os.O_RDONLY | os.O_DIRECTORY | os.O_NOFOLLOW | os.O_CLOEXEC)
        try:
            owner.check(folder, os.fstat(held), folder)
            path = f"/dev/fd/{held}/fetched"
            bring(tree.choices.fetch, name, os.path.join(folder, "fetched"), path)
            yield path
        finally:
            os.close(held)


def bring(command: List[str], name: str, to: str, path: str) -> None:
    """Has a command copy a file to a path, which is read by another one. A link there would lead out of the folder."""
    try:
        status, said = call([*command, name, to], stdout=2)
    except (FileNotFoundError, PermissionError):
        raise Trouble(f"--fetch: there is no program {command[0]}", NO_PROGRAM) from None
    if os.path.islink(path):
        raise OSError(errno.EIO, f"{command[0]} brought a link", name)
    if status or not os.path.exists(path):
        why = said.replace("\n", "; ")
        raise OSError(errno.EIO, f"{command[0]} ended with {status}" + (f": {why}" if why else ""), name)


def asked(tree: Tree, entry: File, scratch: str) -> Union[Source, told.LeftOut]:
    """A file of the list as a source, or why it is left out."""
    try:
        with fetched(tree, entry.name, scratch) as path:
            source = source_of(entry.name, entry.weight, path)
    except OSError as reason:
        if reason.errno in OF_SYSTEM:
            raise Trouble(f"{entry.name}: {reason.strerror}", NO_MEMORY,
                          "fewer jobs at once (-j), smaller parts, ulimit -n") from None
        missing = isinstance(reason, (FileNotFoundError, NotADirectoryError, PermissionError))
        why = (reason.strerror or str(reason)).lower() if missing else f"read fault: {reason.strerror}"
        return told.LeftOut(entry.name, entry.weight, why.replace("no such file or directory", "no such file"),
                            NO_FILE if missing else READ_FAULT, True, told.stamp_at(entry.name))
    against = reason_against(tree, source.facts)
    if against is None:
        return source
    source.file.close()
    return source.left_out(against)


def reason_against(tree: Tree, facts: told.Facts) -> Optional[Against]:
    """Why a text does not go in; None if it does."""
    if facts.size > MOST_TEXT:
        return Against(f"refused at {MOST_TEXT}: FileTooLarge")
    if not facts.says:
        why = "; no branch is in the program: for want of --map=NAME, or another one ran" if facts.outside else ""
        empty = Against(f"empty: no line of it says anything (--empty-ok takes such){why}")
        return None if tree.choices.empty_ok else empty
    if len(facts.builds) > 1:
        return Against(f"it is of several builds: {', '.join(facts.builds)}")
    build = facts.builds[0] if facts.builds else ""
    if tree.choices.tells_build and not build:
        return Against("it tells no build at its end, as most files do: it was cut off, or pgo-profile did not make it")
    if tree.choices.build not in ("", ANY, build):
        return Against(f"it is of the build {build}" if build else "it tells no build", FAILED, False)
    return None


# Merges.


class Sum(NamedTuple):
    """A sum on the way, of the sources from the first to the last of its name."""

    name: str
    weight: int
    file: IO[bytes]


class Refusal(NamedTuple):
    """The input, counted from 0, that pgo refuses, and why; whether another input could be the reason."""

    number: int
    why: str
    is_its_own: bool

    def remedy(self) -> str:
        """What helps with a sum."""
        return "smaller weights" if OF_SUMS in self.why else ""


def refusal_of(status: int, said: str) -> Refusal:
    """What pgo said of one of its inputs. Anything else that ended it is a Trouble."""
    if said == "write fault":
        raise Trouble("write fault: there is no room for a sum", WRITE_FAULT,
                      "room on the disk, or TMPDIR=/another/folder in front")
    if status == NO_MEMORY:
        raise Trouble("no memory for a merge", NO_MEMORY, "fewer jobs at once (-j)")
    if status == -signal.SIGXFSZ:
        raise Trouble("write fault: a sum is larger than files may be (ulimit -f)", WRITE_FAULT)
    if status < 0:
        raise Trouble(f"pgo was ended by signal {-status}", FAILED, "the same call again, with --resume behind -o")
    match = SAID.fullmatch(said)
    if not match:
        raise Trouble(said or f"pgo ended without a word, with status {status}", status)
    why = match[1] + match[3]
    # What was read here a moment ago is there: that pgo cannot open or read it is no fault of the file.
    return Refusal(int(match[2]) - 1, why, match[1] == "refused" and OF_SUMS not in why)


class Merger(NamedTuple):
    """The program that merges, and how many seconds of a processor it may use for each of its inputs (0: any time)."""

    pgo: str
    most_seconds: int

    def call(self, sources: Sequence[Union[Source, Sum]], target: IO[bytes]) -> Tuple[int, str]:
        """Has it merge sources, or sums, into a file: its status, and what it says."""
        target.seek(0)
        target.truncate()
        handles = [each.file.fileno() for each in sources]
        words = [word for each, handle in zip(sources, handles) for word in (str(each.weight), f"/dev/fd/{handle}")]
        status, said = call([self.pgo, "merge", *words], target, handles, self.most_seconds * len(sources))
        return status, last_line(said)

    def said(self) -> str:
        """The limit, as it is reported."""
        return f"more than {self.most_seconds} second{'s' * (self.most_seconds > 1)} of a processor (--most-seconds)"

    def slow(self, sources: Sequence[Source], target: IO[bytes]) -> List[Source]:
        """The sources that take too long by themselves."""
        return [each for each in sources if took_too_long(self.call([each], target)[0])]


class Merged(NamedTuple):
    """The sources that went into a merge, and those that were refused for themselves."""

    good: List[Source]
    refused: List[told.LeftOut]


def has_changed(source: Source) -> bool:
    """A source was written to since it was read."""
    return told.written_of(os.fstat(source.file.fileno())) != source.stamp[: told.WRITTEN]


def merge(merger: Merger, sources: Sequence[Source], target: IO[bytes]) -> Merged:
    """Merges at most eight sources into a file."""
    merged = Merged(list(sources), [])
    while merged.good:
        status, said = merger.call(merged.good, target)
        if took_too_long(status):
            slow = merger.slow(merged.good, target)
            if not slow:
                names = f"{merged.good[0].name} to {merged.good[-1].name}"
                raise Trouble(f"the sum of {names} takes {merger.said()} for each", FAILED, "a larger limit")
            merged.refused.extend(each.left_out(Against(f"it takes {merger.said()}")) for each in slow)
            merged.good[:] = [each for each in merged.good if each not in slow]
            continue
        if status:
            refusal = refusal_of(status, said)
            source = merged.good[refusal.number]
            if not refusal.is_its_own:
                raise Trouble(f"{source.name} and those before it: {refusal.why}", status, refusal.remedy())
            merged.refused.append(merged.good.pop(refusal.number).left_out(Against(refusal.why, status)))
            continue
        changed = [each for each in merged.good if has_changed(each)]
        if not changed:
            break
        late = Against("it changed while it was read", READ_FAULT)
        merged.refused.extend(each.left_out(late) for each in changed)
        merged.good[:] = [each for each in merged.good if each not in changed]
    return merged


def groups(items: Sequence[Item]) -> List[Sequence[Item]]:
    """The items, as many at once as one merge takes."""
    return [items[start : start + MERGED_AT_ONCE] for start in range(0, len(items), MERGED_AT_ONCE)]


def scratch_file(scratch: str) -> IO[bytes]:
    """A new file without a name."""
    return tempfile.TemporaryFile(dir=scratch)


def add_up(merger: Merger, sums: Sequence[Sum], target: IO[bytes], scratch: str) -> None:
    """Merges any number of sums into a file, eight at a time."""
    while len(sums) > MERGED_AT_ONCE:
        above = []
        for group in groups(sums):
            file = scratch_file(scratch)
            merge_sums(merger, group, file)
            above.append(Sum(f"{group[0].name.split(' to ')[0]} to {group[-1].name.split(' to ')[-1]}", 1, file))
        sums = above
    merge_sums(merger, sums, target)


def merge_sums(merger: Merger, sums: Sequence[Sum], target: IO[bytes]) -> None:
    """Merges at most eight sums into a file."""
    status, said = merger.call(sums, target)
    if took_too_long(status):
        names = f"{sums[0].name} to {sums[-1].name}"
        raise Trouble(f"the sum of {names} takes {merger.said()} for each of {len(sums)}", FAILED, "a larger limit")
    if status:
        refusal = refusal_of(status, said)
        raise Trouble(f"the sum of {sums[refusal.number].name}: {refusal.why}", status, refusal.remedy())
    for each in sums:
        each.file.close()
