"""Makes the parts of a tree, one after the other or by whatever engine, and at last the sum of all.

A part's text stands in the tree's folder with its manifest. A part above takes it in only if both are there and agree.
A file that is no profile is left out or ends the part, as the tree's choices say; no other failure is passed over.
"""
import contextlib
import os
from typing import ContextManager, IO, List, NamedTuple, Optional, Sequence, Tuple, Union

from pgo_tools.cli import DONE, FAILED, Trouble, say
from pgo_tools.cli.files import opened, put_in_place, scratch_folder, target_of
from pgo_tools.fleet import manifest as told
from pgo_tools.fleet import owner
from pgo_tools.fleet.merges import (
    MERGED_AT_ONCE, Faults, Merger, Source, Sum, add_up, asked, groups, merge, remedy, scratch_file,
)
from pgo_tools.fleet.owner import keep_own, opened_own
from pgo_tools.fleet.tree import ANY, File, Part, Tree
from pgo_tools.texts import packed
from pgo_tools.texts.names import raw_of

SEVERAL_BUILDS = "--build=ID takes those of one and leaves the others out, --build=any adds up all"


class Made(NamedTuple):
    """What became of the files of a part."""

    entries: List[told.Entry]
    left_out: List[told.LeftOut]
    builds: List[str]


def add_files(tree: Tree, part: Part, merger: Merger, target: IO[bytes], scratch: str) -> Made:
    """Merges the files of a part of level 1, those that are good."""
    made = Made([], [], [])
    sums: List[Sum] = []
    entries = tree.files_of(part)
    only = len(entries) <= MERGED_AT_ONCE
    for group in groups(entries):
        file = target if only else scratch_file(scratch)
        good = add_group(tree, group, merger, file, scratch, made)
        if good and not only:
            sums.append(Sum(f"{good[0]} to {good[-1]}", 1, file))
    order = {entry.name: number for number, entry in enumerate(entries)}
    made.left_out.sort(key=lambda each: order[each.name])
    bad = [each for each in made.left_out if each.bad]
    if bad and tree.choices.skip_bad is None:
        raise Faults(bad, remedy(tree, bad[0]))
    if sums:
        add_up(merger, sums, target, scratch)
    return made


def add_group(
    tree: Tree, group: Sequence[File], merger: Merger, file: IO[bytes], scratch: str, made: Made
) -> List[str]:
    """Merges some files of a part into a file, and notes what became of them: the names of those that went in."""
    with contextlib.ExitStack() as stack:
        sources = []
        for entry in group:
            source = asked(tree, entry, scratch)
            if isinstance(source, Source):
                stack.enter_context(source.file)
                sources.append(source)
            else:
                made.left_out.append(source)
        merged = merge(merger, sources, file)
        made.left_out.extend(merged.refused)
    for each in merged.good:
        made.entries.append(each.entry())
        if each.facts.says:
            made.builds.extend(each.facts.builds or [""])
    return [each.name for each in merged.good]


def one_build(tree: Tree, builds: Sequence[str], what: str) -> str:
    """The build that all of these agree on, "" for none."""
    if tree.choices.build == ANY:
        return ""
    if len(set(builds)) > 1:
        said = ", ".join([*sorted(filter(None, set(builds))), *(["none"] if "" in builds else [])])
        raise Trouble(f"{what}: the profiles are of several builds: {said}", FAILED, SEVERAL_BUILDS)
    return builds[0] if builds else ""


# Parts.


def again(tree: Tree, part: Part) -> str:
    """What helps with a part that is not as it was made."""
    return f"merge-tree --part={part} {tree.folder} makes it anew"


def is_of(tree: Tree, part: Part, seen: told.Manifest) -> bool:
    """A manifest is that of a part of this tree."""
    return (seen.tree, seen.want) == (tree.id, tree.want(part))


def believed(tree: Tree, part: Part) -> Tuple[IO[bytes], told.Manifest]:
    """A part's text, open, and its manifest. What is no part of this tree, or is not as it was made, is a Trouble."""
    seen = told.own(tree.manifest(part))
    if seen is None:
        raise Trouble(f"{tree.text(part)} has no manifest: it was not made to its end", FAILED, again(tree, part))
    if not is_of(tree, part, seen):
        raise Trouble(f"{tree.text(part)} is of another night or another list", FAILED, again(tree, part))
    try:
        file, _ = opened_own(tree.text(part))
    except OSError as reason:
        raise Trouble(f"{tree.text(part)}: {reason.strerror}", FAILED, again(tree, part)) from None
    why = told.differs(told.facts_of(file), seen)
    if why:
        file.close()
        raise Trouble(f"{tree.text(part)}: {why}", FAILED, again(tree, part))
    file.seek(0)
    return file, seen


class Noted(NamedTuple):
    """What went into a part, and what its manifest says of that."""

    inputs: List[told.Input]
    build: str
    merged: int
    bad: int
    files: List[told.Entry] = []
    parts: List[told.Below] = []
    left_out: List[told.LeftOut] = []


def add_parts(tree: Tree, part: Part, merger: Merger, target: IO[bytes], scratch: str) -> List[told.Manifest]:
    """Merges the parts below a part: their manifests."""
    sums, manifests = [], []
    with contextlib.ExitStack() as stack:
        for each in tree.below(part):
            file, seen = believed(tree, each)
            stack.enter_context(file)
            manifests.append(seen)
            files = tree.files_of(each)
            sums.append(Sum(f"{files[0].name} to {files[-1].name}" if len(files) > 1 else files[0].name, 1, file))
        add_up(merger, sums, target, scratch)
    return manifests


def scratch_of(tree: Tree, part: Part) -> ContextManager[str]:
    """A folder for what a part needs on the way: where TMPDIR says, else in the tree's own."""
    return scratch_folder(f"merge-tree.{part}.", os.environ.get("TMPDIR") or tree.folder)


def make(tree: Tree, part: Part, pgo: str) -> None:
    """Makes a part: puts its text in place whole, then its manifest, and takes away what it summed up."""
    with contextlib.suppress(FileNotFoundError):
        os.unlink(tree.manifest(part))
    first = part.level == 1
    with scratch_of(tree, part) as scratch, put_in_place(tree.text(part), lasting=False) as target:
        merger = Merger(pgo, tree.choices.most_seconds)
        noted = (make_first if first else make_above)(tree, part, merger, target, scratch)
        keep_own(target)
        facts = told.facts_written(target)
    seal(tree, part, facts, noted)
    for each in [] if first else tree.below(part):
        with contextlib.suppress(FileNotFoundError):
            os.unlink(tree.text(each))


def make_first(tree: Tree, part: Part, merger: Merger, target: IO[bytes], scratch: str) -> Noted:
    """Merges a part of files."""
    made = add_files(tree, part, merger, target, scratch)
    return Noted(
        [each.input() for each in made.entries], one_build(tree, made.builds, f"part {part}"), len(made.entries),
        sum(each.bad for each in made.left_out), files=made.entries, left_out=made.left_out,
    )


def make_above(tree: Tree, part: Part, merger: Merger, target: IO[bytes], scratch: str) -> Noted:
    """Merges a part of parts, likewise."""
    below = add_parts(tree, part, merger, target, scratch)
    return Noted(
        [each.input() for each in below], one_build(tree, [each.build for each in below if each.says], f"part {part}"),
        sum(each.merged for each in below), sum(each.bad for each in below),
        parts=[told.Below(str(name), each.sha256) for name, each in zip(tree.below(part), below)],
    )


def seal(tree: Tree, part: Part, facts: told.Facts, noted: Noted) -> None:
    """Writes the manifest of a part whose text is in place, if nothing of what went in is lost in it."""
    told.check_sums(f"part {part}", facts, noted.inputs)
    sealed = told.Manifest(
        tree.id, tree.want(part), facts.size, facts.sha256, facts.total, facts.heads, facts.says,
        noted.build, noted.merged, noted.bad, noted.files, noted.parts, noted.left_out,
    )
    told.write(tree.manifest(part), sealed, lasting=False)


# What is made already.


def are_unchanged(seen: told.Manifest) -> bool:
    """No file was written to since it went in or was left out. One that is gone since stays in."""
    stamps = [(each.name, each.stamp) for each in seen.files] + [(each.name, each.stamp) for each in seen.left_out]
    return all(told.stamp_at(name) in (stamp, []) for name, stamp in stamps)


def below_of(tree: Tree, part: Part) -> Optional[List[told.Below]]:
    """The parts below a part as their manifests tell; None if one of these is missing."""
    manifests = [(each, told.own(tree.manifest(each))) for each in tree.below(part)]
    known = [told.Below(str(each), seen.sha256) for each, seen in manifests if seen is not None]
    return known if len(known) == len(manifests) else None


def is_sound(tree: Tree, part: Part) -> bool:
    """A part was made, by its manifest, of what it would be made of now."""
    seen = told.own(tree.manifest(part))
    if seen is None or not is_of(tree, part, seen):
        return False
    if part.level == 1:
        may = tree.choices.skip_bad is not None or not seen.bad
        return may and bool(tree.choices.fetch or are_unchanged(seen))
    return below_of(tree, part) == seen.parts and all(is_sound(tree, each) for each in tree.below(part))


def is_ready(tree: Tree, part: Part) -> bool:
    """A part is sound, and its text is there with the bytes that it had."""
    if not is_sound(tree, part):
        return False
    try:
        believed(tree, part)[0].close()
    except Trouble:
        return False
    return True


def is_settled(tree: Tree, part: Part) -> bool:
    """Nobody needs a part to be made: it is ready, or has gone into one that is."""
    above: Optional[Part] = part
    while above is not None:
        if is_ready(tree, above):
            return True
        above = tree.above(above)
    return False


def missing(tree: Tree) -> List[Part]:
    """The parts that have to be made for the sum of all, each behind those that it sums up."""
    wanted, open_parts = [], [tree.last()]
    while open_parts:
        part = open_parts.pop()
        if not is_ready(tree, part):
            wanted.append(part)
            open_parts += tree.below(part) if part.level > 1 else []
    return sorted(wanted)


# The sum of all.


def gathered(tree: Tree) -> List[told.Manifest]:
    """The manifests of all parts of level 1. Each part above has to have been made of what stands below it."""
    manifests = []
    for part in tree.parts():
        seen = told.own(tree.manifest(part))
        below = below_of(tree, part) if part.level > 1 else []
        if seen is None or not is_of(tree, part, seen) or below != seen.parts:
            raise Trouble(f"the manifest of part {part} is missing, or of other parts", FAILED,
                          f"merge-tree --run {tree.folder}")
        if part.level == 1:
            manifests.append(seen)
    return manifests


def judged(tree: Tree, left_out: Sequence[told.LeftOut]) -> None:
    """Names what was left out, and refuses the sum where that is too much."""
    bad, others = [each for each in left_out if each.bad], [each for each in left_out if not each.bad]
    for each in bad:
        say(f"left out: {each.line()}")
    if others:
        say(f"left out: {len(others)} of {len(tree.files)} files, of other builds: {others[0].line()}")
    most = tree.choices.skip_bad or 0
    if 100 * len(bad) > most * len(tree.files):
        share = f"{len(bad)} of {len(tree.files)} files are bad, more than {most:g}%"
        raise Trouble(share, bad[0].status, "--skip-bad=PERCENT with --resume, which merges nothing anew")
    if len(left_out) == len(tree.files):
        raise Trouble("nothing was merged: all files were left out", FAILED)


def put_out(tree: Tree, lasting: bool = True) -> None:
    """Puts the sum of all in place, and its manifest beside it."""
    first = gathered(tree)
    entries = [each for seen in first for each in seen.files]
    left_out = [each for seen in first for each in seen.left_out]
    judged(tree, left_out)
    text, whole = believed(tree, tree.last())
    with text:
        facts = told.Facts(whole.size, whole.sha256, whole.total, whole.heads, whole.says, [])
        if not facts.says:
            raise Trouble("the sum is empty: no file says anything", FAILED)
        told.check_sums(tree.out, facts, [each.input() for each in entries])
        if len(entries) + len(left_out) != len(tree.files):
            raise Trouble(f"{len(tree.files)} files were to be merged, and {len(entries)} were", FAILED)
        told.check_place(tree.out)
        with put_in_place(tree.out, lasting=lasting) as target:
            if told.differs(told.facts_of(text, target), whole):
                raise Trouble(f"{tree.text(tree.last())} changed while it was read", FAILED)
            target.write(raw_of(f"# build {whole.build}\n") if whole.build else b"")
            # There is room for all of it: last night's manifest stays until then.
            target.flush()
            if lasting:
                os.fsync(target.fileno())
            with contextlib.suppress(FileNotFoundError):
                os.unlink(told.beside(tree.out))
            facts = told.facts_written(target)
        text.seek(0)
        packed.judge(tree.out if lasting else "the sum", packed.discs_of(text))
    told.check_sums(tree.out, facts, [whole.input()])
    noted = whole._replace(size=facts.size, sha256=facts.sha256, files=entries, parts=[], left_out=left_out)
    write_out(tree, noted, lasting)


def write_out(tree: Tree, noted: told.Manifest, lasting: bool) -> None:
    """The manifest of the sum of all: its own bytes, with those of the line that tells the build."""
    went_in = told.sum_of(each.input() for each in noted.files)
    more: List[Tuple[str, Union[str, int]]] = [
        ("out", tree.out), ("files_listed", len(tree.files)),
        ("total_in", went_in.total), ("heads_in", went_in.heads),
    ]
    told.write(told.beside(tree.out), noted, more, lasting)


def is_out(tree: Tree) -> bool:
    """The sum of all is in place already, by this user, made of the files as they are now."""
    try:
        seen = told.own(told.beside(tree.out))
        if seen is None or seen.want != tree.want(tree.last()) or not are_unchanged(seen):
            return False
        file, now = opened(tree.out)
    except (OSError, Trouble):
        return False
    with file:
        if not owner.is_callers(now, os.path.dirname(tree.out)) or told.differs(told.facts_of(file), seen):
            return False
    judged(tree, seen.left_out)
    return True


def do(tree: Tree, part: Part, pgo: str) -> int:
    """Makes a part unless that is done, and behind the last one the sum of all."""
    target_of(tree.out)
    if not is_settled(tree, part):
        make(tree, part, pgo)
    if part == tree.last():
        put_out(tree)
    return DONE
