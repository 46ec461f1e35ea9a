"""The tree that sums up any number of profiles: its files, parts and levels, described once for whatever runs it.

A part of level 1 sums up some of the files, a part of a higher level some of the parts below, and the one part of the
last level all of them. Whichever tree it is, and in whatever order the files come, the bytes are the same.
"""
import contextlib
import hashlib
import json
import os
import re
import secrets
from typing import List, NamedTuple, Optional

from pgo_tools.cli import FAILED, USAGE, Trouble
from pgo_tools.cli.files import opened, put_in_place
from pgo_tools.fleet.owner import check_folder, keep_own, opened_own
from pgo_tools.texts.numbers import decimal

FORM = "merge-tree's tree 1"
# How every description begins, of whatever version.
START = b'{"form": "merge-tree\'s tree '
# The choice of all builds together.
ANY = "any"


class File(NamedTuple):
    """A profile and how many times it counts."""

    name: str
    weight: int


class Part(NamedTuple):
    """A part of the tree, as LEVEL.NUMBER. Levels are counted from 1 and the parts of a level from 0."""

    level: int
    number: int

    def __str__(self) -> str:
        return f"{self.level}.{self.number}"


class Choices(NamedTuple):
    """What was asked for: how many percent may be bad (None for none), whether an empty file is good, and which build.

    The build is "" for the one that all agree on, and "any" for all together. `fetch` are the words of a command that
    fetches a file. A file has to tell a build if most files do, and may take so many seconds (0: any time).
    """

    skip_bad: Optional[float] = None
    empty_ok: bool = False
    build: str = ""
    fetch: List[str] = []
    tells_build: bool = False
    most_seconds: int = 0


class Tree(NamedTuple):
    """A tree in a folder. Parts of another tree's id are refused: they are of another night."""

    folder: str
    out: str
    id: str
    width: int
    choices: Choices
    files: List[File]

    def counts(self) -> List[int]:
        """How many parts each level has, from level 1 up."""
        made = [-(-len(self.files) // self.width)]
        while made[-1] > 1:
            made.append(-(-made[-1] // self.width))
        return made

    def last(self) -> Part:
        """The part that has all in it."""
        return Part(len(self.counts()), 0)

    def parts(self) -> List[Part]:
        """All parts, each behind those that it sums up."""
        return [Part(level, number) for level, count in enumerate(self.counts(), 1) for number in range(count)]

    def below(self, part: Part) -> List[Part]:
        """The parts that a part of a level above 1 sums up."""
        first, most = part.number * self.width, self.counts()[part.level - 2]
        return [Part(part.level - 1, number) for number in range(first, min(first + self.width, most))]

    def above(self, part: Part) -> Optional[Part]:
        """The part that sums up a part, or None."""
        return None if part == self.last() else Part(part.level + 1, part.number // self.width)

    def files_of(self, part: Part) -> List[File]:
        """The files that are in a part, whatever its level."""
        span = self.width**part.level
        return self.files[part.number * span : (part.number + 1) * span]

    def want(self, part: Part) -> str:
        """What a part has to be made of, as one word: two trees with the same files there ask for the same."""
        choices = self.choices._replace(skip_bad=None)
        asked = (part.level, self.width, choices, self.files_of(part))
        return hashlib.sha256(json.dumps(asked).encode("ascii")).hexdigest()

    def text(self, part: Part) -> str:
        """The path of a part's text."""
        return os.path.join(self.folder, f"{part}.prof")

    def manifest(self, part: Part) -> str:
        """The path of a part's manifest."""
        return os.path.join(self.folder, f"{part}.manifest")


def part_of(tree: Tree, word: str) -> Part:
    """The part that LEVEL.NUMBER names."""
    match = re.fullmatch(rf"{decimal(9)}\.{decimal(9)}", word)
    part = Part(int(match[1]), int(match[2])) if match else None
    if part is not None and part in tree.parts():
        return part
    counts = ", ".join(f"{level}.0 to {level}.{count - 1}" for level, count in enumerate(tree.counts(), 1))
    raise Trouble(f"{tree.folder} has no part {word}: it has {counts}", USAGE)


def description(folder: str) -> str:
    """The path of the description of the tree in a folder."""
    return os.path.join(folder, "tree")


def is_described(folder: str) -> bool:
    """A tree is described in a folder, by this version of merge-tree or another."""
    with contextlib.suppress(OSError), opened(description(folder))[0] as file:
        return bool(file.read(len(START)) == START)
    return False


def write(tree: Tree) -> None:
    """Puts the description into the tree's folder."""
    told = {"form": FORM, **tree._asdict(), "choices": tree.choices._asdict()}
    with put_in_place(description(tree.folder), lasting=False) as file:
        file.write((json.dumps(told) + "\n").encode("ascii"))
        keep_own(file)


def is_text(value: object) -> bool:
    """A value of JSON may be a name of the system's."""
    return isinstance(value, str) and b"\0" not in os.fsencode(value)


def is_of_its_kind(tree: Tree) -> bool:
    """What stands in a description is of its kind, and makes levels that end."""
    texts = [tree.out, tree.id, tree.choices.build, *tree.choices.fetch, *(name for name, _ in tree.files)]
    seconds = tree.choices.most_seconds
    numbers = [tree.width, seconds, *(weight for _, weight in tree.files)]
    # A text that cannot be one of the system's names is a UnicodeEncodeError, which is a ValueError.
    are_texts = type(tree.choices.fetch) is list and all(map(is_text, texts))
    skipped = tree.choices.skip_bad
    is_percent = skipped is None or type(skipped) in (int, float) and 0 <= skipped <= 100
    are_numbers = all(type(each) is int for each in numbers)
    return are_texts and is_percent and are_numbers and seconds >= 0 and tree.width > 1 and bool(tree.files)


def read(folder: str) -> Tree:
    """The tree in a folder of the caller's: the description of another user's names commands that would be run."""
    helps = "the folder that merge-tree --plan=FOLDER made"
    try:
        check_folder(folder)
        with opened_own(description(folder))[0] as file:
            told = json.load(file)
        if told.pop("form") != FORM:
            raise ValueError
        told["folder"] = os.path.abspath(folder)
        choices, files = Choices(**told.pop("choices")), [File(*pair) for pair in told.pop("files")]
        made = Tree(choices=choices, files=files, **told)
        if not is_of_its_kind(made):
            raise ValueError
        return made
    except FileNotFoundError:
        raise Trouble(f"{folder} holds no tree", FAILED, helps) from None
    except (ValueError, TypeError, KeyError, AttributeError, RecursionError):
        raise Trouble(f"{description(folder)} describes no tree", FAILED, helps) from None


def fresh_id() -> str:
    """An id that no other tree has."""
    return secrets.token_hex(8)
