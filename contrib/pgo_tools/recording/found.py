"""What is found out of a program and its recording: who made it, and by which name it was loaded."""
import os
from typing import TYPE_CHECKING, Iterable, List

from pgo_tools.cli import Trouble
from pgo_tools.elf import Elf
from pgo_tools.texts.branch_text import Load
from pgo_tools.texts.names import shell_word

if TYPE_CHECKING:
    from pgo_tools.recording.inputs import Program

DELETED = " (deleted)"
# Of what fits so much is told.
MOST_NAMES = 5


def percent(share: float) -> str:
    return "less than 1%" if 0 < share < 0.01 else f"{share:.0%}"


def packs(maker: str) -> bool:
    """Its discriminators are packed, so that profiles take their bases."""
    return maker in ("clang", "rustc")


def wants_base(elf: Elf) -> bool:
    """Most of the code is of clang or rustc."""
    return sum(share for maker, share in elf.makers() if packs(maker)) > 0.5


def shares(elf: Elf) -> str:
    """Who made the code, in words: "clang 90%, gcc 10%"."""
    told = [f"{maker} {percent(share)}" for maker, share in elf.makers()]
    return ", ".join(told[:MOST_NAMES] + [f"and {len(told) - MOST_NAMES} more"] * (len(told) > MOST_NAMES))


def is_mixed(elf: Elf) -> bool:
    """A part that matters is of a maker whose discriminators are of the other kind."""
    packed = sum(share for maker, share in elf.makers() if packs(maker))
    return 0.02 < packed < 0.98


def last_name(name: str) -> str:
    """A load line's name without folders, and without what Linux says of a file that was replaced."""
    return os.path.basename(name[: -len(DELETED)] if name.endswith(DELETED) else name)


def loaded_names(program: "Program", loads: Iterable[Load]) -> List[str]:
    """The names by which load lines have this program: by its build's number, else by its own name."""
    number = program.headers().build_id()
    named = [load for load in loads if load.name.startswith("/")]
    found = {load.name for load in named if number and is_same_build(load.build, number)}
    for own in (os.path.basename(program.name), os.path.basename(os.path.realpath(program.name))):
        found = found or {load.name for load in named if last_name(load.name) == own}
    return sorted(found)


def loaded_name(program: "Program", loads: Iterable[Load]) -> str:
    """The one name, or "" where there is none; a Trouble where several fit."""
    names = loaded_names(program, loads)
    if len(names) > 1:
        what = f"the load lines have {len(names)} names that fit {program.name}"
        raise Trouble(what, helps="the one that ran, whole:\n" + as_options(names))
    return names[0] if names else ""


def as_options(names: List[str]) -> str:
    """The first few names as options, and how many more there are."""
    lines = [f"    --map={quoted(name)}" for name in names[:MOST_NAMES]]
    more = [f"    and {len(names) - MOST_NAMES} more"] if len(names) > MOST_NAMES else []
    return "\n".join(lines + more)


def quoted(name: str) -> str:
    """A name in double quotes where that is enough, as people write it."""
    return f'"{name}"' if not set(name) & set('"$`\\!') and name.isprintable() else shell_word(name)


def names_to_choose(program: "Program", loads: Iterable[Load]) -> List[str]:
    """Names of the load lines: those that end as the program does, if there are any, and else the first few."""
    # perf has code without a file as //anon.
    names = sorted({load.name for load in loads if load.name.startswith("/") and not load.name.startswith("//")})
    same = [name for name in names if last_name(name) == os.path.basename(program.name)]
    return same or names[:MOST_NAMES]


def other_build(program: "Program", loads: Iterable[Load], name: str) -> str:
    """The first number of the load lines of this name that is another than the program's, or ""."""
    number = program.headers().build_id()
    builds = (load.build for load in loads if number and load.name == name and load.build)
    return next((build for build in builds if not is_same_build(build, number)), "")


def is_known_build(program: "Program", loads: Iterable[Load], names: List[str]) -> bool:
    """Load lines with these names have the build ID of the program, and no other one."""
    number = program.headers().build_id()
    builds = {load.build for load in loads if load.name in names and load.build}
    return bool(number and builds) and all(is_same_build(build, number) for build in builds)


def is_same_build(build: str, number: str) -> bool:
    """Two numbers are one. perf fills short ones up with zeros to 20 bytes."""
    return bool(build) and build.ljust(40, "0") == number.ljust(40, "0")
