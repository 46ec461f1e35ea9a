"""Signs, in a profile's own lines, that it was made without an option: --base, or --map=."""
import re
from typing import IO, Iterable, Iterator

from pgo_tools import cli
from pgo_tools.cli import as_installed
from pgo_tools.texts import report

DISC = re.compile(rb" +[0-9]{1,5}\.([0-9]{1,10}): ")
# A base has 12 bits. A packed discriminator is even where its base is not 0, and from 9 on where it is: none of these
# is one, while a line with several bases has them.
LARGEST_BASE, NEVER_PACKED = 4095, (1, 3, 5, 7)
# So many lines without one of those are no chance, and more are not looked at.
LEAST, MOST = 10, 100000


def is_packed(discs: Iterable[int]) -> bool:
    """Whether these discriminators look like clang's as they are in a binary, from which no base was taken."""
    seen, is_large = 0, False
    for disc in discs:
        if disc in NEVER_PACKED:
            return False
        seen += disc > 0
        is_large = is_large or disc > LARGEST_BASE
        if seen == MOST:
            break
    return is_large or seen >= LEAST


def discs_of(file: IO[bytes]) -> Iterator[int]:
    """The discriminators of a profile that was read before, by its lines."""
    for line in file:
        match = DISC.match(line)
        if match:
            yield int(match[1])


def judge(path: str, discs: Iterable[int]) -> None:
    """Says in a line that a profile looks as if --base had been left out."""
    if is_packed(discs):
        cli.say(as_installed(f"{path} looks as if made of a clang binary without --base, which makes programs slower: "
                             "contrib/pgo-profile finds the option"))


def why_empty(said: report.Report) -> str:
    """What helps with an empty profile, by its report."""
    if said["branches"] and not said["inside"]:
        return (f"none of its {said['branches']} branches is in the program: --map=NAME for one that is "
                "position-independent, as contrib/pgo-profile finds it, or the binary that ran")
    return "contrib/pgo-profile tells why"
