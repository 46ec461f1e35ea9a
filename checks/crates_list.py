"""The crates of a repository, as its crates.txt lists them: under which heading each stands, and what it cites."""
from typing import Dict, List, NamedTuple, Tuple

HEADING = "# "


class Crate(NamedTuple):
    name: str
    heading: str  # empty above the first heading
    cites: Tuple[str, ...]
    line: int  # from 1


def heading_of(line: str) -> str:
    """The heading that the line is, or nothing: a heading is one word, other comments are sentences."""
    word = line[len(HEADING) :] if line.startswith(HEADING) else ""
    return "" if " " in word else word


def crates_of(text: str) -> List[Crate]:
    """The crates that the text of a crates.txt lists, in its order."""
    found, heading = [], ""
    for number, line in enumerate(text.splitlines(), 1):
        heading = heading_of(line) or heading
        if line.strip() and not line.startswith("#"):
            head, _, tail = line.partition(":")
            found.append(Crate(head.split()[0], heading, tuple(tail.split()), number))
    return found


def upward(crates: List[Crate]) -> List[Tuple[Crate, Crate]]:
    """Each citation of a crate that stands on a later line, below the same heading or a later one."""
    place: Dict[str, Crate] = {crate.name: crate for crate in crates}
    cited = [(crate, place[name]) for crate in crates for name in crate.cites if name in place]
    return [(crate, low) for crate, low in cited if low.line > crate.line]
