"""Parts of a page that a script makes: what stands between two comments is held to what the script makes now, or made anew."""
import argparse
import os
from pathlib import Path
from typing import Iterable, List

TOP = Path(__file__).resolve().parent.parent


def text_of(path: str) -> str:
    """The text of a file of the repository."""
    return (TOP / path).read_text(encoding="utf-8")


def put(path: str, text: str) -> None:
    """Puts a text in place whole, or leaves what was there. What a call that was killed left beside it is written over."""
    new = TOP / f"{path}.new"
    try:
        with open(new, "w", encoding="utf-8") as file:
            file.write(text)
        os.replace(new, TOP / path)
    finally:
        new.unlink(missing_ok=True)


def paragraph_at(lines: Iterable[str], mark: str) -> str:
    """The first paragraph of a comment whose lines begin with the mark, as one line."""
    found: List[str] = []
    for line in lines:
        if not line.startswith(f"{mark} "):
            break
        found.append(line[len(mark) + 1 :].strip())
    return " ".join(found)


def with_part(page: str, script: str, what: str, made: str) -> str:
    """The page with this part between its two comments; `LookupError` where one of them is gone."""
    start, end = f"<!-- Made by {script}: {what}. -->\n", f"<!-- Made by {script}: their end. -->\n"
    at, stop = page.find(start), page.find(end)
    if at < 0 or stop < at:
        raise LookupError(f"the comments of {script} around {what} are gone")
    return page[: at + len(start)] + made + page[stop:]


def held(path: str, script: str, page: str, write: bool) -> List[str]:
    """What is wrong with a page that has to be this text; with `write` it is put in place."""
    if text_of(path) == page:
        return []
    if write:
        put(path, page)
        return []
    return [f"{path}: not what {script} makes of the sources; {script} --write makes it"]


def parsed(about: str, argv: List[str]) -> bool:
    """Whether the page is to be made anew, by the words of a script."""
    parser = argparse.ArgumentParser(description=about, formatter_class=argparse.RawDescriptionHelpFormatter)
    parser.add_argument("--write", action="store_true", help="make it anew")
    return parser.parse_args(argv).write


def told(bad: List[str]) -> int:
    """Prints what is wrong, and gives the exit status."""
    for it in bad:
        print(it)
    return 1 if bad else 0
