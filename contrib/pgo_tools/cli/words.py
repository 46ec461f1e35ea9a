"""Words of a call: options stand anywhere, what stands behind `--` is no option, and some are numbers."""
import argparse
from typing import List


def taken(parser: argparse.ArgumentParser, argv: List[str]) -> argparse.Namespace:
    """The options, with all other words in order as `rest`. Of a word that is no option the remedy is told."""
    cut = argv.index("--") if "--" in argv else len(argv)
    parser.add_argument("rest", nargs="*", help=argparse.SUPPRESS)
    found, strange = parser.parse_known_intermixed_args(argv[:cut])
    if strange:
        parser.error(f"there is no option {strange[0]}: a name that begins with - stands behind --")
    found.rest += argv[cut + 1 :]
    return found


def named(word: str) -> str:
    """For argparse: a name, which an unset variable is not."""
    if not word:
        raise argparse.ArgumentTypeError("a name, and not nothing")
    return word


def percent(word: str) -> float:
    """For argparse: a number of percent."""
    try:
        value = float(word)
    except ValueError:
        value = -1
    if not 0 <= value <= 100:
        raise argparse.ArgumentTypeError("a number from 0 to 100")
    return value


def at_least_one(word: str) -> int:
    """For argparse: a whole number."""
    if not (word.isascii() and word.isdigit() and int(word) > 0):
        raise argparse.ArgumentTypeError(f"a number from 1 up, and not {word}")
    return int(word)
