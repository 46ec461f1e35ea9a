"""Files of a tree belong to the caller alone: a folder or file that another user owns, or may write, is not believed.

Whoever can write in a tree's folder chooses the sum. Each file is checked once it is open, so exchanging
the folder gains nothing.
"""
import contextlib
import functools
import os
import re
import stat
from typing import IO, Tuple

from pgo_tools.cli import FAILED, Trouble
from pgo_tools.cli.files import created, opened

OTHERS = stat.S_IWGRP | stat.S_IWOTH
# The files of a tree that are read. The modes of logs, and of files on their way, do not matter.
READ = re.compile(r"lock|tree|\d+\.\d+\.(prof|manifest)")


@functools.lru_cache(maxsize=None)
def owner_of_new(folder: str) -> int:
    """Returns the owner that a folder shows for a new file of the caller's. Some shares map all users to one."""
    try:
        handle, name = created(os.path.join(folder, "tree"))
    except Trouble:
        return os.geteuid()
    try:
        return os.fstat(handle).st_uid
    finally:
        os.close(handle)
        with contextlib.suppress(OSError):
            os.unlink(name)


def is_callers(seen: os.stat_result, folder: str) -> bool:
    """Returns whether a file in a folder, or the folder itself, belongs to the caller."""
    return seen.st_uid == os.geteuid() or seen.st_uid == owner_of_new(folder)


def check(path: str, seen: os.stat_result, folder: str, mode: bool = True) -> None:
    """Refuses a file, or a folder, that another user owns or may write."""
    if not is_callers(seen, folder):
        raise Trouble(f"{path} belongs to another user (uid {seen.st_uid}), who could choose the sum", FAILED,
                      "another name for -o, or call merge-tree as that user")
    if mode and seen.st_mode & OTHERS and not stat.S_ISLNK(seen.st_mode):
        mode_said = f"mode {stat.S_IMODE(seen.st_mode):o}"
        raise Trouble(f"{path} may be written by other users ({mode_said}), who could choose the sum", FAILED,
                      "rm -r the tree's folder, or chmod go-w if nobody else wrote there")


def check_folder(folder: str) -> None:
    """Refuses the folder of a tree that another user owns or may write, or to which another user's link leads."""
    check(folder, os.lstat(folder), folder)
    check(folder, os.stat(folder), folder)


def close(folder: str) -> None:
    """Refuses the folder of a tree likewise, and closes it to other users."""
    check_folder(folder)
    with contextlib.suppress(PermissionError):
        os.chmod(folder, stat.S_IRWXU)


def check_content(folder: str) -> None:
    """Refuses a folder likewise, and one with a file of another user, or one that is read and others may write."""
    check_folder(folder)
    for entry in list(os.scandir(folder)):
        with contextlib.suppress(FileNotFoundError):
            check(entry.path, entry.stat(follow_symlinks=False), folder, mode=bool(READ.fullmatch(entry.name)))


def opened_own(path: str) -> Tuple[IO[bytes], os.stat_result]:
    """Opens a file as `files.opened` does; refuses one that another user owns or may write."""
    file, seen = opened(path)
    try:
        check(path, seen, os.path.dirname(path))
    except BaseException:
        file.close()
        raise
    return file, seen


def keep_own(file: IO[bytes]) -> None:
    """Takes from a new file the permission of other users to write it, whatever the umask."""
    os.fchmod(file.fileno(), stat.S_IMODE(os.fstat(file.fileno()).st_mode) & ~OTHERS)
