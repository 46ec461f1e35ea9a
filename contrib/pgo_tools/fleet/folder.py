"""The folder of a tree: made or taken over, locked against other calls, gone on with, and taken away.

A folder that contains anything else than a tree's own files is not touched.
"""
import contextlib
import fcntl
import os
import re
import shutil
import stat
from typing import Collection, Iterator

from pgo_tools.cli import FAILED, WRITE_FAULT, Trouble
from pgo_tools.fleet import owner, tree
from pgo_tools.fleet.tree import Tree

# The files of a tree's folder, with those that a killed call leaves there, and those that come before the description.
OWN = re.compile(r"lock|tree(\.\d+\.\d+\.new)?|\d+\.\d+\.(prof|manifest)(\.\d+\.\d+\.new)?|slurm-\d+_\d+\.log")
OWN_FOLDER = re.compile(r"merge-tree\.\d+\.\d+\.\w{8}")
FIRST = re.compile(r"lock|tree\.\d+\.\d+\.new")


def is_own(entry: "os.DirEntry[str]") -> bool:
    """It may be in a tree's folder, of this or an earlier call. A link there would have another's file written to."""
    if entry.is_dir(follow_symlinks=False):
        return bool(OWN_FOLDER.fullmatch(entry.name))
    return entry.is_file(follow_symlinks=False) and bool(OWN.fullmatch(entry.name))


def is_tree(folder: str) -> bool:
    """A tree is described there, or was about to be, and nothing else is there. Profiles alone are another's."""
    if os.path.islink(folder) or not os.path.isdir(folder):
        return False
    # Another call may take the description away, or put it there, while the folder is read.
    was_described = tree.is_described(folder)
    try:
        entries = list(os.scandir(folder))
    except FileNotFoundError:
        return False
    is_known = was_described or tree.is_described(folder) or all(FIRST.fullmatch(each.name) for each in entries)
    return is_known and all(map(is_own, entries))


def take(folder: str) -> None:
    """Makes a folder for a tree, or takes one that held a tree."""
    try:
        os.mkdir(folder, stat.S_IRWXU)
    except FileExistsError:
        # One that another call has taken away meanwhile cannot be locked.
        if not is_tree(folder) and os.path.lexists(folder):
            what = f"{folder} is there, and is no tree of merge-tree"
            raise Trouble(what, WRITE_FAULT, "another name, or rm") from None
    except OSError as reason:
        raise Trouble(f"{folder}: nothing can be written there ({reason.strerror})", WRITE_FAULT) from None


def is_at(path: str, handle: int) -> bool:
    """The open file is the one at the path."""
    with contextlib.suppress(FileNotFoundError):
        return os.path.samestat(os.fstat(handle), os.stat(path))
    return False


@contextlib.contextmanager
def locked(folder: str) -> Iterator[None]:
    """Keeps others from a tree for as long as this process works on it. A folder that is then empty goes, too."""
    path = os.path.join(folder, "lock")
    busy = Trouble(f"another merge-tree is at work in {folder}", FAILED)
    flags = os.O_WRONLY | os.O_CREAT | os.O_NOFOLLOW | os.O_NONBLOCK | os.O_CLOEXEC
    try:
        owner.close(folder)
        handle = os.open(path, flags, stat.S_IRUSR | stat.S_IWUSR)
    except FileNotFoundError:
        # The other one has just taken the tree away.
        raise busy from None
    with os.fdopen(handle, "wb") as lock:
        owner.check(path, os.fstat(handle), folder)
        try:
            fcntl.flock(lock, fcntl.LOCK_EX | fcntl.LOCK_NB)
        except BlockingIOError:
            raise busy from None
        except OSError as reason:
            helps = "OUT on a file system with locks"
            raise Trouble(f"{path} cannot be locked ({reason.strerror})", WRITE_FAULT, helps) from None
        # A lock that was taken away since it was opened keeps nobody from a tree that a third one began.
        if not is_at(path, handle):
            raise busy
        owner.check_content(folder)
        yield
    # Behind the lock: NFS keeps a file that is taken away by another name for as long as it is open.
    with contextlib.suppress(OSError):
        os.rmdir(folder)


def begun(planned: Tree, resume: bool) -> Tree:
    """The tree with the id of the one in its folder, if that is gone on with; otherwise all that was there goes."""
    if resume and os.path.exists(tree.description(planned.folder)):
        with contextlib.suppress(Trouble):
            planned = planned._replace(id=tree.read(planned.folder).id)
    made = [path for part in planned.parts() for path in (planned.text(part), planned.manifest(part))]
    take_away(planned.folder, {os.path.basename(path) for path in made} if resume else ())
    tree.write(planned)
    return planned


def take_away(folder: str, kept: Collection[str] = ()) -> None:
    """Takes away a tree's files, but for some, its lock, and its description: by that the next call knows the tree."""
    stay = {"lock", "tree", *kept}
    for entry in list(os.scandir(folder)):
        if entry.name not in stay and is_own(entry):
            if entry.is_dir():
                shutil.rmtree(entry.path)
            else:
                os.unlink(entry.path)


def remove(folder: str) -> None:
    """Takes a tree away, but for its folder. Killed at any step, this leaves a tree, or nothing."""
    take_away(folder)
    for name in ("tree", "lock"):
        with contextlib.suppress(FileNotFoundError):
            os.unlink(os.path.join(folder, name))


def tidy(folder: str) -> None:
    """Removes what a call that was killed after its last step left of a tree, unless another is at work there."""
    with contextlib.suppress(Trouble, OSError):
        if is_tree(folder):
            with locked(folder):
                remove(folder)
