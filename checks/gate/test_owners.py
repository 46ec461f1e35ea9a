"""contrib/merge-tree believes no tree that another user owns or may write, and runs no command that it names."""
import contextlib
import os
import shutil
import sys
import unittest
from typing import Sequence

from common import DONE, FAILED, PGO, WRITE_FAULT, python
import test_merge_tree
from test_merge_tree import TREE

NOBODY = 65534
OTHERS = "belongs to another user .uid 65534., who could choose the sum"
OPEN = "may be written by other users .mode {}., who could choose the sum"
root_only = unittest.skipUnless(os.geteuid() == 0, "only root can make files of another user's")


class Owners(test_merge_tree.Tree):
    count = 9

    def setUp(self):
        super().setUp()
        self.whole = self.sum_of(self.files)

    def forged(self, folder="out.tree"):
        """A finished tree whose last part was replaced, with a manifest that confirms it."""
        self.expect(self.merge("-o", "out", f"--plan={folder}", "--part-size=3", *self.files), DONE)
        self.expect(self.merge("--run", folder), DONE)
        for name in ("out", "out.manifest"):
            (self.folder / name).unlink()
        for name in ("2.0.prof", "2.0.manifest"):
            path = self.folder / folder / name
            path.write_bytes(path.read_bytes().replace(b"main:", b"evil:"))
        text = self.folder / folder / "2.0.prof"
        told = self.manifest(f"{folder}/2.0.manifest")
        digest = self.run_here("sha256sum", text).out.split()[0].decode()
        path = self.folder / folder / "2.0.manifest"
        path.write_text(path.read_text().replace(told["sha256"], digest))
        return self.folder / folder

    def refused(self, pattern, *more, status=FAILED):
        """No call for the output believes anything of the tree."""
        calls: Sequence[Sequence[str]] = (["--resume"], [], ["--plan=out.tree"])
        for words in calls:
            with self.subTest(words=words):
                self.tells(self.merge("-o", "out", "--part-size=3", *words, *self.files, *more), status, pattern)
                self.nothing_out()

    def tasks_are_refused(self, pattern, folder="out.tree"):
        for words in (["--run"], ["--part=2.0"], ["--print=make"]):
            with self.subTest(words=words):
                self.tells(self.merge(*words, folder), FAILED, pattern)
                self.nothing_out()

    def test_the_forged_tree_is_one_that_would_be_believed(self):
        """By its own user: so what the other tests refuse is its owner alone."""
        self.forged()
        self.expect(self.merge("-o", "out", "--resume", "--part-size=3", *self.files), DONE)
        self.assertIn(b"evil:", (self.folder / "out").read_bytes())

    @root_only
    def test_a_tree_of_another_user(self):
        folder = self.forged()
        for each in (folder, *folder.iterdir()):
            os.chown(each, NOBODY, NOBODY)
        self.refused(OTHERS)
        self.tasks_are_refused(OTHERS)
        self.assertIn(b"evil:", (folder / "2.0.prof").read_bytes())

    @root_only
    def test_a_folder_of_another_user_that_is_empty(self):
        folder = self.folder / "out.tree"
        folder.mkdir()
        os.chown(folder, NOBODY, NOBODY)
        folder.chmod(0o777)
        self.refused(OTHERS)
        self.assertEqual(self.names("out.tree"), [])

    @root_only
    def test_a_file_of_another_user_in_a_tree(self):
        for name in ("2.0.prof", "2.0.manifest", "tree", "lock"):
            folder = self.forged()
            os.chown(folder / name, NOBODY, NOBODY)
            self.refused(f"out.tree/{name} {OTHERS}")
            self.tells(self.merge("--run", "out.tree"), FAILED, f"out.tree/{name} {OTHERS}")
            if name in ("2.0.manifest", "tree"):
                self.tells(self.merge("--part=2.0", "out.tree"), FAILED, f"out.tree/{name} {OTHERS}")
            self.nothing_out()
            shutil.rmtree(folder)

    @root_only
    def test_a_sum_and_its_manifest_of_another_user(self):
        """--resume takes neither for the sum that is asked for, and makes its own."""
        for name in ("out", "out.manifest"):
            self.expect(self.merge("-o", "out", *self.files), DONE)
            os.chown(self.folder / name, NOBODY, NOBODY)
            fake = self.pgo_that()
            (self.folder / "calls").unlink(missing_ok=True)
            self.expect(self.merge("-o", "out", "--resume", *self.files, environment=fake), DONE)
            self.assertNotEqual(self.calls(), [])
            self.assertEqual((self.folder / "out").read_bytes(), self.whole)
            self.assertEqual((self.folder / name).stat().st_uid, 0)

    @root_only
    def test_the_commands_of_another_users_tree(self):
        """The description of a tree names a command that fetches: it does not run."""
        script = self.file("get", f"#!/bin/sh\ntouch '{self.folder}/ran'\ncp \"$1\" \"$2\"\n")
        script.chmod(0o755)
        self.expect(self.merge(f"--fetch={script}", "-o", "out", "--plan=out.tree", *self.files), DONE)
        for each in ("out.tree", "out.tree/tree"):
            os.chown(self.folder / each, NOBODY, NOBODY)
        self.tasks_are_refused(OTHERS)
        self.assertFalse((self.folder / "ran").exists())

    @root_only
    def test_a_link_of_another_user(self):
        """It leads to a tree of the caller's own, but of another night."""
        self.expect(self.merge("-o", "out", "--plan=tree", *self.files), DONE)
        (self.folder / "link").symlink_to("tree")
        os.lchown(self.folder / "link", NOBODY, NOBODY)
        self.tasks_are_refused(f"link {OTHERS}", "link")
        os.lchown(self.folder / "link", 0, 0)
        self.expect(self.merge("--run", "link"), DONE)

    def test_a_link_in_place_of_the_folder(self):
        self.forged("elsewhere")
        (self.folder / "out.tree").symlink_to("elsewhere")
        self.refused("out.tree is there, and is no tree of merge-tree", status=WRITE_FAULT)

    def test_a_folder_that_others_may_write(self):
        for mode in (0o770, 0o707, 0o1777, 0o2775):
            folder = self.forged()
            folder.chmod(mode)
            pattern = f"out.tree {OPEN.format(f'{mode:o}')}"
            self.refused(pattern)
            self.tasks_are_refused(pattern)
            shutil.rmtree(folder)

    def test_a_file_that_others_may_write(self):
        for name, mode in (("2.0.prof", 0o664), ("2.0.manifest", 0o646), ("tree", 0o666), ("lock", 0o660)):
            folder = self.forged()
            (folder / name).chmod(mode)
            self.refused(f"out.tree/{name} {OPEN.format(f'{mode:o}')}")
            shutil.rmtree(folder)

    def test_a_manifest_of_the_sum_that_others_may_write(self):
        self.expect(self.merge("-o", "out", *self.files), DONE)
        (self.folder / "out.manifest").chmod(0o666)
        fake = self.pgo_that()
        self.expect(self.merge("-o", "out", "--resume", *self.files, environment=fake), DONE)
        self.assertNotEqual(self.calls(), [])
        self.assertEqual((self.folder / "out.manifest").stat().st_mode & 0o022, 0)

    def test_any_umask(self):
        """Nobody else may enter the folder or write its files. --resume believes them; the sum has the umask's mode."""
        for mask in (0, 0o002, 0o077):
            with self.subTest(f"{mask:o}"):
                words = ["-o", "out", "--part-size=3", *self.files[:-1], "gone"]
                ran = self.merge(*words, prepare=lambda mask=mask: os.umask(mask))
                self.assertEqual((self.folder / "out.tree").stat().st_mode & 0o7777, 0o700, ran.said)
                for each in (self.folder / "out.tree").iterdir():
                    self.assertEqual(each.stat().st_mode & 0o022, 0, each)
                for count in (6, 0):
                    fake = self.pgo_that()
                    (self.folder / "calls").unlink(missing_ok=True)
                    words = ["-o", "out", "--resume", "--part-size=3", *self.files]
                    self.expect(self.merge(*words, environment=fake, prepare=lambda mask=mask: os.umask(mask)), DONE)
                    self.assertEqual(len(self.calls()) > 0, count > 0)
                self.assertEqual((self.folder / "out").stat().st_mode & 0o777, 0o666 & ~mask)
                for name in ("out", "out.manifest"):
                    (self.folder / name).unlink()

    def test_a_folder_that_is_exchanged_while_parts_are_made(self):
        """In a folder that all may write. As root by another user's folder; otherwise by one that others may write."""
        self.forged("forged")
        os.chmod(self.folder, 0o777)
        give = f"os.chown(each, {NOBODY}, {NOBODY})" if os.geteuid() == 0 else "os.chmod(each, 0o777)"
        script = self.file("exchange.py", "\n".join([
            "import os, shutil", "if not os.path.exists('away'):", "    try:",
            "        shutil.copytree('forged', 'new')",
            f"        for each in ['new', *('new/' + name for name in os.listdir('new'))]: {give}",
            "        os.rename('out.tree', 'away')", "        os.rename('new', 'out.tree')",
            "    except OSError: pass", ""]))
        fake = self.pgo_that(f"cd '{self.folder}' && '{sys.executable}' '{script}'")
        calls: Sequence[Sequence[str]] = (["--resume"], [])
        for words in calls:
            ran = self.merge("-o", "out", "-j1", "--part-size=3", *words, *self.files, environment=fake)
            self.assertNotEqual(ran.status, DONE, ran.said)
            self.nothing_out()
            for name in ("out.tree", "away"):
                shutil.rmtree(self.folder / name, ignore_errors=True)

    @root_only
    def test_a_user_who_is_not_root(self):
        """Root's tree is none of a user's, whose own serves."""
        def other():
            os.setgroups([])
            os.setgid(NOBODY)
            os.setuid(NOBODY)

        def works(program, *words):
            with contextlib.suppress(OSError):
                return self.run_here(program, *words, prepare=other).status == 0
            return False

        os.chmod(self.folder, 0o1777)
        pythons = (sys.executable, "/usr/bin/python3") if works(PGO, "--help") else ()
        found = [each for each in pythons if works(each, TREE, "--help")]
        if not found:
            self.skipTest("another user cannot run these programs here")
        self.forged().chmod(0o755)
        ran = self.run_here(found[0], TREE, "-o", "out", "--resume", "--part-size=3", *self.files, prepare=other)
        self.tells(ran, FAILED, "out.tree belongs to another user .uid 0.")
        # The folder for temporary files may be closed to other users.
        words = [found[0], TREE, "-o", "own", "--part-size=3", *self.files]
        ran = self.run_here(*words, prepare=other, environment={"TMPDIR": None})
        self.expect(ran, DONE)
        self.assertEqual((self.folder / "own").read_bytes(), self.whole)


class Shares(test_merge_tree.Tree):
    """A share that maps all users to one shows another owner for the caller's own files."""

    count = 3

    @root_only
    def test_all_users_are_one(self):
        script = self.file("share.py", "\n".join([
            "import os, sys", "sys.argv[0] = sys.argv[1]", test_merge_tree.FROM_CONTRIB,
            "class Seen:", "    def __init__(self, seen): self.seen = seen",
            f"    def __getattr__(self, name): return {NOBODY} if name == 'st_uid' else getattr(self.seen, name)",
            "real, os.lstat = os.lstat, lambda *words, **how: Seen(real(*words, **how))",
            "known, os.fstat = os.fstat, lambda *words, **how: Seen(known(*words, **how))",
            "os._exit(cli.ended(main, sys.argv[2:]))", ""]))
        modules = {"PGO": PGO, **test_merge_tree.MODULES}
        ran = python(script, TREE, "-o", "out", *self.files, folder=self.folder, environment=modules)
        self.expect(ran, DONE)


if __name__ == "__main__":
    unittest.main()
