"""The permissions of an output: those of the caller's own file in its place, and never those that another user chose."""
import os
import stat
import unittest

from common import CONTRIB, WORDS, Case

NOBODY = 65534
WITH_SETUID = 0o4777


class Modes(Case):
    def mode_of_output(self, owner=None):
        """The mode of an output that replaces a file with mode 4777, which this user owns if the owner is None."""
        place = self.file("own.prof", "main:1:1\n 1: 1\n")
        if owner is not None:
            os.chown(place, owner, owner)
        place.chmod(WITH_SETUID)
        ran = self.run_here(CONTRIB / "pgo-profile", WORDS, WORDS.parent / "words.txt", "own.prof")
        self.assertEqual(ran.status, 0)
        found = place.stat()
        self.assertEqual(found.st_uid, os.geteuid())
        return stat.S_IMODE(found.st_mode)

    def test_own_permissions_are_kept_without_setuid(self):
        self.assertEqual(self.mode_of_output(), 0o777)

    @unittest.skipUnless(os.geteuid() == 0, "only root can give a file to another user")
    def test_permissions_of_another_user_are_not_taken(self):
        mask = os.umask(0o022)
        try:
            self.assertEqual(self.mode_of_output(NOBODY), 0o644)
        finally:
            os.umask(mask)


if __name__ == "__main__":
    unittest.main()
