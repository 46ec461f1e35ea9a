"""The built program's tallies of augmentations, and which of two causes of a refusal it tells."""
import unittest

from common import PGO

import judging
import orders
import tallies


@judging.parts(PGO, *tallies.PARTS)
class Tallies(unittest.TestCase):
    pass


@judging.parts(PGO, *orders.PARTS)
class Orders(unittest.TestCase):
    pass


if __name__ == "__main__":
    unittest.main()
