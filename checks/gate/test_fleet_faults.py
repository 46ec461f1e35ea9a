"""A fault of each family of `fleet_faults.py`; `checks/by_hand/hostile/fleet` plants hundreds."""
import unittest

from common import takes

import fleet_faults


@takes(15)
class FleetFaults(unittest.TestCase):
    def test_one_of_each_family(self):
        skipped = []
        for number in range(len(fleet_faults.FAMILIES)):
            planted = fleet_faults.planted(7, number, 9)
            with self.subTest(planted.name):
                self.assertEqual(planted.wrong, "")
            skipped += [planted.name] * bool(planted.skipped)
        self.assertLess(len(skipped), 5, skipped)

    def test_a_wrong_sum_is_seen(self):
        """What judges refuses a status 0 with other bytes, and an output beside another status."""
        profile = b"f:1:1\n 1: 1\n"
        self.assertNotEqual(fleet_faults.sum_of([profile]), fleet_faults.sum_of([profile, profile]))
        made, fleet_faults.sum_of = fleet_faults.sum_of, lambda texts, build=b"": made(texts[1:], build)
        try:
            wrong = fleet_faults.planted(7, 4, 9).wrong
            self.assertRegex(wrong, "status 0, and other bytes than the sum|neither what it was")
        finally:
            fleet_faults.sum_of = made


if __name__ == "__main__":
    unittest.main()
