"""Numbers of any length, as the scripts read them: those that fit, and no others."""
import re
import unittest

from pgo_tools.texts.numbers import decimal, number_of

MANY = 5000


class Numbers(unittest.TestCase):
    def test_what_fits(self):
        for digits, bits, base, value in (
            ("0", 1, 10, 0), ("", 16, 10, 0), ("65535", 16, 10, 65535), ("0" * MANY, 16, 10, 0), ("0" * MANY + "7", 64, 10, 7),
            (str(2**128 - 1), 128, 10, 2**128 - 1), ("00fFfF", 16, 16, 65535), ("1111", 4, 2, 15),
        ):
            with self.subTest(digits[:10], bits=bits):
                self.assertEqual(number_of(digits, bits, base), value)

    def test_what_does_not(self):
        for digits, bits, base in (("2", 1, 10), ("65536", 16, 10), (str(2**128), 128, 10), ("9" * MANY, 128, 10), ("10000", 16, 16), ("f" * MANY, 64, 16)):
            with self.subTest(digits[:10], bits=bits):
                self.assertRaises(ValueError, number_of, digits, bits, base)

    def test_the_pattern(self):
        found = {word: re.fullmatch(decimal(3), word) for word in ("7", "999", "0" * MANY + "999", "000", "1000", "-1", "", "٣")}
        self.assertEqual([int(match[1]) for match in found.values() if match], [7, 999, 999, 0])


if __name__ == "__main__":
    unittest.main()
