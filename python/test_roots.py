"""Document 02's rounds of the root through the module, against Python's own root and count of bits.

python3 python/test_roots.py
"""

import math
import random
import unittest

from ukhtvaresh import Root, root


class Roots(unittest.TestCase):
    def same(self, n):
        self.assertEqual(root(n), Root(math.isqrt(n), (n.bit_length() + 1) // 2), n)

    def test_up_to_70_000(self):
        for n in range(70_001):
            self.same(n)

    def test_squares_and_their_neighbours(self):
        draw = random.Random(6)
        sides = {2**k + d for k in range(33) for d in (-2, -1, 0, 1)} | {
            draw.randrange(2 ** draw.randrange(33)) for _ in range(20_000)
        }
        for side in sides:
            for n in (side**2 - 1, side**2, side**2 + 1):
                if 0 <= n < 2**64:
                    self.same(n)

    def test_ends_of_each_count_of_bits(self):
        for bits in range(1, 65):
            for n in (2 ** (bits - 1), 2**bits - 1):
                self.same(n)

    def test_rounds(self):
        self.assertEqual([root(n).rounds for n in (0, 1, 2, 3, 4, 15, 16)], [0, 1, 1, 1, 2, 2, 3])
        self.assertEqual([root(n).rounds for n in (2**60 - 1, 2**60, 2**64 - 1)], [30, 31, 32])

    def test_numbers_of_more_bits(self):
        for n in (-1, 2**64):
            with self.assertRaises(ValueError):
                root(n)


if __name__ == "__main__":
    unittest.main()
