"""Tests of the square-root rates: each by the rule, the items that are kept, and the report's example planned with them."""

import math
import unittest

from yadvorkhul import Refusal, plan, rates, rates_into


class Rates(unittest.TestCase):
    def test_every_rate(self):
        self.assertEqual(rates(4000), [math.isqrt(10000 * y) for y in range(4001)])

    def test_kept(self):
        cells = [7] * 6
        self.assertEqual(rates_into(3, cells), 0)
        self.assertEqual(cells, [0, 100, 141, 173, 7, 7])

    def test_refused(self):
        cells = [7] * 4001
        for most, short, number in ((4001, cells, 4), ((1 << 64) - 1, cells, 4), (4000, cells[:-1], 11), (0, [], 11)):
            before = list(short)
            self.assertEqual(rates_into(most, short), number)
            self.assertEqual(short, before)
        with self.assertRaises(Refusal) as caught:
            rates(4001)
        self.assertEqual((caught.exception.number, caught.exception.place), (4, 1))

    def test_numbers(self):
        for odd in (-1, 1 << 64, 1.5, "3", True, None):
            with self.assertRaises(TypeError):
                rates_into(odd, [7])

    def test_report_example(self):
        found = plan([[12, 1, 3, 4], [4, 9, 6, 2], [2, 6, 2, 10]], [200, 200, 150], [80, 180, 120, 70], rates(200))
        self.assertEqual((found.split, found.total, found.freight), (180, 2161, 820))


if __name__ == "__main__":
    unittest.main()
