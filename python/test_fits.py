"""Document 02's fits through the module: x of 30 June 1954, the tolerance to the unit, every refusal in its order.

python3 python/test_fits.py
"""

import unittest

from ukhtvaresh import Refused, fit

# x of 30 June 1954, and the hourly values 9h to 15h of source document 001 that it was fitted to, in units.
X = [-19_869_267, 55_341_229, -3_333, -800]
HOURLY = [-185_901_200, -130_559_000, -75_213_000, -19_869_000, 35_468_000, 90_793_000, 146_103_000]
HOURS = range(-3, 4)
RANGES = [200_000_000, 100_000_000, 100_000, 10_000]


def value(coefficients, hour):
    """At whole hours the rule rounds nothing."""
    return sum(coefficient * hour**power for power, coefficient in enumerate(coefficients))


def changed(numbers, at, number):
    return [*numbers[:at], number, *numbers[at + 1 :]]


class Fits(unittest.TestCase):
    def refused(self, number, place, *fit_of):
        with self.assertRaises(Refused) as caught:
            fit(*fit_of)
        self.assertEqual((caught.exception.number, caught.exception.place), (number, place))

    def test_x_of_1954(self):
        fit(X, HOURLY, 500)
        fit(X, HOURLY, 459)  # what it is off at 14h
        self.refused(17, 5, X, HOURLY, 458)
        self.refused(17, 0, X, HOURLY, 0)

    def test_tolerance_to_the_unit(self):
        exact = [value(X, hour) for hour in HOURS]
        for place in range(7):
            for tolerance in (0, 1, 1_000):
                for sign in (-1, 1):
                    fit(X, changed(exact, place, exact[place] + sign * tolerance), tolerance)
                    off = changed(exact, place, exact[place] + sign * (tolerance + 1))
                    self.refused(17, place, X, off, tolerance)

    def test_refusals_in_their_order(self):
        for number in (3, 5):
            self.refused(10, 0, [10**20] * number, HOURLY, -1)
        for number in (0, 6, 8):
            self.refused(10, 0, X, [10**20] * number, -1)
        for tolerance in (-1, 1_001, -(2**63), 2**64):
            self.refused(18, 0, [2**70] * 4, [2**70] * 7, tolerance)
        for place in range(7):
            for beyond in (-(10**9) - 1, 10**9 + 1, 2**64, -(2**64)):
                self.refused(18, 1 + place, [2**70] * 4, HOURLY[:place] + [beyond] * (7 - place), 0)
            for end in (-(10**9), 10**9):
                self.refused(17, place, X, changed(HOURLY, place, end), 500)
        for place, most in enumerate(RANGES):
            for beyond in (-most - 1, most + 1, 2**64, -(2**64)):
                self.refused(2, place, X[:place] + [beyond] * (4 - place), HOURLY, 0)
            for end in (-most, most):
                coefficients = changed(X, place, end)
                fit(coefficients, [value(coefficients, hour) for hour in HOURS], 0)

    def test_words(self):
        with self.assertRaises(Refused) as caught:
            fit(X, HOURLY, 0)
        self.assertEqual(str(caught.exception), "refused 17 0: a fit further from a tabulated value than the tolerance")


if __name__ == "__main__":
    unittest.main()
