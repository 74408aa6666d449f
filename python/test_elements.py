"""Elements from rows through the module: 30 June 1954, other radii, least squares, every refusal in its order.

python3 python/test_elements.py
"""

import ctypes
import random
import unittest
from dataclasses import replace
from fractions import Fraction
from pathlib import Path

from ukhtvaresh import DOCUMENT_02, NotWhole, Radii, Refused, Row, elements, elements_into, from_tables

EXAMPLES = Path(__file__).resolve().parent.parent / "examples"
ROWS = [
    Row(*map(int, line.split()))
    for line in (EXAMPLES / "rows1954.txt").read_text().splitlines()
    if not line.startswith("#")
]
HOURS = range(-3, 4)
SIDEREAL = [98_020_009 + 15_041_069 * hour for hour in HOURS]  # 30 June 1954, 12h universal time
NUMBERS = [getattr(row, name) for row in ROWS for name in vars(row)]
RADII = [DOCUMENT_02.sun, DOCUMENT_02.penumbra, DOCUMENT_02.central]
FAR = 23_400 * 10**8


def value(coefficients, hour):
    """At whole hours the rule rounds nothing."""
    return sum(coefficient * hour**power for power, coefficient in enumerate(coefficients))


def changed(numbers, at, number):
    return [*numbers[:at], number, *numbers[at + 1 :]]


def across(xs, ys, along=60 * 10**8):
    """Rows whose first axis is the shadow's, so that x and y of each row are what is given."""
    return [Row(along + FAR, x, y, along, x, y) for x, y in zip(xs, ys)]


class Elements(unittest.TestCase):
    def refused(self, number, place, *given):
        made, off = (ctypes.c_int64 * 22)(*range(22)), (ctypes.c_int64 * 6)(*range(6))
        with self.assertRaises(Refused) as caught:
            elements_into(*given, made, off)
        self.assertEqual((caught.exception.number, caught.exception.place), (number, place))
        self.assertEqual((list(made), list(off)), (list(range(22)), list(range(6))))

    def test_1954(self):
        made, off = elements(ROWS, SIDEREAL, tolerance=200)
        # the handbook's elements, whose x, y and l have five decimals and d and mu four places after the degree
        for name, handbook, most in (("x0", -19_869_267, 1000), ("x1", 55_341_229, 1000), ("y0", 65_294_000, 1000)):
            self.assertLessEqual(abs(getattr(made, name) - handbook), most, name)
        self.assertTrue(all(0 <= units <= 200 for units in vars(off).values()))
        self.assertLess(made.l2_0, 0)

    def test_document_02_is_the_library(self):
        """tan f is the middle row's, and each value is within its misfit of the row's own."""
        made, off = elements(ROWS, SIDEREAL)
        rows = from_tables(ROWS)
        self.assertEqual((made.tan_f1, made.tan_f2), (rows[3].tan_f1, rows[3].tan_f2))
        fits = {
            "x": [made.x0, made.x1, made.x2, made.x3],
            "y": [made.y0, made.y1, made.y2, made.y3],
            "l1": [made.l1_0, made.l1_1, made.l1_2],
            "l2": [made.l2_0, made.l2_1, made.l2_2],
        }
        for name, coefficients in fits.items():
            apart = [abs(value(coefficients, h) - getattr(row, name)) for h, row in zip(HOURS, rows)]
            self.assertEqual(max(apart), getattr(off, name), name)

    def test_other_radii(self):
        larger = replace(DOCUMENT_02, penumbra=27_250_760)
        ours, theirs = elements(ROWS, SIDEREAL)[0], elements(ROWS, SIDEREAL, larger)[0]
        # the Moon's radius for the penumbra is in l1 and tan f1 alone
        self.assertEqual(replace(theirs, l1_0=0, l1_1=0, l1_2=0, tan_f1=0), replace(ours, l1_0=0, l1_1=0, l1_2=0, tan_f1=0))
        self.assertAlmostEqual(theirs.l1_0 - ours.l1_0, 27_250_760 - 27_227_400, delta=200)

    def test_sidereal_time_past_360(self):
        """All sidereal angles turned by the same angle turn mu0 by it, and nothing else."""
        ours = elements(ROWS, SIDEREAL)[0]
        for turn in (1, 180_000_000, 262_000_000, 300_000_000, 359_999_999):
            turned = [(angle + turn) % 360_000_000 for angle in SIDEREAL]
            theirs = elements(ROWS, turned)[0]
            self.assertEqual(theirs, replace(ours, mu0=(ours.mu0 + turn) % 360_000_000))

    def test_a_cubic_is_found_again(self):
        draw = random.Random(14)
        for _ in range(200):
            x = [draw.randint(-most, most) for most in (100_000_000, 50_000_000, 100_000, 10_000)]
            y = [draw.randint(-most, most) for most in (100_000_000, 50_000_000, 100_000, 10_000)]
            made, off = elements(across(*([value(c, hour) for hour in HOURS] for c in (x, y))), SIDEREAL, tolerance=0)
            self.assertEqual([made.x0, made.x1, made.x2, made.x3, made.y0, made.y1, made.y2, made.y3], x + y)
            self.assertEqual((off.x, off.y, off.d, off.mu), (0, 0, 0, 0))
            self.assertEqual((made.d0, made.d1, made.d2), (0, 0, 0))

    def test_the_squares_are_least(self):
        """Beside least squares in exact fractions: within 7 3/7 units at every hour, and no step away is better."""
        draw = random.Random(1954)
        sums = [sum(h**k for h in HOURS) for k in range(7)]
        for _ in range(100):
            x = [-19_869_267, 55_341_229, -3_333, -800]
            values = [value(x, hour) + draw.randint(-300, 300) for hour in HOURS]
            made = elements(across(values, values), SIDEREAL)[0]
            ours = [made.x0, made.x1, made.x2, made.x3]
            moments = [sum(h**k * v for h, v in zip(HOURS, values)) for k in range(4)]
            exact = [Fraction(0)] * 4
            for low, high in ((0, 2), (1, 3)):
                a, b, d = sums[2 * low], sums[low + high], sums[2 * high]
                exact[low] = Fraction(moments[low] * d - moments[high] * b, a * d - b * b)
                exact[high] = Fraction(moments[high] * a - moments[low] * b, a * d - b * b)
            for hour in HOURS:
                self.assertLessEqual(abs(value(ours, hour) - value(exact, hour)), Fraction(52, 7))

    def test_refusals_in_their_order(self):
        bad_radii, bad_sidereal = [0, 0, 0], [-1] * 7
        for rows, sidereal, radii in (
            (NUMBERS[:41], SIDEREAL, RADII),
            (NUMBERS + [0], SIDEREAL, RADII),
            (NUMBERS, SIDEREAL[:6], RADII),
            (NUMBERS, SIDEREAL, RADII[:2]),
            ([], [], []),
        ):
            self.refused(10, 0, rows, sidereal, radii, -1)
        for tolerance in (-1, 1_001, -(2**63), 2**63 - 1):
            self.refused(18, 0, [0] * 42, bad_sidereal, bad_radii, tolerance)
        ends = [(10_890_000_000, 10_930_000_000), (27_200_000, 27_300_000), (27_200_000, 27_300_000)]
        for place, (low, high) in enumerate(ends):
            for beyond in (low - 1, high + 1, -low, 2**63 - 1):
                self.refused(21, place, [0] * 42, bad_sidereal, changed(RADII, place, beyond), 0)
            for end in (low, high):
                self.refused(21, 3, [0] * 42, bad_sidereal, changed(RADII, place, end), 0)
        for place in range(7):
            for beyond in (-1, 360_000_000, -(2**63)):
                self.refused(21, 3 + place, [0] * 42, changed(SIDEREAL, place, beyond), RADII, 0)
            self.refused(11, place, NUMBERS[: 6 * place] + [0] * (42 - 6 * place), SIDEREAL, RADII, 0)
        # 2: mu1 out of its range, by sidereal angles that stand still
        self.refused(2, 18, NUMBERS, [SIDEREAL[3]] * 7, RADII, 0)
        # 17: x misses first at hour 0; then d alone is left
        self.refused(17, 0, NUMBERS, SIDEREAL, RADII, 0)
        off = elements(ROWS, SIDEREAL)[1]
        elements(ROWS, SIDEREAL, tolerance=max(vars(off).values()))
        with self.assertRaises(Refused) as caught:
            elements(ROWS, SIDEREAL, tolerance=max(vars(off).values()) - 1)
        self.assertEqual(caught.exception.number, 17)
        names, place = list(vars(off)), caught.exception.place
        self.assertEqual(getattr(off, names[place // 10]), max(vars(off).values()))

    def test_rooms(self):
        for first, second, place in ((21, 0, 22), (0, 6, 22), (22, 5, 6), (22, 0, 6)):
            made, off = (ctypes.c_int64 * (first + 1))(), (ctypes.c_int64 * (second + 1))()
            with self.assertRaises(Refused) as caught:
                elements_into(NUMBERS, SIDEREAL, RADII, 1000, memoryview(made)[:first], memoryview(off)[:second])
            self.assertEqual((caught.exception.number, caught.exception.place), (4, place))
        made, off = (ctypes.c_int64 * 24)(*[7] * 24), (ctypes.c_int64 * 8)(*[7] * 8)
        self.assertEqual(elements_into(NUMBERS, SIDEREAL, RADII, 1000, made, off), 22)
        self.assertEqual((made[22:], off[6:]), ([7, 7], [7, 7]))

    def test_types(self):
        for wrong in (0.5, True, "0", None):
            with self.assertRaises(NotWhole):
                elements(ROWS, changed(SIDEREAL, 3, wrong))
            with self.assertRaises(NotWhole):
                elements(ROWS, SIDEREAL, replace(DOCUMENT_02, sun=wrong))
            with self.assertRaises(NotWhole):
                elements(ROWS, SIDEREAL, tolerance=wrong)
        with self.assertRaises(ValueError):
            elements(ROWS, changed(SIDEREAL, 3, 2**63))
        with self.assertRaises(TypeError):
            elements(ROWS, SIDEREAL, RADII)

    def test_words(self):
        with self.assertRaises(Refused) as caught:
            elements(ROWS, SIDEREAL, Radii(0, 0, 0))
        self.assertEqual(str(caught.exception), "refused 21 0: a radius or a sidereal angle outside its range")


if __name__ == "__main__":
    unittest.main()
