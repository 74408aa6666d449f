"""Elements from tables of Sun and Moon: the books' rows, random rows against document 02's own formulas, limits,
every refusal.

python3 python/test_tables.py
"""

import ctypes
import random
import unittest
from decimal import Decimal, getcontext
from math import isqrt
from pathlib import Path

from ukhtvaresh import Besselian, Refused, Row, from_tables, from_tables_into

ROWS = Path(__file__).resolve().parent.parent / "examples" / "rows1954.txt"
NEAREST = Row(2_300_000_000_000, 0, 0, 5_500_000_000, 0, 0)

getcontext().prec = 60


def books():
    lines = [line for line in ROWS.read_text().splitlines() if not line.startswith("#")]
    return [Row(*map(int, line.split())) for line in lines]


def exact(row):
    """The wish's formulas as they stand, roots and all, to 60 digits: x, y, sin d, cos d, tan f1, tan f2, l1, l2 in
    units."""
    sun = [Decimal(c) for c in (row.sun_x, row.sun_y, row.sun_z)]
    moon = [Decimal(c) for c in (row.moon_x, row.moon_y, row.moon_z)]
    g = [s - m for s, m in zip(sun, moon)]
    flat = (g[0] ** 2 + g[1] ** 2).sqrt()
    length = (flat**2 + g[2] ** 2).sqrt()
    cos_a, sin_a, cos_d, sin_d = g[0] / flat, g[1] / flat, flat / length, g[2] / length
    x = moon[1] * cos_a - moon[0] * sin_a
    q = moon[0] * cos_a + moon[1] * sin_a
    y = moon[2] * cos_d - q * sin_d
    z = moon[2] * sin_d + q * cos_d
    unit, lunar = Decimal(10**8), Decimal("0.272274") * 10**8
    tangents, radii = [], []
    for radii_sum, sign in ((Decimal("109.320744"), 1), (Decimal("108.776196"), -1)):
        sin_f = radii_sum * unit / length
        cos_f = (1 - sin_f**2).sqrt()
        tangents.append(sin_f / cos_f)
        radii.append(z * sin_f / cos_f + sign * lunar / cos_f)
    return [x, y, sin_d * unit, cos_d * unit, tangents[0] * unit, tangents[1] * unit, radii[0], radii[1]]


TOLERANCES = [1000, 1000, 4, 4, 4, 4, 1000, 1000]


def values(b: Besselian):
    return [b.x, b.y, b.sin_d, b.cos_d, b.tan_f1, b.tan_f2, b.l1, b.l2]


def drawn(rng):
    """A row that is accepted: the Sun anywhere within the sine's limit, the Moon anywhere or before the Sun."""

    def place(distance, most):
        while True:
            v = [rng.uniform(-1, 1) for _ in range(3)]
            size = sum(c * c for c in v) ** 0.5
            if 0 < size <= 1 and abs(v[2]) <= most * size:
                return [round(c / size * distance) for c in v]

    sun = place(rng.uniform(23_000.001, 23_999.999) * 1e8, 0.427)
    off = rng.uniform(55.05, 64.95) * 1e8
    if rng.random() < 0.5:
        moon = place(off, 1)
    else:
        share = off / sum(c * c for c in sun) ** 0.5
        moon = [round(c * share) + rng.randint(-300_000, 300_000) for c in sun]
    return Row(*sun, *moon)


class Tables(unittest.TestCase):
    def refused(self, rows):
        with self.assertRaises(Refused) as caught:
            from_tables(rows)
        return caught.exception.number, caught.exception.place

    def test_books_rows(self):
        elements = from_tables(books())
        # printed: x, y, u at 9h with six decimals; x, y at 12h and 15h with five; tan f at 9h
        self.assertLess(abs(elements[0].x + 185_901_200), 500)
        self.assertLess(abs(elements[0].y - 91_715_400), 500)
        self.assertLess(abs(elements[0].l1 - 53_953_100), 500)
        self.assertLess(abs(elements[0].l2 + 635_400), 500)
        self.assertLess(abs(elements[0].tan_f1 - 459_878), 5)
        self.assertLess(abs(elements[0].tan_f2 - 457_587), 5)
        for hour, x, y in ((3, -19_869_000, 65_294_000), (6, 146_103_000, 38_527_000)):
            self.assertLess(abs(elements[hour].x - x), 1000)
            self.assertLess(abs(elements[hour].y - y), 1000)

    def test_against_the_formulas(self):
        rng = random.Random(14)
        worst = [Decimal(0)] * 8
        tables = [books()] + [[drawn(rng) for _ in range(7)] for _ in range(200)]
        for rows in tables:
            for row, b in zip(rows, from_tables(rows)):
                errors = [abs(v - e) for v, e in zip(values(b), exact(row))]
                worst = [max(w, e) for w, e in zip(worst, errors)]
        for error, tolerance in zip(worst, TOLERANCES):
            self.assertLessEqual(error, tolerance)

    def test_limits(self):
        for row in (
            Row(2_400_000_000_000, 0, 0, 6_500_000_000, 0, 0),
            Row(0, -2_300_000_000_000, 0, 0, 0, -5_500_000_000),
        ):
            self.assertEqual(len(from_tables([row] * 7)), 7)
        for row in (
            Row(2_299_999_999_999, 0, 0, 5_500_000_000, 0, 0),
            Row(2_400_000_000_000, 1, 0, 5_500_000_000, 0, 0),
            Row(2_300_000_000_000, 0, 0, 5_499_999_999, 0, 0),
            Row(2_300_000_000_000, 0, 0, 6_500_000_000, 0, 1),
            Row(2**63 - 1, -(2**63), 0, 5_500_000_000, 0, 0),
            Row(2_300_000_000_000, 0, 0, -(2**63), 2**63 - 1, 2**63 - 1),
        ):
            self.assertEqual(self.refused([row] * 7), (11, 0))

    def test_sine_at_its_limit(self):
        gx = 2_100_000_000_000
        last = isqrt(gx * gx * 1849 // 8151)
        for sign in (1, -1):
            row = Row(gx + 5_500_000_000, 0, sign * last, 5_500_000_000, 0, 0)
            self.assertEqual(len(from_tables([row] * 7)), 7)
            row = Row(gx + 5_500_000_000, 0, sign * (last + 1), 5_500_000_000, 0, 0)
            self.assertEqual(self.refused([row] * 7), (11, 0))

    def test_first_row(self):
        bad = Row(0, 0, 0, 0, 0, 0)
        for first in range(7):
            self.assertEqual(self.refused([NEAREST] * first + [bad] * (7 - first)), (11, first))

    def test_lengths_and_rooms(self):
        self.assertEqual(self.refused([NEAREST] * 6), (10, 0))
        self.assertEqual(self.refused([NEAREST] * 8), (10, 0))
        self.assertEqual(self.refused([]), (10, 0))
        room = (ctypes.c_int64 * 55)(*[7] * 55)
        with self.assertRaises(Refused) as caught:
            from_tables_into([2_300_000_000_000, 0, 0, 5_500_000_000, 0, 0] * 7, room)
        self.assertEqual((caught.exception.number, caught.exception.place), (4, 56))
        self.assertEqual(list(room), [7] * 55)
        with self.assertRaises(ValueError):
            from_tables([Row(2**63, 0, 0, 0, 0, 0)] * 7)


if __name__ == "__main__":
    unittest.main()
