"""Document 02's positions as doubles through the module: a real eclipse both ways, against exact fractions, every
refusal in its order.

python3 python/test_doubles.py
"""

import array
import dataclasses
import math
import random
import sys
import unittest
from fractions import Fraction
from pathlib import Path

from ukhtvaresh import Degrees, Elements, Hours, Refused, Request, Survey, Window
from ukhtvaresh import doubles, doubles_into, sheet, sheet_of_doubles, sheet_of_doubles_into

try:
    import numpy
except ImportError:
    numpy = None

ROOT = Path(__file__).resolve().parent.parent
MOSCOW = Request.from_bytes((ROOT / "examples/moscow1954.bin").read_bytes())

ONE, DEGREE = 10**8, 10**6
RANGES = [
    *[(ONE, -end, end) for end in 2 * (2 * 10**8, 10**8, 10**5, 10**4)],
    *[(DEGREE, -end, end) for end in (25_000_000, 20_000, 100)],
    (ONE, 5 * 10**7, 6 * 10**7),
    *[(ONE, -end, end) for end in (10**5, 10**4, 5 * 10**6, 10**5, 10**4)],
    (DEGREE, 0, 359_999_999),
    (DEGREE, 14_900_000, 15_100_000),
    (DEGREE, -100, 100),
    (ONE, 400_000, 500_000),
    (ONE, 400_000, 500_000),
    (DEGREE, -180_000_000, 180_000_000),  # the longitude
]


def units(x, scale):
    """The nearest whole unit, halves away from zero."""
    size = math.floor(abs(Fraction(x)) * scale + Fraction(1, 2))
    return size if x > 0 else -size


def survey(request=MOSCOW, **changes):
    elements, longitude = doubles(request.elements, request.station.longitude)
    station = request.station
    made = Survey(
        elements, longitude, station.number, station.latitude, station.height, station.delta_t,
        request.window, request.guard
    )
    return dataclasses.replace(made, **changes)


def with_element(made, field, x):
    return dataclasses.replace(made, elements=[*made.elements[:field], x, *made.elements[field + 1 :]])


class Doubles(unittest.TestCase):
    def refused(self, number, place, call, *given):
        with self.assertRaises(Refused) as caught:
            call(*given)
        self.assertEqual((caught.exception.number, caught.exception.place), (number, place))

    def test_moscow_there_and_back(self):
        expected = sheet(MOSCOW.to_bytes())
        made = survey()
        self.assertEqual(sheet_of_doubles(made), expected)
        self.assertEqual(sheet_of_doubles(survey(longitude=Hours(made.longitude.value / 15))), expected)
        self.assertEqual(sheet_of_doubles(survey(elements=tuple(made.elements))), expected)
        self.assertEqual(sheet_of_doubles(survey(elements=array.array("d", made.elements))), expected)
        buffer = bytearray(b"x" * 200)
        length = sheet_of_doubles_into(made, buffer)
        self.assertEqual(bytes(buffer), expected + b"x" * (200 - length))
        self.refused(4, length, sheet_of_doubles_into, made, bytearray(length - 1))

    @unittest.skipIf(numpy is None, "numpy is not there")
    def test_numpy(self):
        made = survey()
        expected = sheet_of_doubles(made)
        self.assertEqual(sheet_of_doubles(survey(elements=numpy.array(made.elements))), expected)
        room = numpy.full(25, 1.5)
        given = numpy.array([*dataclasses.astuple(MOSCOW.elements), MOSCOW.station.longitude])
        self.assertEqual(doubles_into(given, room), 23)
        self.assertEqual(list(room), [*made.elements, made.longitude.value, 1.5, 1.5])
        self.assertRaises(TypeError, doubles_into, given, numpy.zeros(25, dtype="float32"))
        self.assertRaises(TypeError, doubles_into, given, numpy.zeros(50)[::2])

    def test_units_are_one_division_and_are_read_back(self):
        draw = random.Random(5)
        good = [*dataclasses.astuple(MOSCOW.elements), MOSCOW.station.longitude]
        room = array.array("d", [1.5] * 24)
        for field, (scale, least, most) in enumerate(RANGES):
            for unit in [least, least + 1, most - 1, most] + [draw.randint(least, most) for _ in range(100)]:
                self.assertEqual(doubles_into([*good[:field], unit, *good[field + 1 :]], room), 23)
                self.assertEqual(room[field], unit / scale)
                self.assertEqual(units(room[field], scale), unit)
                self.assertEqual(room[23], 1.5)
            for unit in (least - 1, most + 1, -(2**63), 2**63 - 1, 2**70, -(2**70)):
                old = room[:]
                number, place = (3, 2) if field == 22 else (2, field)
                self.refused(number, place, doubles_into, [*good[:field], unit, *good[field + 1 :]], room)
                self.assertEqual(room, old)
        for count in (0, 22, 24):
            self.refused(10, 0, doubles_into, [0] * count, room)
        for count in (0, 22):
            self.refused(4, 23, doubles_into, good, array.array("d", [0] * count))
        self.assertRaises(TypeError, doubles_into, good, bytearray(200))
        self.refused(2, 11, doubles, Elements(), 0)

    def test_ranges_end_at_the_half(self):
        made = survey()
        for field, (scale, least, most) in enumerate(RANGES[:22]):
            for end, out in ((least, -math.inf), (most, math.inf)):
                half = float(Fraction(2 * end + (1 if out > 0 else -1), 2 * scale))
                for x in (half, math.nextafter(half, out), math.nextafter(half, -out)):
                    if least <= units(x, scale) <= most:
                        sheet_of_doubles(with_element(made, field, x))
                    else:
                        self.refused(2, field, sheet_of_doubles, with_element(made, field, x))
        for scale, mark in ((DEGREE, Degrees), (15 * DEGREE, Hours)):
            for sign in (1, -1):
                half = sign * float(Fraction(360_000_001, 2 * scale))
                for x in (half, math.nextafter(half, math.inf), math.nextafter(half, -math.inf)):
                    if abs(units(x, scale)) <= 180_000_000:
                        sheet_of_doubles(survey(longitude=mark(x)))
                    else:
                        self.refused(3, 2, sheet_of_doubles, survey(longitude=mark(x)))

    def test_the_sheet_is_that_of_the_units(self):
        draw = random.Random(1954)
        for _ in range(200):
            made = survey()
            elements = [x + draw.choice((0, draw.uniform(-1e-6, 1e-6))) for x in made.elements]
            mark, scale = draw.choice(((Degrees, DEGREE), (Hours, 15 * DEGREE)))
            x = draw.uniform(-180, 180) * DEGREE / scale
            numbers = [units(element, scale) for element, (scale, _, _) in zip(elements, RANGES)]
            station = dataclasses.replace(MOSCOW.station, longitude=units(x, scale))
            request = Request(Elements(*numbers), station, Window(0, 600), draw.randint(16, 1_000))
            given = survey(elements=elements, longitude=mark(x), window=request.window, guard=request.guard)
            self.assertEqual(sheet_of_doubles(given), sheet(request.to_bytes()))

    def test_refusals_in_their_order(self):
        everything = survey(
            elements=[math.inf] * 22, longitude=Hours(math.nan), number=0, window=Window(1, 0), guard=15
        )
        for count in (0, 21, 23):
            self.refused(10, 0, sheet_of_doubles, dataclasses.replace(everything, elements=[math.nan] * count))
        self.refused(1, 0, sheet_of_doubles, everything)
        everything = dataclasses.replace(everything, window=Window(0, 1))
        self.refused(1, 1, sheet_of_doubles, everything)
        everything = dataclasses.replace(everything, guard=16)
        for none in (math.inf, -math.inf, math.nan):
            for field in range(22):
                elements = [sys.float_info.max] * field + [none] * (22 - field)
                self.refused(12, field, sheet_of_doubles, dataclasses.replace(everything, elements=elements))
            for longitude in (Degrees(none), Hours(none)):
                given = dataclasses.replace(everything, elements=[1e300] * 22, longitude=longitude)
                self.refused(12, 22, sheet_of_doubles, given)
        for large in (1e300, -1e300, 2.0**63, 2.0**63 / ONE):
            for field in range(22):
                self.refused(2, field, sheet_of_doubles, with_element(survey(number=0), field, large))
            self.refused(3, 2, sheet_of_doubles, survey(longitude=Degrees(large), height=9_001))
        for field, change in enumerate(
            ({"number": 1_000}, {"latitude": 2**70}, {"longitude": Hours(13.0)}, {"height": -501}, {"delta_t": 20_001})
        ):
            self.refused(3, field, sheet_of_doubles, survey(**change))
        self.assertEqual(str(Refused(12, 22)), "refused 12 22: a double that is not finite")

    def test_nothing(self):
        request = dataclasses.replace(MOSCOW, elements=dataclasses.replace(MOSCOW.elements, x2=0))
        expected = sheet(request.to_bytes())
        for nothing in (0.0, -0.0, 5e-324, -5e-324, sys.float_info.min, 4.9e-9, -4.9e-9, 0):
            self.assertEqual(sheet_of_doubles(with_element(survey(request), 2, nothing)), expected)


if __name__ == "__main__":
    unittest.main()
