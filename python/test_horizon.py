"""Altitude, azimuth and zenith at a second, through the module: by hand, at the limits, mirrored, refused.

python3 python/test_horizon.py
"""

import ctypes
import unittest
from dataclasses import astuple, replace
from pathlib import Path

import ukhtvaresh
from ukhtvaresh import (
    Closest,
    Elements,
    Horizon,
    NotWhole,
    Refused,
    Request,
    StarElements,
    StarRequest,
    Station,
    Window,
    horizon,
    mirror,
    read,
    second,
    sheet,
    star_horizon,
    star_second,
)

EXAMPLES = Path(__file__).resolve().parent.parent / "examples"
DEGREE = 1_000_000
ECLIPSE = Request(
    Elements(l1_0=54_000_000, mu1=15_000_000, tan_f1=460_000, tan_f2=458_000),
    Station(number=7, latitude=0, longitude=0, height=0, delta_t=0),
    Window(-60, 60),
)
STAR = StarRequest(StarElements(mu1=15_000_000), 27_250_000, ECLIPSE.station, ECLIPSE.window)


def example(name):
    return (EXAMPLES / name).read_bytes()


def placed(request, latitude, hour_angle, d0):
    """A request with the Sun or the star there at second 0; angles in 10^-6 degree."""
    elements = replace(request.elements, d0=d0, mu0=hour_angle % (360 * DEGREE))
    return replace(request, elements=elements, station=replace(request.station, latitude=latitude)).to_bytes()


class Horizons(unittest.TestCase):
    def refuses(self, number, place, call, *arguments):
        with self.assertRaises(Refused) as caught:
            call(*arguments)
        self.assertEqual((caught.exception.number, caught.exception.place), (number, place))

    def seen(self, *degrees):
        """The Sun's horizon, and a star's, which is the same."""
        angles = [angle * DEGREE for angle in degrees]
        found = horizon(placed(ECLIPSE, *angles), 0)
        self.assertEqual(star_horizon(placed(STAR, *angles), 0), found)
        return found

    def test_by_hand(self):
        for place, found in {
            # on the equator: overhead, straight down, rising, setting, on the meridian
            (0, 0, 0): (900, None, None),
            (0, 180, 0): (-900, None, None),
            (0, -90, 0): (0, 900, 2700),
            (0, 90, 0): (0, 2700, 900),
            (0, 0, 20): (700, 0, 1800),
            (0, 0, -20): (700, 1800, 0),
            # at the poles the altitude is the declination
            (90, 0, 20): (200, 1800, 0),
            (90, 90, 20): (200, 2700, 0),
            (-90, 0, 20): (-200, 0, 1800),
            (-90, -90, -20): (200, 900, 1800),
            # noon and midnight in the north
            (55, 0, 20): (550, 1800, 0),
            (70, 180, 23): (30, 0, 0),
        }.items():
            self.assertEqual(self.seen(*place), Horizon(*found), place)

    def test_rounded_down(self):
        # from the pole, where the altitude is d: a millionth of a degree is enough to be below
        below = {0: 0, 99_999: 0, 100_000: 1, -1: -1, -100_000: -1, -100_001: -2, 25 * DEGREE: 250}
        for d0, altitude in below.items():
            self.assertEqual(horizon(placed(ECLIPSE, 90 * DEGREE, 0, d0), 0).altitude, altitude)
            self.assertEqual(star_horizon(placed(STAR, 90 * DEGREE, 0, d0), 0).altitude, altitude)

    def test_the_examples(self):
        # ERFA's hd2ae and hd2pa, rounded down
        suns = {"hopkinsville2017": (639, 1986, 151), "moscow1954": (390, 2530, 358), "kiev1954": (440, 2518, 411)}
        for name, found in suns.items():
            request = example(name + ".bin")
            closest = next(entry for entry in read(sheet(request)) if isinstance(entry, Closest))
            self.assertEqual(horizon(request, closest.second), Horizon(*found))
        stars = {("potsdam1956", 20): (439, 1410, 3369), ("kansas1949", 465): (176, 2035, 206)}
        for (name, at), found in stars.items():
            self.assertEqual(star_horizon(example(name + ".bin"), at), Horizon(*found))

    def test_seconds_outside_the_window(self):
        for call, request in ((horizon, ECLIPSE), (star_horizon, STAR)):
            asked = request.to_bytes()
            self.assertEqual(call(asked, 3_600), Horizon(750, 2700, 900))
            self.assertEqual(call(asked, -10_800), Horizon(450, 900, 2700))
            self.assertEqual(call(asked, 10_800), Horizon(450, 2700, 900))
            # 200 seconds of ΔT, 0.8356 degree
            late = replace(request, station=replace(request.station, delta_t=20_000)).to_bytes()
            self.assertEqual(call(late, 0), Horizon(891, 900, 2700))
            for at in (-10_801, 10_801, 2**63, -(2**70)):
                self.refuses(1, 0, call, asked, at)

    def test_moving_declination(self):
        # from the pole: 20,000 an hour for three hours, to the tenth and not a second before
        moving = replace(ECLIPSE.elements, d0=9_940_000, d1=20_000)
        asked = replace(ECLIPSE, elements=moving, station=replace(ECLIPSE.station, latitude=90 * DEGREE)).to_bytes()
        self.assertEqual([horizon(asked, at).altitude for at in (0, 10_799, 10_800)], [99, 99, 100])

    def test_mirrored(self):
        def opposite(a, b):
            return (a, b) == (None, None) or (a + b) % 3600 in (1799, 1800)

        for name in ("hopkinsville2017", "moscow1954", "kiev1954"):
            request = example(name + ".bin")
            for at in range(-10_800, 10_801, 600):
                north, south = horizon(request, at), horizon(mirror(request), at)
                self.assertEqual(north.altitude, south.altitude)
                self.assertTrue(opposite(north.azimuth, south.azimuth), (north, south))
                self.assertTrue(opposite(north.zenith, south.zenith), (north, south))

    def test_refused_in_order(self):
        # each with all that comes later
        request = replace(ECLIPSE, station=replace(ECLIPSE.station, height=9_001))
        self.refuses(3, 3, horizon, request.to_bytes(), 0)
        request = replace(request, elements=replace(request.elements, d0=25_000_001))
        self.refuses(2, 8, horizon, request.to_bytes(), 0)
        request = replace(request, guard=15)
        self.refuses(1, 1, horizon, request.to_bytes(), 0)
        self.refuses(1, 0, horizon, request.to_bytes(), 10_801)
        request = replace(request, window=Window(1, 0))
        self.refuses(1, 0, horizon, request.to_bytes(), 0)
        self.refuses(10, 0, horizon, request.to_bytes()[1:], 10_801)

        request = replace(STAR, station=replace(STAR.station, delta_t=20_001))
        self.refuses(3, 4, star_horizon, request.to_bytes(), 0)
        request = replace(request, radius=27_300_001)
        self.refuses(13, 0, star_horizon, request.to_bytes(), 0)
        request = replace(request, elements=replace(request.elements, d0=-30_000_001))
        self.refuses(2, 8, star_horizon, request.to_bytes(), 0)
        request = replace(request, guard=1_001)
        self.refuses(1, 1, star_horizon, request.to_bytes(), 0)
        self.refuses(1, 0, star_horizon, request.to_bytes(), -10_801)
        # an eclipse's request is no star's, and the other way
        self.refuses(10, 0, star_horizon, ECLIPSE.to_bytes(), 0)
        self.refuses(10, 0, horizon, STAR.to_bytes(), 0)

    def test_refused_as_the_second_is(self):
        def number_and_place(call, *arguments):
            try:
                call(*arguments)
            except Refused as refused:
                return refused.number, refused.place
            return 0, 0

        for call, other, request in ((horizon, second, ECLIPSE), (star_horizon, star_second, STAR)):
            for field in range(len(astuple(request.elements))):
                for value in (-(2**31), -1, 0, 2**31 - 1):
                    numbers = list(astuple(request.elements))
                    numbers[field] = value
                    asked = replace(request, elements=type(request.elements)(*numbers)).to_bytes()
                    for at in (-10_801, 0, 10_800):
                        self.assertEqual(number_and_place(call, asked, at), number_and_place(other, asked, at))

    def test_only_whole_seconds_and_bytes(self):
        for call, request in ((horizon, ECLIPSE), (star_horizon, STAR)):
            asked = request.to_bytes()
            for wrong in (0.0, 0.5, True, "0", None, float("nan")):
                with self.assertRaises(NotWhole) as caught:
                    call(asked, wrong)
                self.assertTrue(str(caught.exception).startswith("second must be a whole number (int) in seconds"))
            for wrong in (request, "text", None, 115):
                with self.assertRaises(TypeError):
                    call(wrong, 0)
            self.assertEqual(call(bytearray(asked), 0), call(asked, 0))

    def test_rooms(self):
        """The export itself: its buffers one too short, exact and longer, and as they were on refusal."""
        for name, request in (("horizon", ECLIPSE), ("star_horizon", STAR)):
            export, asked = getattr(ukhtvaresh._library, "ukhtvaresh_" + name), request.to_bytes()

            def called(second, sines_len, horizon_len):
                sines, numbers = (ctypes.c_uint32 * 903)(*[7] * 903), (ctypes.c_int64 * 5)(*[-7] * 5)
                value = ctypes.c_uint64(9)
                number = export(asked, len(asked), second, sines, sines_len, numbers, horizon_len, ctypes.byref(value))
                return number, value.value, list(numbers), list(sines)

            untouched = ([-7] * 5, [7] * 903)
            self.assertEqual(called(0, 900, 5), (4, 901, *untouched))
            self.assertEqual(called(0, 0, 0), (4, 901, *untouched))
            self.assertEqual(called(10_801, 901, 3), (1, 0, *untouched))
            for length in range(3):
                number, place, numbers, sines = called(0, 901, length)
                self.assertEqual((number, place, numbers), (4, 3, [-7] * 5))
                self.assertEqual((sines[300], sines[900:]), (50_000_000, [100_000_000, 7, 7]))
            for length in (3, 5):
                number, count, numbers, sines = called(0, 902, length)
                self.assertEqual((number, count, numbers), (0, 3, [900, 65_535, 65_535, -7, -7]))
                self.assertEqual((sines[300], sines[900:]), (50_000_000, [100_000_000, 7, 7]))


if __name__ == "__main__":
    unittest.main()
