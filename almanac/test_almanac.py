#!/usr/bin/env python3
"""Tests of the almanac's parts: python3 almanac/test_almanac.py

They need Debian's packages swetest and swe-basic-data; those with ERFA need python3-erfa and /usr/bin/python3.
test_commands.py runs the commands, catalogue/test_catalogue.py tests the catalogue.
"""

import random
import sys
import unittest
from datetime import date
from math import asin, degrees, radians
from pathlib import Path
from unittest import mock

import almanac
import leap_seconds
from besselian import RADII, decimal, elements, elements_of_rows, ukhtvaresh, with_radii
from catalogue.reader import eclipses
from circumstances import Tables, altitude, at_station
from places import AU, EARTH, SOURCES, SUN_UNIT, UNIT, Missing, calendar, julian_day, later, swetest, swiss_delta_t

sys.path.append(str(Path(__file__).resolve().parent.parent / "python"))
import clock  # noqa: E402

EXAMPLES = Path(__file__).resolve().parent.parent / "examples"
HOPKINSVILLE = ukhtvaresh.Request.from_bytes((EXAMPLES / "hopkinsville2017.bin").read_bytes())


class Days(unittest.TestCase):
    def test_calendar(self):
        self.assertEqual(julian_day(2000, 1, 1), 2451544.5)
        self.assertEqual(julian_day(2017, 8, 21), 2457986.5)
        for day in range(0, 400_000, 97):
            start = julian_day(1583, 1, 1) + day
            self.assertEqual(julian_day(*calendar(start)), start)

    def test_later(self):
        self.assertEqual(later((2017, 8, 21, 22), 3), (2017, 8, 22, 1))
        self.assertEqual(later((2000, 3, 1, 1), -3), (2000, 2, 29, 22))


class Elements(unittest.TestCase):
    def test_beside_nasa(self):
        """NASA's elements of 21 August 2017 have six decimals; l1 has its k of 0.2725076, l2 its k of 0.272281."""
        instant, made, request = almanac.request_for(SOURCES["swiss"], (2017, 8, 21), HOPKINSVILLE.station)
        self.assertEqual(instant, (2017, 8, 21, 18))
        nasa = HOPKINSVILLE.elements
        within = {"x0": 600, "x1": 100, "x2": 100, "x3": 10, "y0": 600, "y1": 200, "y2": 100, "y3": 10}
        within |= {"d0": 15, "d1": 3, "d2": 3, "mu0": 10, "mu1": 5, "mu2": 5, "tan_f1": 5, "tan_f2": 5}
        within |= {"l1_1": 100, "l1_2": 10, "l2_1": 100, "l2_2": 10}
        for name, most in within.items():
            self.assertLessEqual(abs(getattr(made.elements, name) - getattr(nasa, name)), most, name)
        self.assertAlmostEqual(nasa.l1_0 - made.elements.l1_0, (0.2725076 - 0.272274) * 10**8, delta=2500)
        self.assertAlmostEqual(made.elements.l2_0 - nasa.l2_0, (0.272281 - 0.272274) * 10**8, delta=1500)
        self.assertLess(max(made.off.values()), 100)

    def test_sheet_beside_nasa(self):
        """Totality within a second of that by NASA's elements; the partial phase some 2 s shorter at each end, by k."""
        _, _, request = almanac.request_for(SOURCES["swiss"], (2017, 8, 21), HOPKINSVILLE.station)
        ours, nasa = (ukhtvaresh.read(ukhtvaresh.sheet(each.to_bytes())) for each in (request, HOPKINSVILLE))
        for one, other in zip(ours[1:], nasa[1:]):
            self.assertEqual(type(one), type(other))
            if isinstance(one, (ukhtvaresh.Enter, ukhtvaresh.Leave)):
                self.assertLessEqual(abs(one.to - other.to), 3 if one.phase is ukhtvaresh.Phase.PENUMBRA else 1)

    def test_station_at_the_end_of_the_day(self):
        """That of 10 May 2013, annular in Queensland, began on the 9th by universal time."""
        station = ukhtvaresh.Station(1, -15_500_000, 145_000_000, 0, 6700)
        instant, _, request = almanac.request_for(SOURCES["swiss"], (2013, 5, 9), station)
        entries = ukhtvaresh.read(ukhtvaresh.sheet(request.to_bytes()))
        closest = next(entry for entry in entries if isinstance(entry, ukhtvaresh.Closest))
        self.assertLessEqual(abs(closest.second), 1800)
        self.assertGreater(closest.magnitude, 900_000)
        self.assertIn(instant[:3], [(2013, 5, 9), (2013, 5, 10)])

    def test_no_eclipse(self):
        with self.assertRaises(ValueError):
            almanac.request_for(SOURCES["swiss"], (2017, 8, 1), HOPKINSVILLE.station)

    def test_delta_t(self):
        self.assertAlmostEqual(swiss_delta_t((2017, 8, 21, 18)), 68.8, delta=0.1)

    def test_erfa(self):
        try:
            import erfa  # noqa: F401
        except ImportError:
            self.skipTest("python3-erfa is not here")
        for date in (2017, 8, 21), (2024, 4, 8):
            instant = (*date, 18)
            for one, other in zip(SOURCES["swiss"](instant), SOURCES["erfa"](instant)):
                self.assertAlmostEqual(one.sidereal, other.sidereal, delta=1e-6)
                for a, b in zip(one.sun, other.sun):
                    self.assertAlmostEqual(a, b, delta=2e-6)  # 0.4 seconds of arc
                for a, b in zip(one.moon, other.moon):
                    self.assertAlmostEqual(a, b, delta=5e-8)  # 4 seconds of arc


class Packages(unittest.TestCase):
    def test_missing_files(self):
        """swetest computes by another theory where it has no file, and says so: that is no place of the Moon."""
        for name, words in (
            (
                "sepl_18.se1",
                "sepl_18.se1, for the years 1800 to 2399, is not installed. Debian's package swe-basic-data"
            ),
            ("semo_24.se1", "semo_24.se1, for the years 2400 to 2999, is not installed. Debian's package swe-standard"),
            ("seplm06.se1", "seplm06.se1, for the years -600 to -1, is not installed. Debian's package swe-standard"),
            ("sepl_54.se1", "Debian's package swe-standard-data ends in 5399: take an earlier date"),
            ("sefstars.txt", "sefstars.txt is not installed. Debian's package swe-basic-data has it"),
        ):
            warning = f"warning: SwissEph file '{name}' not found in PATH '.'"
            text = f"Sun 1 2 3\nMoon 1 2 3\n{warning}\nusing Moshier eph.;\n"
            with mock.patch("places.run_swetest", return_value=text):
                with self.assertRaises(Missing) as raised:
                    swetest("-p01")
            self.assertIn(words, str(raised.exception))

    def test_other_errors(self):
        with mock.patch("places.run_swetest", return_value="error: star Nosuch not found\nNosuch 0 0\n"):
            with self.assertRaisesRegex(RuntimeError, "star Nosuch not found"):
                swetest("-pf")


class Typed(unittest.TestCase):
    def test_decimal(self):
        written = [decimal(-12957435, 8), decimal(100, 2), decimal(-5, 6), decimal(0, 8), decimal(7, 0)]
        self.assertEqual(written, ["-0.12957435", "1", "-0.000005", "0", "7"])

    def test_text_is_the_request(self):
        """The typed text, read by the program `request`, is the request that it was made of."""
        found = almanac.request_for(SOURCES["swiss"], (2017, 8, 21), HOPKINSVILLE.station)
        text = almanac.typed("Hopkinsville", "swiss", *found)
        instant, request = clock.encoded(text.encode())
        self.assertEqual(str(instant), "2017-08-21 18:00:00.00 ET")
        self.assertEqual(request, found[2].to_bytes())


class Radii(unittest.TestCase):
    def test_fits_are_accepted(self):
        """Each fit of x, y, d, l1, l2 is accepted by document 02's rule for fits, wish 14, within its own misfit."""
        for eclipse in eclipses()[::50]:
            table, sidereal = eclipse.seven(0)
            made = elements_of_rows(table, sidereal)
            e = made.elements
            rows = ukhtvaresh.from_tables([ukhtvaresh.Row(*row) for row in table])
            degree = [degrees(asin(row.sin_d / 10**8)) * 10**6 for row in rows]
            fits = {
                "x": ([e.x0, e.x1, e.x2, e.x3], [row.x for row in rows], 0),
                "y": ([e.y0, e.y1, e.y2, e.y3], [row.y for row in rows], 0),
                "l1": ([e.l1_0, e.l1_1, e.l1_2, 0], [row.l1 for row in rows], 0),
                "l2": ([e.l2_0, e.l2_1, e.l2_2, 0], [row.l2 for row in rows], 0),
                # the library's angles lie within a few millionths of these
                "d": ([e.d0, e.d1, e.d2, 0], [round(angle) for angle in degree], 5),
            }
            for name, (coefficients, values, more) in fits.items():
                ukhtvaresh.fit(coefficients, values, made.off[name] + more)

    def test_iau_beside_kilometres(self):
        """The same cones from the Sun at today's distance, with a radius that looks as large.

        The distance, larger by 0.0007 of itself, changes l by up to 100 units, 0.000001 of an Earth radius.
        """
        places = SOURCES["swiss"]((2024, 4, 8, 18))
        ours = elements(places, RADII["iau"]).elements
        radii = RADII["iau"]
        sun = radii.sun / UNIT / SUN_UNIT * AU  # km, 959.63" at one astronomical unit
        for name, moon in (("l1_0", radii.penumbra), ("l2_0", radii.central)):
            other = with_radii(ours, places, sun, moon / UNIT * EARTH)
            self.assertLessEqual(abs(getattr(ours, name) - getattr(other, name)), 120, name)


class Rows(unittest.TestCase):
    def test_catalogue_and_places(self):
        """Elements from the catalogue's rows are those from the ephemeris, number for number."""
        for eclipse in eclipses()[::60]:
            for hour in (-1, 0, 1):
                ours = elements_of_rows(*eclipse.seven(hour))
                self.assertEqual(ours, elements(SOURCES["swiss"](later(eclipse.instant(), hour))))

    def test_reference_hour(self):
        """The closest second lies within half an hour of the reference instant, but at the ends of the three hours."""
        random.seed(1)
        for eclipse in eclipses()[::20]:
            tables = Tables.of_catalogue(eclipse)
            for _ in range(5):
                place = random.randint(-90_000_000, 90_000_000), random.randint(-180_000_000, 180_000_000)
                local = at_station(tables, ukhtvaresh.Station(1, *place, 0, eclipse.delta_t))
                ends = [later(eclipse.instant(), hour) for hour in (-1, 1)]
                self.assertTrue(abs(local.closest().second) <= 1800 or local.instant in ends)


class Altitudes(unittest.TestCase):
    def test_pole(self):
        """At the north pole the altitude is d."""
        station = ukhtvaresh.Station(1, 90_000_000, 0, 0, 0)
        request = ukhtvaresh.Request(HOPKINSVILLE.elements, station, HOPKINSVILLE.window)
        e = request.elements
        for second in (-10800, 0, 7200):
            hours = second / 3600
            self.assertAlmostEqual(altitude(request, second), (e.d0 + e.d1 * hours + e.d2 * hours**2) / 10**6, places=9)

    def test_erfa(self):
        try:
            import erfa
        except ImportError:
            self.skipTest("Debian's package python3-erfa is not installed for this Python")
        random.seed(2)
        e = HOPKINSVILLE.elements
        for _ in range(1000):
            place = random.randint(-90_000_000, 90_000_000), random.randint(-180_000_000, 180_000_000)
            delta_t, second = random.randint(-10_000, 20_000), random.randint(-10800, 10800)
            request = ukhtvaresh.Request(e, ukhtvaresh.Station(1, *place, 0, delta_t), HOPKINSVILLE.window)
            hours = second / 3600
            mu = (e.mu0 + e.mu1 * hours + e.mu2 * hours**2) / 10**6
            angle = radians(mu + place[1] / 10**6 - delta_t * 0.00417807 / 100)
            d = radians((e.d0 + e.d1 * hours + e.d2 * hours**2) / 10**6)
            _, above = erfa.hd2ae(angle, d, radians(place[0] / 10**6))
            self.assertAlmostEqual(altitude(request, second), degrees(above), delta=0.0001)


class LeapSeconds(unittest.TestCase):
    def test_days(self):
        known = ((1971, 12, 31, None), (1972, 1, 1, 10), (1998, 12, 31, 31), (1999, 1, 1, 32), (2024, 4, 8, 37))
        for year, month, day, number in known:
            self.assertEqual(leap_seconds.tai_utc(date(year, month, day)), number)
        expires, steps = leap_seconds.kept()
        self.assertEqual((len(steps), steps[-1]), (28, (date(2017, 1, 1), 37)))
        self.assertFalse(leap_seconds.expired(date.fromordinal(expires.toordinal() - 1)))
        self.assertTrue(leap_seconds.expired(expires))

    def test_made_anew(self):
        """The steps are those of the installed tzdata; the expiry date is too where that is as new."""
        path = Path(leap_seconds.LIST)
        if not path.exists():
            self.skipTest("Debian's package tzdata is not installed")
        table = leap_seconds.from_tzdata(path.read_text("ascii"))
        self.assertEqual(table.steps, leap_seconds.kept()[1])
        if table.expires >= leap_seconds.kept()[0]:
            self.assertEqual(leap_seconds.written(table), leap_seconds.FILE.read_text("ascii"))

    def test_hash(self):
        """A list in which a digit was changed is refused."""
        path = Path(leap_seconds.LIST)
        if not path.exists():
            self.skipTest("Debian's package tzdata is not installed")
        text = path.read_text("ascii")
        with self.assertRaisesRegex(ValueError, "the hash of the list is not that of its numbers"):
            leap_seconds.from_tzdata(text.replace("\t37\t", "\t38\t").replace(" 37 ", " 38 "))


if __name__ == "__main__":
    unittest.main()
