#!/usr/bin/env python3
"""Tests of the catalogue of eclipses: python3 almanac/catalogue/test_catalogue.py

Those that make records again need Debian's packages swetest and swe-basic-data, and are skipped without them.
"""

import shutil
import subprocess
import sys
import unittest
from collections import Counter
from pathlib import Path

HERE = Path(__file__).resolve().parent
sys.path.insert(0, str(HERE.parent))
from catalogue.reader import (  # noqa: E402
    DELTA_T_SOURCES,
    FILE,
    KINDS,
    TURN,
    differenced,
    eclipses,
    encoded,
    summed,
)
from places import SOURCES, later, rows, sidereal_angles  # noqa: E402

TEXT = FILE.read_text("ascii")
TENTH = eclipses()[::10]
needs_swetest = unittest.skipUnless(shutil.which("swetest"), "Debian's package swetest is not installed")


class File(unittest.TestCase):
    def test_round_trip(self):
        """Each record, written again, has the bytes of the file."""
        lines = "".join(line + "\n" for line in TEXT.splitlines() if not line.startswith("#"))
        self.assertEqual("".join(map(encoded, eclipses())), lines)

    def test_differences(self):
        values = [3, -1, 4, 1, -5, 9, 2, -6, 5]
        self.assertEqual(summed(differenced(values)), values)
        self.assertEqual(differenced([n**4 for n in range(9)]), [0, 1, 14, 36, 24, 24, 24, 24, 24])

    def test_size(self):
        self.assertLessEqual(len(TEXT), 300_000)
        self.assertLessEqual(max(map(len, TEXT.splitlines())), 120)

    def test_reader_needs_no_package(self):
        """The reader runs without site packages and without the almanac's other files."""
        program = "import reader; print(len(reader.eclipses()))"
        ran = subprocess.run(
            [sys.executable, "-I", "-S", "-c", f"import sys; sys.path.insert(0, {str(HERE)!r}); {program}"],
            capture_output=True,
            text=True,
            check=True,
        )
        self.assertEqual(ran.stdout, "454\n")


class Records(unittest.TestCase):
    def test_count(self):
        """The counts of eclipses in each century are well known; so are those of partial eclipses."""
        years = [e.date[0] for e in eclipses()]
        spans = ((1900, 1900), (1901, 2000), (2001, 2100))
        self.assertEqual([sum(a <= year <= b for year in years) for a, b in spans], [2, 228, 224])
        kinds = [Counter(e.kind for e in eclipses() if a <= e.date[0] <= b) for a, b in spans[1:]]
        self.assertEqual([k["P"] for k in kinds], [78, 77])
        self.assertEqual(sum(year == 1935 for year in years), 5)
        self.assertIn((1935, 1, 5), [e.date for e in eclipses()])

    def test_known(self):
        """Well-known eclipses by date and kind."""
        known = """1919-05-29 T 1954-06-30 T 1999-08-11 T 2005-04-08 H 2006-03-29 T 2011-01-04 P 2012-05-20 A
            2013-11-03 H 2017-08-21 T 2019-12-26 A 2021-12-04 T 2022-10-25 P 2023-04-20 H 2023-10-14 A 2024-04-08 T
            2026-08-12 T 2027-08-02 T 2061-04-20 T""".split()
        kinds = {"%04d-%02d-%02d" % e.date: e.kind for e in eclipses()}
        for date, kind in zip(known[::2], known[1::2]):
            self.assertEqual(kinds[date], kind, date)

    def test_ranges(self):
        for e in eclipses():
            self.assertIn(e.kind, KINDS)
            self.assertIn(e.delta_t_source, DELTA_T_SOURCES)
            self.assertTrue(-10_000 <= e.delta_t <= 20_000)
            self.assertLessEqual(abs(e.greatest), 1800)
            self.assertTrue(0 <= e.hour <= 24)
            self.assertEqual([len(row) for row in e.rows], [7] * 9)
            for row in e.rows:
                self.assertTrue(0 <= row[6] < TURN)
                self.assertTrue(2.3e12 < sum(c * c for c in row[:3]) ** 0.5 < 2.4e12)
                self.assertTrue(5.5e9 < sum(c * c for c in row[3:6]) ** 0.5 < 6.4e9)

    def test_order(self):
        instants = [e.instant() for e in eclipses()]
        self.assertEqual(instants, sorted(set(instants)))

    def test_seven(self):
        e = eclipses()[0]
        for hour in (-1, 0, 1):
            table, sidereal = e.seven(hour)
            self.assertEqual([row + [angle] for row, angle in zip(table, sidereal)], e.rows[hour + 1 : hour + 8])
        for hour in (-2, 2):
            with self.assertRaisesRegex(ValueError, f"hour {hour} has no seven rows"):
                e.seven(hour)


@needs_swetest
class Anew(unittest.TestCase):
    def test_tenth_made_anew(self):
        """A tenth of the records, made again from Swiss Ephemeris: every number is the same."""
        from catalogue.make_catalogue import check

        self.assertEqual(check(10), [])

    def test_places_agree_to_the_unit(self):
        """The almanac's places at each of the three reference hours are the catalogue's rows, number for number."""
        for e in TENTH:
            for hour in (-1, 0, 1):
                places = SOURCES["swiss"](later(e.instant(), hour))
                self.assertEqual((rows(places), sidereal_angles(places)), e.seven(hour), (e.date, hour))


if __name__ == "__main__":
    unittest.main()
