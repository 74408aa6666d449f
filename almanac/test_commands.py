#!/usr/bin/env python3
"""Runs the almanac's commands as a user does: exit status, standard output, standard error.

    python3 almanac/test_commands.py

They need the library for Python. Those that need the programs `request` and `times` or Debian's package swetest are
skipped without them.
"""

import os
import shutil
import subprocess
import sys
import tempfile
import unittest
from pathlib import Path

HERE = Path(__file__).resolve().parent
PROGRAMS = HERE.parent / "target" / "bin"
REQUEST = PROGRAMS / "request"
TIMES = PROGRAMS / "times"
DALLAS = ("2024-04-08", "32.7767", "-96.7970", "131", "--title", "Dallas")
needs_swetest = unittest.skipUnless(shutil.which("swetest"), "Debian's package swetest is not installed")
needs_programs = unittest.skipUnless(TIMES.exists() and REQUEST.exists(), "tools/build request times")


def run(command, *words, path=None, lib=None):
    """Exit status, standard output and standard error; path: the only folder of programs, lib: that of the library."""
    env = dict(os.environ)
    if path is not None:
        env["PATH"] = path
    if lib is not None:
        env["UKHTVARESH_LIB"] = lib
    ran = subprocess.run([sys.executable, HERE / command, *words], capture_output=True, text=True, check=False, env=env)
    return ran.returncode, ran.stdout, ran.stderr


class Case(unittest.TestCase):
    maxDiff = None

    def refused(self, words, *command, status=1):
        """The command writes nothing to standard output, and the words to standard error."""
        code, out, err = run(*command)
        self.assertEqual((code, out), (status, ""), err)
        self.assertIn(words, err)
        self.assertNotIn("Traceback", err)

    def done(self, *command, **where):
        """What the command writes, without an error."""
        code, out, err = run(*command, **where)
        self.assertEqual(code, 0, err)
        return out, err


class Dates(Case):
    def test_days_that_are_not_in_the_calendar(self):
        for day, words in (
            ("2024-03-39", "date 2024-03-39 is not a day of the calendar: March 2024 has the days 01 to 31"),
            ("2024-02-30", "date 2024-02-30 is not a day of the calendar: February 2024 has the days 01 to 29"),
            ("2023-02-29", "February 2023 has the days 01 to 28"),
            ("1900-02-29", "February 1900 has the days 01 to 28"),
            ("2024-00-01", "date 2024-00-01 is not a day of the calendar: months are 01 to 12"),
            ("2024-04-00", "April 2024 has the days 01 to 30"),
            ("2024/04/08", "date '2024/04/08' is not written as YYYY-MM-DD, for example 2024-04-08"),
            ("1066-10-14", "date 1066-10-14: the year is outside 1583 to 9999"),
        ):
            self.refused(words, "almanac.py", day, "32", "-96")
        self.refused("--from 2024-02-30 is not a day", "next", "32", "-96", "--from", "2024-02-30")
        self.refused("date 2024-02-30 is not a day", "star.py", "Spica", "2024-02-30", "32", "-96")

    def test_day_without_an_eclipse(self):
        words = "no solar eclipse on 2024-03-20, the day before or the day after: the catalogue has none. "
        words += "The nearest eclipses are on 2023-10-14 and 2024-04-08 (universal time)"
        self.refused(words, "almanac.py", "2024-03-20", "32", "-96")
        self.refused("no solar eclipse on 2024-04-06", "almanac.py", "2024-04-06", "32", "-96")

    @needs_swetest
    def test_day_without_an_eclipse_by_the_ephemeris(self):
        words = "the Moon comes no closer to the Sun than"
        self.refused(words, "almanac.py", "2024-03-20", "32", "-96", "--source", "swiss")

    def test_other_day_than_the_one_asked(self):
        for asked in ("2024-04-07", "2024-04-09"):
            out, err = self.done("almanac.py", asked, *DALLAS[1:])
            words = f"you asked for {asked}; at this place the total eclipse of 2024-04-08 is greatest on 2024-04-08"
            self.assertEqual(err, f"note: {words} at 18:42:39 UT\n")
            self.assertEqual(out, self.done("almanac.py", *DALLAS)[0])

    def test_eclipse_after_midnight_of_universal_time(self):
        """That of 20 May 2012 is on the 21st by universal time in New Mexico."""
        place = ("35.0844", "-106.6504", "1619")
        _, err = self.done("almanac.py", "2012-05-20", *place)
        self.assertIn("the annular eclipse of 2012-05-20 is greatest on 2012-05-21 at 01:3", err)
        _, err = self.done("almanac.py", "2012-05-21", *place)
        self.assertNotIn("you asked for", err)


class Values(Case):
    def test_ranges(self):
        for words, *arguments in (
            ("latitude 90.1 is outside its range, -90 to 90 degrees, north positive", "90.1", "0"),
            ("latitude 'north' is not a decimal number: write one from -90 to 90 degrees", "north", "0"),
            ("longitude -180.5 is outside its range, -180 to 180 degrees, east positive", "0", "-180.5"),
            ("height 9001 is outside its range, -500 to 9000 metres", "0", "0", "9001"),
            ("height '12.5' is not a whole number: write one from -500 to 9000 metres", "0", "0", "12.5"),
            ("station 0 is outside its range, 1 to 999", "0", "0", "--station", "0"),
            ("guard 15 is outside its range, 16 to 1000 units", "0", "0", "--guard", "15"),
            ("delta t -101 is outside its range, -100 to 200 seconds", "0", "0", "--delta-t", "-101"),
        ):
            self.refused(words, "almanac.py", "2024-04-08", *arguments)
        self.refused("count 0 is outside its range, 1 to 454", "next", "0", "0", "--count", "0")
        self.refused("radius 0.28 is outside its range", "star.py", "Spica", "2024-11-27", "0", "0", "--radius", "0.28")

    def test_usage(self):
        self.refused("LATITUDE and LONGITUDE are needed, or --csv FILE", "almanac.py", "2024-04-08", status=2)
        self.refused("invalid choice: 'jpl'", "almanac.py", *DALLAS, "--source", "jpl", status=2)
        self.refused("--csv takes stations", "almanac.py", *DALLAS, "--csv", "stations.csv", status=2)
        self.refused("--folder is for the texts of --csv", "almanac.py", *DALLAS, "--folder", "x", status=2)
        self.refused("LONGITUDE", "next", "0", status=2)
        self.refused("DATE", "star.py", "Spica", status=2)

    def test_help(self):
        for command in ("almanac.py", "next", "star.py"):
            out, err = self.done(command, "--help")
            self.assertEqual(err, "")
            self.assertIn(f"almanac/{command} ", out)
            self.assertIn("Exit status: 0 done", out)


class Sources(Case):
    def test_no_package(self):
        """With no program on the path the catalogue serves, byte for byte."""
        with tempfile.TemporaryDirectory() as nothing:
            self.assertEqual(self.done("almanac.py", *DALLAS, path=nothing), self.done("almanac.py", *DALLAS))
            out, _ = self.done("next", "32.7767", "-96.797", "--from", "2024-01-01", "--count", "1", path=nothing)
            self.assertIn("2024-04-08  total", out)

    def test_program_missing(self):
        with tempfile.TemporaryDirectory() as nothing:
            for command in (
                ("almanac.py", "1851-07-28", "54.7", "20.5"),
                ("almanac.py", *DALLAS, "--source", "swiss"),
                ("star.py", "Spica", "2024-11-27", "40.7", "-74"),
            ):
                code, out, err = run(*command, path=nothing)
                self.assertEqual((code, out), (1, ""))
                words = f"{command[0]}: the program swetest is not installed. Install Debian's packages swetest and"
                self.assertIn(words + " swe-basic-data", err)
                self.assertEqual(err.count("\n"), 1)

    @needs_swetest
    def test_years_without_files(self):
        if Path("/usr/share/libswe/ephe/sepl_12.se1").exists():
            self.skipTest("swe-standard-data is installed")
        words = "Swiss Ephemeris' file sepl_12.se1, for the years 1200 to 1799, is not installed. "
        words += "Debian's package swe-standard-data has it (swe-basic-data has 1800 to 2399 alone)"
        self.refused(words, "almanac.py", "1715-05-03", "51.5", "0")
        self.done("almanac.py", "1715-05-03", "51.5", "0", "--source", "moshier")

    def test_catalogue_alone(self):
        words = "1851-07-28 is outside the catalogue's years, 1900 to 2100: use --source swiss"
        self.refused(words, "almanac.py", "1851-07-28", "54.7", "20.5", "--source", "catalogue")

    def test_library_missing(self):
        for command in (("almanac.py", *DALLAS), ("next", "0", "0"), ("star.py", "Spica", "2024-11-27", "0", "0")):
            code, out, err = run(*command, lib="/nowhere")
            self.assertEqual((code, out), (1, ""))
            self.assertIn("the library for Python is missing. There is no", err)

    @needs_swetest
    def test_catalogue_and_ephemeris_agree(self):
        """The same request from both, but for the remarks."""
        for place in (DALLAS, ("1954-06-30", "55.755", "37.57", "166"), ("2026-08-12", "43.37", "-8.4")):
            texts = [self.done("almanac.py", *place, "--source", source)[0] for source in ("catalogue", "swiss")]
            one, other = ([line for line in text.splitlines() if not line.startswith("#")] for text in texts)
            self.assertEqual(one, other)

    def test_radii(self):
        """By IAU's radii the penumbra is larger by 0.00023, the central cone's radius differs by 0.000007 alone."""
        values = []
        for radii in ("document02", "iau"):
            out, _ = self.done("almanac.py", *DALLAS, "--radii", radii)
            self.assertIn(f"radii {radii};", out)
            lines = (line.rsplit(" ", 1) for line in out.splitlines() if line and not line.startswith("#"))
            values.append({name: value for name, value in lines})
        one, other = values
        self.assertAlmostEqual(float(other["l10"]) - float(one["l10"]), 0.2725076 - 0.272274, delta=3e-6)
        self.assertAlmostEqual(float(one["l20"]) - float(other["l20"]), 0.272281 - 0.272274, delta=1e-6)
        for name in ("x0", "y1", "d0", "mu0"):
            self.assertEqual(one[name], other[name])


class Visible(Case):
    def test_visible(self):
        self.assertEqual(self.done("almanac.py", *DALLAS)[1], "")
        self.assertEqual(self.done("almanac.py", "2026-08-12", "43.37", "-8.4")[1], "")

    def test_sun_down_throughout(self):
        out, err = self.done("almanac.py", "2024-04-08", "51.5", "-0.12", "--title", "London")
        words = "the eclipse is not visible from this place: the Sun is below the horizon throughout, "
        words += "at an altitude of -2.3 degrees at most"
        self.assertEqual(err, f"note: {words}\n")
        self.assertIn(f"# {words}\n", out)

    def test_no_contact(self):
        out, err = self.done("almanac.py", "2024-04-08", "-33.9", "18.4")
        words = "the eclipse is not visible from this place: no contact, the Moon's penumbra passes "
        self.assertIn(f"note: {words}", err)
        self.assertIn(f"# {words}", out)

    def test_sunset(self):
        _, err = self.done("almanac.py", "2012-05-21", "35.0844", "-106.6504", "1619")
        self.assertRegex(err, r"note: the Sun is below the horizon at last contact \(altitude -\d\.\d degrees\)\n")

    @needs_programs
    def test_listing(self):
        """The program times takes the text: Dallas has totality, Moscow in 1954 the handbook's contacts to 3 s."""
        text, _ = self.done("almanac.py", *DALLAS)
        listing = subprocess.run([TIMES], input=text, capture_output=True, text=True, check=True).stdout
        self.assertIn("instant 2024-04-08 19:00:00.00 ET\n", listing)
        times = "ET 18:41:52.0 18:41:53.0 UT 18:40:42.9 18:40:44.0 UTC 18:40:42.8 18:40:43.9"
        self.assertIn(f"enter central -1088 -1087 1993 {times} alt ", listing)
        text, _ = self.done("almanac.py", "1954-06-30", "55.755", "37.57", "166")
        listing = subprocess.run([TIMES], input=text, capture_output=True, text=True, check=True).stdout
        self.assertRegex(listing, r"enter penumbra .* UT 12:00:3\d\.\d ")
        self.assertRegex(listing, r"leave penumbra .* UT 14:1[12]:\d\d\.\d ")


class Utc(Case):
    def test_line(self):
        out, err = self.done("almanac.py", *DALLAS)
        self.assertIn(":00 ET\ntai-utc 37\n", out)
        out, err = self.done("almanac.py", "1999-08-11", "48.1", "11.6")
        self.assertIn(":00 ET\ntai-utc 32\n", out)
        out, err = self.done("almanac.py", "1954-06-30", "55.755", "37.57", "166")
        self.assertNotIn("utc", out.lower())

    def test_after_the_list(self):
        out, err = self.done("almanac.py", "2027-08-02", "25.69", "32.64")
        self.assertIn("tai-utc 37 # presumed: the list of leap seconds ends on 2027-06-28\n", out)
        self.assertIn("note: the list of leap seconds ends on 2027-06-28", err)


class Files(Case):
    def setUp(self):
        self.folder = Path(tempfile.mkdtemp())
        self.addCleanup(shutil.rmtree, self.folder)
        self.csv = self.folder / "stations.csv"

    def test_requests(self):
        self.csv.write_text(
            "name,station,latitude,longitude,height\n# a remark\n\n"
            "Dallas,1,32.7767,-96.7970,131\nLondon,17,51.5,-0.12,\n"
        )
        requests = self.folder / "requests"
        out, err = self.done("almanac.py", "2024-04-08", "--csv", self.csv, "--folder", requests)
        self.assertEqual(out, "")
        self.assertIn("note: station 17, London: the eclipse is not visible from this place", err)
        self.assertIn(f"2 requests in {requests}\n", err)
        self.assertEqual(sorted(path.name for path in requests.iterdir()), ["1.txt", "17.txt"])
        alone, _ = self.done("almanac.py", *DALLAS)
        self.assertEqual((requests / "1.txt").read_text(), alone)
        together, _ = self.done("almanac.py", "2024-04-08", "--csv", self.csv)
        self.assertEqual(together, alone + "\n" + (requests / "17.txt").read_text())

    @needs_programs
    def test_bytes(self):
        """The bytes are those that the program request makes of the text."""
        self.csv.write_text("station,latitude,longitude,height,name\n1,32.7767,-96.7970,131,Dallas\n")
        command = [sys.executable, HERE / "almanac.py", "2024-04-08", "--csv", self.csv, "--bytes"]
        made = subprocess.run(command, capture_output=True, check=True).stdout
        alone, _ = self.done("almanac.py", *DALLAS)
        self.assertEqual(subprocess.run([REQUEST], input=alone.encode(), capture_output=True).stdout, made)
        self.assertEqual(len(made), 115)

    def test_bad_lines(self):
        self.csv.write_text(
            "station,latitude,longitude,height\n1,92.5,-96.8,131\n1,41.5,-81.7,199\n2,x,-0.12,\n3,1\n1000,1,2,9999\n"
        )
        code, out, err = run("almanac.py", "2024-04-08", "--csv", self.csv)
        self.assertEqual((code, out), (1, ""))
        for words in (
            "line 2: latitude 92.5 is outside its range, -90 to 90 degrees, north positive",
            "line 3: station 1 is already on line 2: give each its own number",
            "line 4: latitude 'x' is not a decimal number: write one from -90 to 90 degrees, north positive",
            "line 5: 2 fields where the first line names 4 columns: 3,1",
            "line 6: station 1000 is outside its range, 1 to 999",
            "line 6: height 9999 is outside its range, -500 to 9000 metres",
        ):
            self.assertIn(f"{self.csv}: {words}\n", err)
        self.assertTrue(err.endswith("no request was made\n"))

    def test_bad_files(self):
        for text, words in (
            ("", "no station: write a line of column names and a line for each station"),
            ("station,latitude,longitude\n", "no station"),
            ("station,lat,longitude\n1,2,3\n", "line 1: column 'lat' is unknown: columns are station, latitude"),
            ("station,longitude\n1,3\n", "line 1: column 'latitude' is missing"),
            ("station,latitude,longitude,station\n1,2,3,4\n", "line 1: column 'station' is given twice"),
        ):
            self.csv.write_text(text)
            self.refused(words, "almanac.py", "2024-04-08", "--csv", self.csv)
        self.refused("none.csv cannot be read: No such file", "almanac.py", "2024-04-08", "--csv", "none.csv")


class Next(Case):
    def test_coming(self):
        out, err = self.done("next", "43.37", "-8.40", "--from", "2026-01-01", "--count", "3")
        self.assertEqual(err, "")
        lines = out.splitlines()
        dates = [line.split()[:2] for line in lines[1:]]
        self.assertEqual(dates, [["2026-08-12", "total"], ["2027-08-02", "partial"], ["2028-01-26", "partial"]])
        self.assertRegex(lines[1], r"18:2[78]:\d\d .* 1\.03\d  1 min 1\d s$")

    def test_not_visible_ones_are_left_out(self):
        out, _ = self.done("next", "51.5", "-0.12", "--from", "2024-04-08", "--count", "1")
        self.assertNotIn("2024-04-08", out)

    def test_end_of_the_catalogue(self):
        out, err = self.done("next", "51.5", "-0.12", "--from", "2099-01-01", "--count", "20")
        self.assertLess(len(out.splitlines()), 20)
        self.assertIn("to the end of the catalogue, 2100-09-04", err)
        self.refused("is after the catalogue's last eclipse, 2100-09-04", "next", "0", "0", "--from", "2100-09-05")


@needs_swetest
class Stars(Case):
    @needs_programs
    def test_spica(self):
        """New York saw Spica vanish at 10:36 and appear at 11:51 universal time on 27 November 2024."""
        text, err = self.done("star.py", "Spica", "2024-11-27", "40.7128", "-74.006", "10")
        listing = subprocess.run([TIMES], input=text, capture_output=True, text=True, check=True).stdout
        self.assertRegex(listing, r"enter star .* UT 10:36:\d\d\.\d ")
        self.assertRegex(listing, r"leave star .* UT 11:51:\d\d\.\d ")
        self.assertEqual(err, "")

    def test_by_letter(self):
        place = ("2017-03-05", "41.88", "-87.63")
        self.assertEqual(self.done("star.py", ",alTau", *place), self.done("star.py", "Aldebaran", *place))

    def test_refusals(self):
        place = ("2024-11-27", "40.7", "-74")
        self.refused("star 'Nosuch' is not in Swiss Ephemeris' list", "star.py", "Nosuch", *place)
        self.refused("no occultation of Sirius on 2024-11-27", "star.py", "Sirius", *place)
        self.refused("star '12' is not a name", "star.py", "12", *place)

    def test_notes(self):
        _, err = self.done("star.py", "Spica", "2024-11-28", "10.7", "-74")
        self.assertIn("note: you asked for 2024-11-28; at this place the Moon is closest to Spica on 2024-11-27", err)
        self.assertIn("note: not visible from this place: no contact, Spica passes the Moon's edge by", err)
        _, err = self.done("star.py", "Spica", "2024-11-27", "44.65", "-63.57")
        self.assertEqual(err, "note: the Sun is up when Spica appears (altitude 3.3 degrees)\n")
        _, err = self.done("star.py", "Spica", "2024-11-27", "50", "100")
        self.assertIn("not visible from this place", err)


if __name__ == "__main__":
    unittest.main()
