#!/usr/bin/env python3
"""Makes eclipses.txt, the catalogue of solar eclipses from 1900 to 2100, from Swiss Ephemeris.

    python3 almanac/catalogue/make_catalogue.py > eclipses.txt
    python3 almanac/catalogue/make_catalogue.py --check [EVERY]

The second form makes every tenth record, or every EVERY-th, again, with its search, and compares every number with the
catalogue. Both need Debian's packages swetest (2.10.03) and swe-basic-data. The first takes about 20 seconds.

The script finds the eclipses twice: by the new moons (daily places, then hourly ones, then the distance at which the
shadow's axis passes the Earth's centre), and by `swetest -solecl`, which gives kind, saros series, magnitude and place
of greatest eclipse. The two lists must agree. The rows are those of almanac/places.py. reader.py reads the file.
"""

import re
import sys
from math import copysign, floor, sqrt
from pathlib import Path
from typing import Iterator, List, NamedTuple, Optional, Tuple

sys.path.insert(0, str(Path(__file__).resolve().parent.parent))
from catalogue.reader import ROWS, TURN, Eclipse, eclipses, encoded  # noqa: E402
from places import (  # noqa: E402
    MOON_UNIT,
    SUN_UNIT,
    Instant,
    calendar,
    julian_day,
    later,
    rows,
    run_swetest,
    sidereal_angles,
    swetest,
    swiss_delta_t,
    swiss_hours,
)

FIRST, LAST = 1900, 2100
SUN_RADIUS, MOON_RADIUS = 109.04847, 0.272274  # Earth radii, document 02
KINDS = {"partial": "P", "annular": "A", "total": "T", "ann-tot": "H"}
VERSION = "2.10.03"  # of Swiss Ephemeris; OBSERVED and TABLE_END are facts about this version's delta T
OBSERVED, TABLE_END = 2023, 2028  # its table has observed values up to 2023.0, extrapolated ones up to 2028.0
MOST_LINES = 3000  # days in one run: swetest stops after 36,525 lines

HEAD = f"""\
# Solar eclipses from {FIRST} to {LAST}, with hourly places of Sun and Moon.
# Made by almanac/catalogue/make_catalogue.py from Swiss Ephemeris {{version}} (Debian's packages swetest and
#   swe-basic-data). Each eclipse has a block of eight lines of whole numbers.
# Line 1:
#   date of greatest eclipse by universal time;
#   the reference instant T, the whole hour of ephemeris time (TT) nearest to greatest eclipse, in hours from 0h of that
#     date (24 is 0h of the next day);
#   kind as Swiss Ephemeris has it: P partial, A annular, T total, H hybrid;
#   delta T at T in 0.01 s, and its source: O for Swiss Ephemeris' table of observed values (up to {OBSERVED}.0),
#     X for its table of extrapolated values (up to {TABLE_END}.0), F for its formula (after that);
#   saros series;
#   gamma, the least distance of the shadow's axis from the Earth's centre, in 0.0001 Earth radius, positive to the
#     north;
#   greatest magnitude in 0.0001; latitude and east longitude of greatest eclipse in 0.1 degree;
#   greatest eclipse, when the axis is closest to the Earth's centre, in seconds from T.
#   Kind, saros series and what follows are for lists and maps: no sheet depends on them.
# Lines 2 to 8: Sun x, y, z, Moon x, y, z, sidereal time, each at the nine hours T-4h to T+4h.
#   Places are apparent (with light time and aberration), from the Earth's centre, on the true equator and equinox of
#     date, in 10^-8 of the Earth's equatorial radius of 6378.137 km.
#   The Sun's distance is set for the solar parallax of 8.80", to which document 02's solar radius belongs. The Moon's
#     distance is set by the astronomical unit of 149,597,870.7 km.
#   Sidereal time is Greenwich apparent, in 10^-6 degree, as if universal time were ephemeris time.
# Differences: a line has the first value, its first to fourth difference, and then the fourth differences that follow.
#   To read it, for k from 4 down to 1, add to each number from the k-th on (counted from 0) the one before it, from
#   left to right. Sidereal time is then taken modulo {TURN}.
# Delta T past today is a guess: nobody can compute how the Earth's rotation will change. With source X or F it may be
#   off by seconds within decades, and by tens of seconds in {LAST}.
"""


class Listed(NamedTuple):
    """An eclipse of `swetest -solecl`. greatest: Julian day of universal time, 0 where swetest fails to give a time."""

    kind: str
    greatest: float
    saros: int
    magnitude: int
    latitude: int
    longitude: int


def year_of(day: float) -> int:
    return calendar(int(day + 0.5) - 0.5)[0]


def tenths(words: str) -> List[int]:
    """The angles of a line, written as 44°48'22", in tenths of a degree."""
    found = re.findall(r"(-?) *(\d+)° *(\d+)' *(\d+)\"", words)
    return [(-1 if sign else 1) * round((int(d) * 3600 + int(m) * 60 + int(s)) / 360) for sign, d, m, s in found]


def listed() -> List[Listed]:
    """Swiss Ephemeris' own list.

    Version 2.10.03 prints the eclipse of 5 January 1935, of magnitude 0.0014, with Julian day 0.
    """
    text = run_swetest("-solecl", f"-b1.1.{FIRST}", "-n480", "-eswe")
    made = []
    for one, _, three in re.findall(r"^(.* solar\t.*)\n(.*)\n(.*)$", text, re.M):
        words = one.split("\t")
        longitude, latitude = tenths(three)[:2]
        saros = int(re.search(r"saros (\d+)/", one)[1])
        magnitude = round(float(words[4].split("/")[0]) * 10**4)
        made.append(Listed(KINDS[words[0].split()[0]], float(words[-1]), saros, magnitude, latitude, longitude))
    return [each for each in made if each.greatest == 0 or FIRST <= year_of(each.greatest) <= LAST]


# ---- places


def places(start: Instant, count: int, step: str) -> List[List[float]]:
    """Sun and Moon, six numbers in Earth radii, at so many instants of ephemeris time."""
    year, month, day, hour = start
    lines = swetest(
        f"-b{day}.{month}.{year}", f"-t{hour:02}:00:00", f"-n{count}", f"-s{step}", "-eswe", "-p01", "-fPx"
    )
    if len(lines) != 2 * count:
        raise RuntimeError("swetest: not as many lines as were asked for: " + " ".join(lines[-3:]))
    vectors = [list(map(float, line.split()[1:4])) for line in lines]
    return [
        [c * SUN_UNIT for c in sun] + [c * MOON_UNIT for c in moon]
        for sun, moon in zip(vectors[::2], vectors[1::2])
    ]


def hourly(instant: Instant) -> List[List[int]]:
    """The nine rows of seven numbers around an instant."""
    hours = swiss_hours(later(instant, ROWS[0]), len(ROWS))
    return [row + [angle] for row, angle in zip(rows(hours), sidereal_angles(hours))]


# ---- the search by new moons


def axis(row: List[float]) -> Tuple[float, float, float]:
    """The shadow's axis where it is closest to the Earth's centre.

    It returns the squared distance, its part to the north, and the penumbra's radius there.
    """
    sun, moon = row[:3], row[3:6]
    apart = [a - b for a, b in zip(sun, moon)]
    g = sqrt(sum(c * c for c in apart))
    z = sum(a * b for a, b in zip(apart, moon)) / g
    foot = [m - z * a / g for m, a in zip(moon, apart)]
    sine = (SUN_RADIUS + MOON_RADIUS) / g
    return sum(c * c for c in foot), foot[2], (z * sine + MOON_RADIUS) / sqrt(1 - sine * sine)


def least(values: List[float]) -> Tuple[int, float, float]:
    """The least of values near a parabola: its index, how many steps after it the minimum lies, and the minimum."""
    k = min(range(1, len(values) - 1), key=lambda i: values[i])
    a, b, c = values[k - 1 : k + 2]
    part = (a - c) / (2 * (a - 2 * b + c))
    return k, part, b - (a - c) * part / 4


def cosines(days: List[List[float]]) -> List[float]:
    """The cosine of the angle between Sun and Moon on each of some days."""
    made = []
    for row in days:
        sun, moon = row[:3], row[3:]
        sizes = sqrt(sum(c * c for c in sun) * sum(c * c for c in moon))
        made.append(sum(a * b for a, b in zip(sun, moon)) / sizes)
    return made


def new_moons() -> Iterator[Instant]:
    """Days, at 0h, closer to a new moon than the days beside them."""
    start, end = julian_day(FIRST, 1, 1) - 2, julian_day(LAST + 1, 1, 1) + 2
    days, near = [], []
    while start < end:
        count = min(MOST_LINES, int(end - start))
        days += [start + k for k in range(count)]
        near += cosines(places((*calendar(start), 0), count, "1"))
        start += count
    for k in range(1, len(days) - 1):
        if near[k] > max(0.9, near[k - 1]) and near[k] >= near[k + 1]:
            yield (*calendar(days[k]), 0)


def new_moon_near(instant: Instant) -> Instant:
    """The day, at 0h, that is closest to the new moon, among those within two days of an instant."""
    start = julian_day(*instant[:3]) - 2
    near = cosines(places((*calendar(start), 0), 5, "1"))
    return (*calendar(start + near.index(max(near))), 0)


class Found(NamedTuple):
    """An eclipse of the search: the hour nearest to when the axis is closest to the Earth's centre, and gamma."""

    instant: Instant
    greatest: int  # seconds from the instant
    gamma: float

    def day(self) -> float:
        """Greatest eclipse as a Julian day of ephemeris time."""
        return julian_day(*self.instant[:3]) + self.instant[3] / 24 + self.greatest / 86400


def eclipse_at(day: Instant) -> Optional[Found]:
    """The eclipse at the new moon of a day, or None where the penumbra misses the Earth."""
    k, _, squared = least([axis(row)[0] for row in places(later(day, -27), 55, "60m")])
    if squared > 1.6**2:
        return None
    hour = later(day, k - 27)
    near = [axis(row) for row in places(later(hour, -1), 25, "5m")]
    k, part, squared = least([square for square, _, _ in near])
    seconds = (k + part - 12) * 300
    hours = round(seconds / 3600)
    gamma = sqrt(max(squared, 0.0))
    # the sign is that at greatest eclipse itself: five minutes away the axis may be on the other side
    north = near[k][1] + part * (near[k + 1][1] - near[k - 1][1]) / 2
    if 1 + near[k][2] <= gamma:
        return None
    return Found(later(hour, hours), round(seconds - 3600 * hours), copysign(gamma, north))


def found() -> Tuple[List[Found], int]:
    """The eclipses of the search, and the number of new moons tried."""
    days = list(new_moons())
    made = [each for each in map(eclipse_at, days) if each and FIRST <= year_of(each.day()) <= LAST]
    return made, len(days)


# ---- the catalogue


def delta_t_source(instant: Instant) -> str:
    """Which part of Swiss Ephemeris' delta T an instant falls in; its years are of 365.25 days from 2000-01-01."""
    year = 2000 + (julian_day(*instant[:3]) + instant[3] / 24 - 2451544.5) / 365.25
    return "O" if year < OBSERVED else "X" if year < TABLE_END else "F"


def record(each: Found, one: Listed) -> Eclipse:
    """The record of an eclipse; its date is that of greatest eclipse by universal time."""
    instant = each.instant
    delta_t = round(swiss_delta_t(instant) * 100)
    day = floor((instant[3] * 3600 + each.greatest - delta_t / 100) / 86400)
    date, hour = calendar(julian_day(*instant[:3]) + day), instant[3] - 24 * day
    facts = (one.saros, round(each.gamma * 10**4), one.magnitude, one.latitude, one.longitude, each.greatest)
    return Eclipse(date, hour, one.kind, delta_t, delta_t_source(instant), *facts, hourly(instant))


def version() -> str:
    """Swiss Ephemeris' version, which must be the one whose delta T is described in the header."""
    found = re.search(r"version ([\w.-]+)", run_swetest("-b1.1.2000", "-p0"))[1]
    if not found.startswith(VERSION):
        sys.exit(
            f"swetest is version {found}, and OBSERVED and TABLE_END describe the delta T of {VERSION}. "
            "Look up dt[] in its swephlib.c and change them"
        )
    return found


def check(every: int) -> List[Tuple[int, int, int]]:
    """Makes every so many records of the catalogue again; the dates of those in which a number differs."""
    wrong = []
    for one, eclipse in list(zip(listed(), eclipses()))[::every]:
        each = eclipse_at(new_moon_near(eclipse.instant()))
        if each is None or record(each, one) != eclipse:
            wrong.append(eclipse.date)
    return wrong


def main():
    made_by = version()
    if len(sys.argv) > 1 and sys.argv[1] == "--check":
        every = int(sys.argv[2]) if len(sys.argv) > 2 else 10
        wrong = check(every)
        if wrong:
            dates = ", ".join("%04d-%02d-%02d" % date for date in wrong)
            sys.exit(f"these eclipses differ from the catalogue: {dates}")
        print(f"{len(eclipses()[::every])} of {len(eclipses())} eclipses made again: all numbers are the same")
        return
    theirs = listed()
    ours, moons = found()
    print(f"{moons} new moons, {len(ours)} eclipses by the axis, {len(theirs)} by swetest -solecl", file=sys.stderr)
    if len(ours) != len(theirs):
        sys.exit("the two lists differ in length")
    farthest = 0.0
    for each, one in zip(ours, theirs):
        if one.greatest == 0:
            print(f"swetest gives no time for {each}", file=sys.stderr)
            continue
        apart = (each.day() - one.greatest) * 86400 - swiss_delta_t(each.instant)
        farthest = max(farthest, abs(apart))
        if abs(apart) > 60:
            sys.exit(f"the two lists differ: {each} {one}")
    print(f"greatest eclipse is at most {farthest:.1f} s from that of swetest -solecl", file=sys.stderr)
    print(HEAD.format(version=made_by), end="")
    for each, one in zip(ours, theirs):
        print(encoded(record(each, one)), end="")


if __name__ == "__main__":
    main()
