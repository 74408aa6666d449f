"""Apparent places of Sun and Moon from the Earth's centre, and sidereal time at Greenwich, by the hour.

A source is a function from an instant of ephemeris time to the places at seven hours, -3 to 3 from it. Places are
apparent (with light time and aberration), rectangular, on the true equator and equinox of date, right-handed, with the
third axis to the north pole.

  swiss    Swiss Ephemeris with its files (Debian: swetest, swe-basic-data), 1800 to 2399; runs the program swetest
  moshier  the same program without files, by Moshier's theory; its Moon is 1 to 2 seconds of arc off (`compare.py`)
  erfa     ERFA (Debian: python3-erfa, for /usr/bin/python3): Earth by epv00, Moon by moon98, which is 1 to 2.3 seconds
           of arc off
"""

import math
import re
import subprocess
from dataclasses import dataclass
from typing import Callable, Dict, List, Sequence, Tuple

HOURS = range(-3, 4)
AU = 149_597_870.7  # km
EARTH = 6_378.137  # km, the equatorial radius of the spheroid that today's geodetic places refer to
# Document 02 has the Sun's radius as 109.04847 Earth radii. That is 959.63" at one astronomical unit for the handbook's
# solar parallax of 8.80"; for today's 8.794" it would be 0.64" less, which is a second of contact time. Radius and
# parallax belong together, so the Sun is set at the handbook's distance. The direction of the axis depends on the
# distance by less than 0.01".
SUN_UNIT = 1 / math.sin(math.radians(8.80 / 3600))  # Earth radii in an astronomical unit, for the Sun
MOON_UNIT = AU / EARTH
UNIT = 10**8  # units in an Earth radius
TURN = 360_000_000  # 10^-6 degree

Vector = Tuple[float, float, float]


@dataclass(frozen=True)
class Place:
    """An hour: Sun and Moon in astronomical units; sidereal time in degrees, as if universal were ephemeris time."""

    sun: Vector
    moon: Vector
    sidereal: float


# ---- days

Instant = Tuple[int, int, int, int]  # year, month, day, hour of ephemeris time


def julian_day(year: int, month: int, day: int) -> float:
    """The Julian day of 0h, Gregorian calendar."""
    a = (14 - month) // 12
    y, m = year + 4800 - a, month + 12 * a - 3
    return day + (153 * m + 2) // 5 + 365 * y + y // 4 - y // 100 + y // 400 - 32045 - 0.5


def calendar(day: float) -> Tuple[int, int, int]:
    """The date of a Julian day that ends in .5."""
    a = int(day + 0.5) + 32044
    b = (4 * a + 3) // 146097
    c = a - 146097 * b // 4
    d = (4 * c + 3) // 1461
    e = c - 1461 * d // 4
    m = (5 * e + 2) // 153
    return 100 * b + d - 4800 + m // 10, m + 3 - 12 * (m // 10), e - (153 * m + 2) // 5 + 1


def later(instant: Instant, hours: int) -> Instant:
    """The instant some whole hours later."""
    year, month, day, hour = instant
    days, hour = divmod(hour + hours, 24)
    return (*calendar(julian_day(year, month, day) + days), hour)


# ---- Swiss Ephemeris, by its program

SWETEST_MISSING = (
    "the program swetest is not installed. Install Debian's packages swetest and swe-basic-data, "
    "or take a date from 1900 to 2100 with --source catalogue"
)


class Missing(Exception):
    """A program or a file that a source needs is not installed; the words say which package has it."""


def run_swetest(*words: str) -> str:
    """What the program writes for these words; Missing where the program is not installed."""
    try:
        return subprocess.run(["swetest", *words], capture_output=True, text=True, check=True).stdout
    except FileNotFoundError:
        raise Missing(SWETEST_MISSING) from None


def missing_file(name: str) -> str:
    """The words for a file of Swiss Ephemeris, such as sepl_12.se1, that is not installed. Each holds 600 years."""
    century = re.fullmatch(r"se(?:pl|mo)(_|m)(\d+)\.se1", name)
    if not century:
        return f"Swiss Ephemeris' file {name} is not installed. Debian's package swe-basic-data has it"
    first = int(century[2]) * 100 * (-1 if century[1] == "m" else 1)
    if first == 1800:
        package = "Debian's package swe-basic-data has it"
    elif -5400 <= first <= 4800:
        package = "Debian's package swe-standard-data has it (swe-basic-data has 1800 to 2399 alone)"
    else:
        package = "Debian's package swe-standard-data ends in 5399: take an earlier date"
    return f"Swiss Ephemeris' file {name}, for the years {first} to {first + 599}, is not installed. {package}"


def swetest(*words: str) -> List[str]:
    """The lines that the program writes; Missing where it has no file for the date, RuntimeError for its other errors.

    Without a file the program computes by another theory and says so in a warning: that is refused here.
    """
    text = run_swetest(*words, "-ep", "-head")
    absent = re.search(r"file '([^']+)' not found", text)
    if absent:
        raise Missing(missing_file(absent[1]))
    if "error" in text.lower() or "not found" in text.lower() or "using moshier" in text.lower():
        raise RuntimeError("swetest: " + " ".join(text.split()))
    return text.splitlines()


def swiss_hours(first: Instant, count: int, ephemeris: str = "-eswe") -> List[Place]:
    """Places at so many whole hours, from an instant on.

    The program's time is a Julian day in a double. Only multiples of three hours are exact in it, and the others are
    off by up to 20 microseconds. A run therefore starts at such a multiple: then the place of an hour is the same
    number for number, whichever hours are asked for with it.
    """
    before = first[3] % 3
    year, month, day, hour = later(first, -before)
    run = [f"-b{day}.{month}.{year}", f"-n{before + count}", "-s60m", ephemeris]
    time = f"{hour:02}:00:00"
    bodies = swetest(*run, f"-t{time}", "-p01", "-fPx")
    names = [line.split()[0] for line in bodies]
    houses = swetest(*run, f"-ut{time}", "-p", "-house0,0,P", "-fPl")
    sidereal = [float(line.split()[1]) for line in houses if line.startswith("ARMC")]
    if names != ["Sun", "Moon"] * (before + count) or len(sidereal) != before + count:
        raise RuntimeError("swetest: not the lines that were asked for: " + " ".join(bodies[:1] + houses[:1]))
    vectors = [tuple(map(float, line.split()[1:4])) for line in bodies]
    return [Place(*each) for each in zip(vectors[::2], vectors[1::2], sidereal)][before:]


def _swiss(ephemeris: str) -> Callable[[Instant], List[Place]]:
    return lambda instant: swiss_hours(later(instant, HOURS[0]), len(HOURS), ephemeris)


def swiss_delta_t(instant: Instant) -> float:
    """Ephemeris less universal time in seconds, as Swiss Ephemeris has it."""
    year, month, day, hour = instant
    text = run_swetest(f"-b{day}.{month}.{year}", f"-t{hour:02}:00:00", "-p0")
    return float(re.search(r"delta t: (-?[0-9.]+) sec", text)[1])


# ---- ERFA


def _erfa(instant: Instant) -> List[Place]:
    try:
        import erfa
        import numpy
    except ImportError:
        raise Missing(
            "ERFA is not installed for this Python. Install Debian's package python3-erfa and run /usr/bin/python3"
        ) from None
    year, month, day, hour = instant
    midnight = julian_day(year, month, day)
    light_day = 86_400 * 299_792.458 / AU  # astronomical units that light goes in a day

    def body(fraction, position):
        """The apparent place of a body whose barycentric position at a time of day is given."""
        earth = erfa.epv00(midnight, fraction)[1]
        delay = 0.0
        for _ in range(3):
            vector = position(fraction - delay) - earth["p"]
            distance = numpy.linalg.norm(vector)
            delay = distance / light_day
        sun_distance = numpy.linalg.norm(erfa.epv00(midnight, fraction)[0]["p"])
        velocity = earth["v"] / light_day
        root = math.sqrt(1 - float(velocity @ velocity))
        direction = erfa.ab(vector / distance, velocity, sun_distance, root)
        return tuple(float(c) for c in erfa.pnm06a(midnight, fraction) @ direction * distance)

    def sun(fraction):
        heliocentric, barycentric = erfa.epv00(midnight, fraction)
        return barycentric["p"] - heliocentric["p"]

    def moon(fraction):
        return erfa.epv00(midnight, fraction)[1]["p"] + erfa.moon98(midnight, fraction)["p"]

    made = []
    for h in HOURS:
        fraction = (hour + h) / 24
        sidereal = math.degrees(float(erfa.gst06a(midnight, fraction, midnight, fraction)))
        made.append(Place(body(fraction, sun), body(fraction, moon), sidereal))
    return made


SOURCES: Dict[str, Callable[[Instant], List[Place]]] = {
    "swiss": _swiss("-eswe"),
    "moshier": _swiss("-emos"),
    "erfa": _erfa,
}


# ---- rows


def rows(places: Sequence[Place]) -> List[List[int]]:
    """Rows as the library takes them: Sun and Moon in 10^-8 of the Earth's equatorial radius."""
    return [
        [round(c * SUN_UNIT * UNIT) for c in place.sun] + [round(c * MOON_UNIT * UNIT) for c in place.moon]
        for place in places
    ]


def sidereal_angles(places: Sequence[Place]) -> List[int]:
    """Sidereal time in 10^-6 degree, 0 to 359,999,999."""
    return [round(place.sidereal * 10**6) % TURN for place in places]
