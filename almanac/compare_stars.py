#!/usr/bin/env python3
"""Three occultations of bright stars beside Swiss Ephemeris' swe_lun_occult_when_loc, ours from its own places.

    python3 almanac/compare_stars.py

It needs Debian's packages swetest, swe-basic-data and libswe-dev, a C compiler, and the library for Python. Each line
has the contact by swe_lun_occult_when_loc and these numbers of seconds:
  theirs less ours with star.py's radius of the Moon;
  theirs less ours with their radius, 0.99916 of 1,738.15 km;
  the same with their contact solved again to a microsecond from their own places (`occult_loc.c`);
  what of the latter is due to where they see the Moon from the station: against the star, it is shifted from its place
    for the Earth's centre less the station's place, and nothing should shift it, since the diurnal aberration of both
    is the same.
The line ends with that shift in seconds of arc, to the east and to the north.
"""

import subprocess
from dataclasses import replace
from datetime import date
from math import asin, atan2, cos, degrees, radians, sin, sqrt
from pathlib import Path
from typing import NamedTuple

from besselian import ukhtvaresh
from places import AU, EARTH, UNIT, swetest
from star import at_station, night_of

TOP = Path(__file__).resolve().parent.parent
THEIR_RADIUS = round(1_738.15 * 0.99916 / EARTH * UNIT)
OCCULTATIONS = [  # star, day, place, latitude, longitude, height
    ("Aldebaran", (2017, 3, 5), "Chicago", 41.8800, -87.6300, 180),
    ("Spica", (2024, 11, 27), "New York", 40.7128, -74.0060, 10),
    ("Antares", (2023, 8, 25), "Atlanta", 33.7490, -84.3880, 320),
]


def swiss():
    """What Swiss Ephemeris gives for each."""
    program = TOP / "target" / "occult_loc"
    subprocess.run(["cc", "-O2", TOP / "almanac" / "occult_loc.c", "-lswe", "-lm", "-o", program], check=True)
    asked = "".join(
        f"{y} {m} {d} {longitude} {latitude} {height} {star}\n"
        for star, (y, m, d), _, latitude, longitude, height in OCCULTATIONS
    )
    ran = subprocess.run([program], input=asked, capture_output=True, text=True, check=True)
    return [list(map(float, line.split())) for line in ran.stdout.splitlines()]


def outside(request, second):
    """How far the star is outside the Moon's edge, in units."""
    at = ukhtvaresh.star_second(request.to_bytes(), second)
    return sqrt(at.u**2 + at.v**2) - at.radius


class Contact(NamedTuple):
    """A contact between its two seconds, the direction of the Moon's centre from the star, and how fast it recedes."""

    second: float
    east: float
    north: float
    speed: float  # units a second


def contacts_of(request):
    """The contacts at which the star vanishes and appears."""
    made = []
    for entry in ukhtvaresh.read(ukhtvaresh.star(request.to_bytes())):
        if isinstance(entry, (ukhtvaresh.Enter, ukhtvaresh.Leave)):
            first, last = (outside(request, second) for second in (entry.from_, entry.to))
            steps = entry.to - entry.from_
            at = ukhtvaresh.star_second(request.to_bytes(), entry.to)
            size, moved = sqrt(at.u**2 + at.v**2), last - first
            made.append(Contact(entry.from_ - steps * first / moved, at.u / size, at.v / size, moved / steps))
    return made


def angles(vector):
    """Right ascension, declination and distance."""
    distance = sqrt(sum(c * c for c in vector))
    return atan2(vector[1], vector[0]), asin(vector[2] / distance), distance


def shift(star, on, time, latitude, longitude, height):
    """The Moon's shift against the star for a station by Swiss Ephemeris, radians east and north; its distance, km."""
    at = ["-b%d.%d.%d" % on[::-1], f"-ut{time}", "-eswe"]
    station = f"-topo{longitude},{latitude},{height}"
    seen = []
    for words in ([], [station]):
        moon, fixed = swetest(*at, "-p1", "-fPx", *words)[0], swetest(*at, "-pf", f"-xf{star}", "-fad", *words)[0]
        vector = [float(c) * AU for c in moon.split()[1:4]]
        seen.append((vector, [radians(float(angle)) for angle in fixed.split()[-2:]]))
    (sidereal,) = (
        float(line.split()[1]) for line in swetest(*at, "-p", "-house0,0,P", "-fPl") if line.startswith("ARMC")
    )
    # the station from the Earth's centre, on the spheroid of 1984
    squared, phi, theta = (1 - 1 / 298.257223563) ** 2, radians(latitude), radians(sidereal + longitude)
    c = EARTH / sqrt(cos(phi) ** 2 + squared * sin(phi) ** 2)
    across, up = (c + height / 1000) * cos(phi), (c * squared + height / 1000) * sin(phi)
    place = across * cos(theta), across * sin(theta), up
    (centre, before), (theirs, after) = seen
    ra, dec, distance = angles([a - b for a, b in zip(centre, place)])
    their_ra, their_dec, _ = angles(theirs)
    east = (their_ra - ra) * cos(dec) - (after[0] - before[0]) * cos(before[1])
    return east, their_dec - dec - (after[1] - before[1]), distance


def clock(days):
    tenths = round(days * 864000)
    return f"{tenths // 36000:02}:{tenths // 600 % 60:02}:{tenths // 10 % 60:02}.{tenths % 10}"


def main():
    print("universal time by Swiss Ephemeris; theirs less ours, s: as it is, their radius, solved again, by the shift")
    for given, (star, on, name, *place) in zip(swiss(), OCCULTATIONS):
        *theirs, delta_t = given
        latitude, longitude, height = place
        station = ukhtvaresh.Station(1, round(latitude * 10**6), round(longitude * 10**6), height, round(delta_t * 100))
        local = at_station(night_of(star, date(*on)), station)
        zero = (date(*local.instant[:3]) - date(*on)).days * 86400 + local.instant[3] * 3600 - delta_t
        ours = contacts_of(local.request), contacts_of(replace(local.request, radius=THEIR_RADIUS))
        for k, event in enumerate(("vanishes", "appears")):
            first, second = (each[k] for each in ours)
            found, solved = (days * 86400 - zero for days in (theirs[k], theirs[k + 2]))
            east, north, distance = shift(star, on, clock(theirs[k])[:-2], *place)
            farther = (east * second.east + north * second.north) * distance / EARTH * UNIT
            off = [found - first.second, found - second.second, solved - second.second, -farther / second.speed]
            arc = [degrees(angle) * 3600 for angle in (east, north)]
            print(
                f"{star:9} %04d-%02d-%02d {name:8} {event:8} {clock(theirs[k])} " % on
                + "".join(f" {seconds:+.2f}" for seconds in off)
                + '  %+.2f" %+.2f"' % tuple(arc)
            )


if __name__ == "__main__":
    main()
