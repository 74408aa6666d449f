#!/usr/bin/env python3
"""From a star and a night to a typed star request: the star's occultation by the Moon, for one station.

    python3 almanac/star.py Aldebaran 2017-03-05 41.88 -87.63 --title Chicago > chicago.txt
    target/bin/times < chicago.txt
    python3 almanac/star.py ,alVir 2024-11-27 40.7128 -74.006 10

STAR is a name of Swiss Ephemeris' list of stars (sefstars.txt), such as Aldebaran, or a comma and the Bayer letter with
the constellation, such as ,alTau. DATE is the day by universal time; an occultation of the day before or after is found
too. LATITUDE is north, LONGITUDE east, in degrees; HEIGHT is in metres. The program needs Debian's packages swetest and
swe-basic-data. The reference instant is the whole hour of ephemeris time nearest to when the Moon's centre is closest
to the star at the place, and the window is the widest.

The request goes to standard output; standard error has a note where the occultation is on another day or not visible.

Exit status: 0 done; 1 refused; 2 usage.
"""

import argparse
import re
import sys
from datetime import date
from math import acos, asin, atan2, cos, degrees, radians, sin, sqrt
from typing import Dict, List, NamedTuple, Optional, Tuple

import arguments
from arguments import Refusal, note
from places import HOURS, MOON_UNIT, UNIT, Instant, Place, later, swetest, swiss_delta_t, swiss_hours

try:
    from besselian import cubics_and_turn, decimal, ukhtvaresh
except ImportError as wrong:
    print(f"star: the library for Python is missing. {wrong}", file=sys.stderr)
    sys.exit(1)
from almanac import station_lines, utc_lines
from circumstances import STAR_UP, TURN_RATE, UP, WIDEST, altitude, highest, moment, spell

NAMES = "x0 x1 x2 x3 y0 y1 y2 y3 d0 mu0 mu1 mu2".split()
RADIUS = 27_250_760  # the Moon's, 0.2725076 Earth radii, the International Astronomical Union's
FAR = 1.35  # degrees from the Moon's centre, seen from the Earth's, beyond which it hides the star nowhere
REACH = 3  # hours from the closest hour that a reference hour may lie


# ---- places


class Hour(NamedTuple):
    """A whole hour: Sun, Moon and sidereal time, and the star's apparent right ascension and declination in degrees."""

    place: Place
    ascension: float
    declination: float


def star_places(star: str, first: Instant, count: int) -> Tuple[str, List[Tuple[float, float]]]:
    """The star's name in the list, and its apparent place at so many whole hours, degrees."""
    year, month, day, hour = first
    run = [f"-b{day}.{month}.{year}", f"-t{hour:02}:00:00", f"-n{count}", "-s60m", "-eswe"]
    try:
        lines = swetest(*run, "-pf", f"-xf{star}", "-fPad")
    except RuntimeError:
        raise Refusal(
            f"star {star!r} is not in Swiss Ephemeris' list, sefstars.txt: "
            "give a name such as Aldebaran, or a comma and the Bayer letter such as ,alTau"
        ) from None
    parts = [re.fullmatch(r"(.*?)\s+(-?[\d.]+)\s+(-?[\d.]+)\s*", line) for line in lines]
    if len(parts) != count or not all(parts):
        raise RuntimeError("swetest: not the lines that were asked for: " + " ".join(lines[:1]))
    name, _, letter = parts[0][1].partition(",")
    return name or letter, [(float(part[2]), float(part[3])) for part in parts]


def separation(hour: Hour) -> float:
    """The angle between the Moon's centre and the star, seen from the Earth's centre, in degrees."""
    a, d = radians(hour.ascension), radians(hour.declination)
    x, y, z = hour.place.moon
    cosine = (x * cos(d) * cos(a) + y * cos(d) * sin(a) + z * sin(d)) / sqrt(x * x + y * y + z * z)
    return degrees(acos(min(1.0, cosine)))


class Night(NamedTuple):
    """The star's name, the hour at which the Moon is closest to it, and the hours around it."""

    name: str
    instant: Instant
    hours: List[Hour]  # REACH + 3 on either side

    def seven(self, hour: int) -> List[Hour]:
        return self.hours[hour + REACH : hour + REACH + len(HOURS)]


def night_of(star: str, on: date) -> Night:
    """The closest hour of the day or of the days beside it; Refusal where the Moon hides the star nowhere on Earth."""
    if not re.search(r"[A-Za-z]", star):
        raise Refusal(f"star {star!r} is not a name: give a name such as Aldebaran, or ,alTau")
    margin = REACH + HOURS[-1]
    first, count = later((on.year, on.month, on.day, 0), -24 - margin), 72 + 2 * margin
    name, stars = star_places(star, first, count)
    hours = [Hour(place, *where) for place, where in zip(swiss_hours(first, count), stars)]
    k = min(range(margin, count - margin), key=lambda i: separation(hours[i]))
    if separation(hours[k]) > FAR:
        raise Refusal(
            f"no occultation of {name} on {on}, the day before or the day after: the Moon's centre comes no closer "
            f"than {separation(hours[k]):.1f} degrees, and {FAR} are needed"
        )
    return Night(name, later(first, k), hours[k - margin : k + margin + 1])


# ---- elements and request


def star_elements(seven: List[Hour]) -> Tuple[ukhtvaresh.StarElements, Dict[str, int]]:
    """The twelve elements of seven hours, and how far each fit is off, in units.

    x is the Moon's centre to the east and y to the north in the plane at right angles to the star's direction.
    """
    across = []
    for hour in seven:
        a, d = radians(hour.ascension), radians(hour.declination)
        x, y, z = (c * MOON_UNIT * UNIT for c in hour.place.moon)
        outward = x * cos(a) + y * sin(a)
        east, north, along = y * cos(a) - x * sin(a), z * cos(d) - outward * sin(d), z * sin(d) + outward * cos(d)
        across.append((round(east), round(north), round(along)))
    turned = [round((hour.place.sidereal - hour.ascension) * 10**6) for hour in seven]
    x, y, mu, off = cubics_and_turn(across, turned)
    return ukhtvaresh.StarElements(*x, *y, round(seven[3].declination * 10**6), *mu), off


class Local(NamedTuple):
    """An occultation at a station."""

    instant: Instant
    off: Dict[str, int]
    request: ukhtvaresh.StarRequest
    entries: List[ukhtvaresh.Entry]
    seven: List[Hour]

    def closest(self) -> int:
        return next(entry.second for entry in self.entries if isinstance(entry, ukhtvaresh.Closest))


def at_station(night: Night, station: ukhtvaresh.Station, radius: int = RADIUS, guard: Optional[int] = None) -> Local:
    """The occultation at a station, with the reference hour that is nearest to its closest second."""
    hour = 0
    for _ in range(3):
        seven = night.seven(hour)
        made, off = star_elements(seven)
        asked = guard or min(1000, max(16, off["x"] + off["y"]))
        request = ukhtvaresh.StarRequest(made, radius, station, WIDEST, asked)
        entries = ukhtvaresh.read(ukhtvaresh.star(request.to_bytes()))
        local = Local(later(night.instant, hour), off, request, entries, seven)
        nearest = max(-REACH, min(REACH, hour + round(local.closest() / 3600)))
        if nearest == hour:
            break
        hour = nearest
    return local


# ---- what is visible


def sun_altitude(local: Local, second: int) -> float:
    """Degrees of the Sun over the horizon at a second, from the nearest hour's place, without refraction."""
    hour = max(HOURS[0], min(HOURS[-1], round(second / 3600)))
    place, station = local.seven[hour - HOURS[0]].place, local.request.station
    x, y, z = place.sun
    d = asin(z / sqrt(x * x + y * y + z * z))
    turned = place.sidereal + (second - 3600 * hour - station.delta_t / 100) * TURN_RATE + station.longitude / 10**6
    angle, latitude = radians(turned) - atan2(y, x), radians(station.latitude / 10**6)
    return degrees(asin(sin(latitude) * sin(d) + cos(latitude) * cos(d) * cos(angle)))


def remarks_on(local: Local, name: str) -> List[str]:
    """What is not visible of an occultation from its station, in sentences."""
    whole = spell(local.entries, ukhtvaresh.Phase.STAR)
    if whole is None:
        at = ukhtvaresh.star_second(local.request.to_bytes(), local.closest())
        away = (sqrt(at.u**2 + at.v**2) / at.radius - 1) * 100
        return [f"not visible from this place: no contact, {name} passes the Moon's edge by {away:.0f}% of its radius"]
    top = highest(local.request, *whole)
    if top < STAR_UP:
        return [f"not visible from this place: {name} is below the horizon throughout, at {top:.1f} degrees at most"]
    made = []
    for words, second in (("vanishes", whole[0]), ("appears", whole[1])):
        if altitude(local.request, second) < STAR_UP:
            made.append(f"{name} is below the horizon when it {words} ({altitude(local.request, second):.1f} degrees)")
        elif sun_altitude(local, second) > UP:
            made.append(f"the Sun is up when {name} {words} (altitude {sun_altitude(local, second):.1f} degrees)")
    return made


def typed(title: str, night: Night, local: Local, remarks: List[str]) -> str:
    """The star request as a person types it."""
    year, month, day, hour = local.instant
    off = ", ".join(f"{name} {units}" for name, units in local.off.items())
    request = local.request
    lines = [f"# {' '.join(title.split())}: {night.name} behind the Moon, places by Swiss Ephemeris, ephemeris time"]
    lines += [f"# fits within so many units of the hourly values: {off}", *(f"# {remark}" for remark in remarks)]
    lines += ["", f"instant {year:04}-{month:02}-{day:02} {hour:02}:00:00 ET", *utc_lines(local.instant), ""]
    for name, units in zip(NAMES, vars(request.elements).values()):
        lines.append(f"{name} {decimal(units, 8 if name[0] in 'xy' else 6)}")
    lines += [f"radius {decimal(request.radius, 8)}", "", *station_lines(request.station)]
    lines += [f"first {request.window.first}", f"last {request.window.last}", f"guard {request.guard}"]
    return "\n".join(lines) + "\n"


# ---- the command


def main():
    parser = argparse.ArgumentParser(
        prog="star.py", description=__doc__, formatter_class=argparse.RawDescriptionHelpFormatter
    )
    parser.add_argument("star", metavar="STAR", help="a name of Swiss Ephemeris' list, such as Aldebaran or ,alTau")
    parser.add_argument("date", metavar="DATE", help="YYYY-MM-DD, by universal time")
    parser.add_argument("latitude", metavar="LATITUDE", help="degrees, north positive, -90 to 90")
    parser.add_argument("longitude", metavar="LONGITUDE", help="degrees, east positive, -180 to 180")
    parser.add_argument("height", metavar="HEIGHT", nargs="?", default="0", help="metres, -500 to 9000 (default 0)")
    parser.add_argument("--title", default="Occultation", help="words for the first line of the request")
    parser.add_argument("--station", metavar="N", default="1", help="the station's number, 1 to 999 (default 1)")
    parser.add_argument("--radius", metavar="K", help="the Moon's in Earth radii, 0.272 to 0.273 (default 0.2725076)")
    parser.add_argument("--delta-t", metavar="S", help="ephemeris less universal time in seconds, -100 to 200")
    parser.add_argument("--guard", metavar="N", help="16 to 1000 units (default: the misfit of the fits, 16 at least)")
    given = arguments.parse(parser)
    on = arguments.day(given.date)
    place = (arguments.latitude(given.latitude), arguments.longitude(given.longitude), arguments.height(given.height))
    number = arguments.station_number(given.station)
    radius = arguments.number(given.radius, "radius", 0.272, 0.273, 8, "Earth radii") if given.radius else RADIUS
    guard = arguments.guard(given.guard) if given.guard else None
    delta_t = None if given.delta_t is None else arguments.delta_t(given.delta_t)
    night = night_of(given.star, on)
    if delta_t is None:
        delta_t = round(swiss_delta_t(night.instant) * 100)
    station = ukhtvaresh.Station(number, *place, delta_t)
    try:
        local = at_station(night, station, radius, guard)
    except ukhtvaresh.Refused as refused:
        raise Refusal(f"the library refuses the request: {refused}") from None
    remarks = remarks_on(local, night.name)
    at = moment(local.instant, local.closest(), delta_t)
    if at.date() != on:
        note(f"you asked for {on}; at this place the Moon is closest to {night.name} on {at.date()} at {at.time()} UT")
    for remark in remarks:
        note(remark)
    print(typed(given.title, night, local, remarks), end="")


if __name__ == "__main__":
    arguments.run("star.py", main)
