#!/usr/bin/env python3
"""From a date to a typed request: the elements of the eclipse of that day, for one station or a file of stations.

    python3 almanac/almanac.py 2024-04-08 32.7767 -96.7970 131 --title Dallas > dallas.txt
    target/bin/times < dallas.txt                            # its listing with clock times; or paste it into the page
    python3 almanac/almanac.py 2024-04-08 --csv stations.csv --folder requests
    python3 almanac/almanac.py 2024-04-08 --csv stations.csv --bytes | target/bin/stream > year.bin

LATITUDE is north, LONGITUDE east, in degrees (rounded to the sixth decimal); HEIGHT is in metres, 0 where it is left
out. The places of Sun and Moon come from the catalogue in almanac/catalogue, which has the eclipses from 1900 to 2100,
and for other years from Swiss Ephemeris; --source asks for one of them. The reference instant is the whole hour of
ephemeris time that is nearest to the station's greatest eclipse, and the window is the widest.

The request goes to standard output. Standard error has a note where the eclipse is on another day than the one asked,
and where it is not visible from the place.

Exit status: 0 done; 1 refused (a value out of its range, no eclipse on that day, a package that is missing); 2 usage.
"""

import argparse
import sys
from datetime import date, timedelta
from functools import lru_cache
from math import acos, degrees, sqrt
from pathlib import Path
from typing import List, NamedTuple, Optional, Tuple

import arguments
import leap_seconds
import stations
from arguments import Refusal, note
from catalogue.reader import DELTA_T_SOURCES, KINDS, Eclipse, eclipses
from places import HOURS, SOURCES, Instant, later, swiss_delta_t

try:
    from besselian import DOCUMENT_02, RADII, Made, Radii, decimal, ukhtvaresh
except ImportError as wrong:
    print(f"almanac: the library for Python is missing. {wrong}", file=sys.stderr)
    sys.exit(1)
from circumstances import Local, Tables, at_station, moment, partly_visible, why_not_visible

NAMES = "x0 x1 x2 x3 y0 y1 y2 y3 d0 d1 d2 l10 l11 l12 l20 l21 l22 mu0 mu1 mu2".split() + ["tan f1", "tan f2"]
ANGLES = ("d", "mu")
FAR = 1.7  # degrees from the Sun beyond which the Moon covers it nowhere
DAYS_AROUND = 1  # a place's own day may be the one before or after Greenwich's
FIRST_YEAR, LAST_YEAR = 1900, 2100  # of the catalogue, which has every eclipse of these years


# ---- the eclipse of a day


def separation(place) -> float:
    """The angle between the Moon's centre and the Sun's, seen from the Earth's centre, in degrees."""

    def size(v):
        return sqrt(sum(c * c for c in v))

    cosine = sum(a * b for a, b in zip(place.sun, place.moon)) / size(place.sun) / size(place.moon)
    return degrees(acos(min(1.0, cosine)))


def conjunction(source, on: Tuple[int, int, int]) -> Instant:
    """The hour of the day, or of the days beside it, at which Sun and Moon are closest; Refusal without an eclipse."""
    closest = None
    for start in range(-24 * DAYS_AROUND - HOURS[0], 24 * (1 + DAYS_AROUND), len(HOURS)):
        middle = later((*on, 0), start)
        for hour, place in zip(HOURS, source(middle)):
            if closest is None or separation(place) < closest[0]:
                closest = (separation(place), later(middle, hour))
    if closest[0] > FAR:
        raise Refusal(no_eclipse(date(*on), f"the Moon comes no closer to the Sun than {closest[0]:.1f} degrees"))
    return closest[1]


def no_eclipse(on: date, reason: str) -> str:
    """The words for a day without an eclipse, with the eclipses before and after it where the catalogue has them."""
    dates = [date(*eclipse.date) for eclipse in eclipses()]
    before, after = [day for day in dates if day < on][-1:], [day for day in dates if day > on][:1]
    near = f". The nearest eclipses are on {before[0]} and {after[0]} (universal time)" if before and after else ""
    return f"no solar eclipse on {on}, the day before or the day after: {reason}{near}"


def in_catalogue(on: date) -> Optional[Eclipse]:
    """The catalogue's eclipse of a day or of the days beside it."""
    around = timedelta(days=DAYS_AROUND)
    return next((e for e in eclipses() if on - around <= date(*e.date) <= on + around), None)


class Day(NamedTuple):
    """The eclipse of a day: its tables, delta T in hundredths of a second, and where both come from."""

    tables: Tables
    delta_t: int
    source: str
    delta_t_source: str
    name: str


def eclipse_of(on: date, source: Optional[str], delta_t: Optional[int]) -> Day:
    """The eclipse of a day from the source that is asked for; where none is, from the catalogue if it has the year."""
    if source == "catalogue" and not FIRST_YEAR <= on.year <= LAST_YEAR:
        raise Refusal(
            f"{on} is outside the catalogue's years, {FIRST_YEAR} to {LAST_YEAR}: "
            "use --source swiss (Debian's packages swetest and swe-basic-data)"
        )
    if source == "catalogue" or (source is None and FIRST_YEAR <= on.year <= LAST_YEAR):
        eclipse = in_catalogue(on)
        if eclipse is None:
            raise Refusal(no_eclipse(on, "the catalogue has none"))
        name = f"{KINDS[eclipse.kind]} eclipse of %04d-%02d-%02d" % eclipse.date
        by = "given" if delta_t is not None else f"Swiss Ephemeris', {DELTA_T_SOURCES[eclipse.delta_t_source]}"
        value = eclipse.delta_t if delta_t is None else delta_t
        return Day(Tables.of_catalogue(eclipse), value, "the catalogue (Swiss Ephemeris)", by, name)
    places = lru_cache(None)(SOURCES[source or "swiss"])
    instant = conjunction(places, (on.year, on.month, on.day))
    by = "given" if delta_t is not None else "Swiss Ephemeris'"
    if delta_t is None:
        value = round(swiss_delta_t(instant) * 100)
        if not -10_000 <= value <= 20_000:
            raise Refusal(f"delta t {value / 100} of {on} is outside its range, -100 to 200 seconds: give --delta-t")
    else:
        value = delta_t
    name = "eclipse of %04d-%02d-%02d" % instant[:3]
    return Day(Tables.of_source(places, instant), value, source or "swiss", by, name)


def request_for(
    source, on: Tuple[int, int, int], station: ukhtvaresh.Station, guard=None, radii: Radii = DOCUMENT_02
) -> Tuple[Instant, Made, ukhtvaresh.Request]:
    """The elements of the eclipse of a day from a source of places, and the station's request."""
    local = at_station(Tables.of_source(source, conjunction(source, on)), station, guard, radii)
    return local.instant, local.made, local.request


# ---- the typed text


def utc_lines(instant: Instant) -> List[str]:
    """The line `tai-utc`, from which UTC is printed; after the end of the list of leap seconds with a remark. None before 1972."""
    on = date(*instant[:3])
    number = leap_seconds.tai_utc(on)
    if number is None:
        return []
    presumed = f" # presumed: the list of leap seconds ends on {leap_seconds.kept()[0]}" if leap_seconds.expired(on) else ""
    return [f"tai-utc {number}{presumed}"]


def typed(
    title: str,
    source: str,
    instant: Instant,
    made: Made,
    request: ukhtvaresh.Request,
    remarks: Tuple[str, ...] = (),
) -> str:
    """The request as a person types it."""
    year, month, day, hour = instant
    off = ", ".join(f"{name} {units}" for name, units in made.off.items())
    lines = [f"# {' '.join(title.split())}: elements from apparent places of Sun and Moon by {source}, ephemeris time"]
    lines += [f"# fits within so many units of the hourly values: {off}"]
    lines += [f"# {remark}" for remark in remarks]
    lines += ["", f"instant {year:04}-{month:02}-{day:02} {hour:02}:00:00 ET", *utc_lines(instant), ""]
    for name, units in zip(NAMES, vars(made.elements).values()):
        lines.append(f"{name} {decimal(units, 6 if name.rstrip('012') in ANGLES else 8)}")
    lines += ["", *station_lines(request.station)]
    lines += [f"first {request.window.first}", f"last {request.window.last}", f"guard {request.guard}"]
    return "\n".join(lines) + "\n"


def station_lines(station: ukhtvaresh.Station) -> List[str]:
    """The lines of a station in a typed request, and an empty one."""
    return [
        f"station {station.number}",
        f"latitude {decimal(station.latitude, 6)}",
        f"longitude {decimal(station.longitude, 6)}",
        f"height {station.height}",
        f"delta t {decimal(station.delta_t, 2)}",
        "",
    ]


# ---- the command


def day_note(asked: date, day: Day, local: Local) -> Optional[str]:
    """Which day the eclipse is on, where the station has it on another day than the one asked."""
    at = moment(local.instant, local.closest().second, local.request.station.delta_t)
    if at.date() == asked:
        return None
    return f"you asked for {asked}; at this place the {day.name} is greatest on {at.date()} at {at.time()} UT"


def visible_remarks(local: Local) -> List[str]:
    """What is not visible of an eclipse from its station, in sentences."""
    reason = why_not_visible(local)
    if reason:
        return [f"the eclipse is not visible from this place: {reason}"]
    below = partly_visible(local)
    return [f"the Sun is below the horizon at {', '.join(below)}"] if below else []


def made_for(
    asked: date, day: Day, line: stations.Line, guard: Optional[int], radii: str
) -> Tuple[Local, str, List[str]]:
    """The request of a station, its typed text, and the notes for the person who asks."""
    station = ukhtvaresh.Station(line.station, line.latitude, line.longitude, line.height, day.delta_t)
    local = at_station(day.tables, station, guard, RADII[radii])
    visible = visible_remarks(local)
    which = day_note(asked, day, local)
    remarks = [f"{day.name}; radii {radii}; delta t {day.delta_t_source}", *visible]
    text = typed(line.name, day.source, local.instant, local.made, local.request, tuple(remarks))
    return local, text, ([which] if which else []) + visible


def arguments_of(words: Optional[List[str]] = None) -> Tuple[argparse.ArgumentParser, argparse.Namespace]:
    parser = argparse.ArgumentParser(
        prog="almanac.py", description=__doc__, formatter_class=argparse.RawDescriptionHelpFormatter
    )
    parser.add_argument("date", metavar="DATE", help="YYYY-MM-DD, by universal time")
    parser.add_argument("latitude", metavar="LATITUDE", nargs="?", help="degrees, north positive, -90 to 90")
    parser.add_argument("longitude", metavar="LONGITUDE", nargs="?", help="degrees, east positive, -180 to 180")
    parser.add_argument("height", metavar="HEIGHT", nargs="?", help="metres, -500 to 9000 (default 0)")
    parser.add_argument("--title", help="words for the first line of the request")
    parser.add_argument("--station", metavar="N", help="the station's number, 1 to 999 (default 1)")
    parser.add_argument(
        "--source",
        choices=["catalogue", *SOURCES],
        help="where the places of Sun and Moon come from (default: catalogue from 1900 to 2100, else swiss)",
    )
    parser.add_argument(
        "--radii", choices=RADII, default="document02", help="radii of Sun and Moon (default document02)"
    )
    parser.add_argument("--delta-t", metavar="S", help="ephemeris less universal time in seconds, -100 to 200")
    parser.add_argument("--guard", metavar="N", help="16 to 1000 units (default: the misfit of the fits, 16 at least)")
    parser.add_argument(
        "--csv",
        metavar="FILE",
        help="a request for each line of a file of stations, in place of LATITUDE LONGITUDE; its first line names the "
        "columns: station,latitude,longitude and, if wanted, height,name",
    )
    parser.add_argument("--folder", metavar="FOLDER", help="with --csv: write NUMBER.txt for each station there")
    parser.add_argument("--bytes", action="store_true", help="write the requests' bytes, for the program stream")
    return parser, arguments.parse(parser, words)


def main():
    parser, given = arguments_of()
    if given.csv and (given.latitude or given.station or given.title):
        parser.error("--csv takes stations, numbers and names from its file: leave out LATITUDE, --station and --title")
    if not given.csv and (given.latitude is None or given.longitude is None):
        parser.error("LATITUDE and LONGITUDE are needed, or --csv FILE")
    if given.folder and (not given.csv or given.bytes):
        parser.error("--folder is for the texts of --csv")
    asked = arguments.day(given.date)
    delta_t = None if given.delta_t is None else arguments.delta_t(given.delta_t)
    guard = None if given.guard is None else arguments.guard(given.guard)
    if given.csv:
        lines = stations.read(given.csv)
    else:
        place = (arguments.latitude(given.latitude), arguments.longitude(given.longitude))
        height = arguments.height(given.height or "0")
        number = arguments.station_number(given.station or "1")
        lines = [stations.Line(number, *place, height, given.title or "Eclipse")]
    day = eclipse_of(asked, given.source, delta_t)
    on = date(*day.tables.instant[:3])
    if leap_seconds.expired(on):
        note(f"the list of leap seconds ends on {leap_seconds.kept()[0]}: what the request says of UTC is presumed")
    if given.folder:
        Path(given.folder).mkdir(parents=True, exist_ok=True)
    for place, line in enumerate(lines):
        local, text, notes = made_for(asked, day, line, guard, given.radii)
        for words in notes:
            note(f"station {line.station}, {line.name}: {words}" if given.csv else words)
        if given.bytes:
            sys.stdout.buffer.write(local.request.to_bytes())
        elif given.folder:
            Path(given.folder, f"{line.station}.txt").write_text(text, "utf-8")
        else:
            print(("\n" if place else "") + text, end="")
    if given.folder:
        print(f"{len(lines)} requests in {given.folder}", file=sys.stderr)


if __name__ == "__main__":
    try:
        arguments.run("almanac.py", main)
    except ukhtvaresh.Refused as refused:
        print(f"almanac.py: the library refuses the request: {refused}", file=sys.stderr)
        sys.exit(1)
