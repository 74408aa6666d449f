#!/usr/bin/env python3
"""Contacts from the catalogue's rows by the library beside a direct computation in doubles from the same places.

    python3 almanac/compare_rows.py [--places N] [--seed N] [--radii document02|iau]

Three eclipses of each kind (partial, annular, total, hybrid) are drawn from the catalogue, and places on the Earth at
random, so that the Sun is up when the eclipse is greatest there. The library makes the elements from seven rows
(`ukhtvaresh_elements`) and the sheet; a contact is where the shadow's distance less its radius (`ukhtvaresh_second`)
changes its sign, by straight lines between two seconds. Beside it stands the plain computation: Sun and Moon from all
nine rows, by the polynomial through them, seen from the station; a contact is where their separation is the sum or the
difference of the semidiameters. A graze is a contact at which the station crosses the edge at less than a tenth of the
speed at which it moves in the shadow.

Exit status: 0 where contacts that are no graze differ by at most 0.01 s in the median and 0.05 s at 99 in 100, and each
fit is accepted by `ukhtvaresh_fit` within its misfit; else 1.
"""

import argparse
import random
import sys
from math import asin, atan2, cos, degrees, hypot, radians, sin, sqrt
from typing import Iterator, List, NamedTuple, Tuple

import bessel
from besselian import RADII, Radii, elements_of_rows, ukhtvaresh
from catalogue.reader import REACH, Eclipse, eclipses
from circumstances import Local, Tables, altitude, at_station
from places import UNIT

MEDIAN, HIGH = 0.01, 0.05  # seconds
GRAZE = 0.1  # of the speed in the shadow
HOURS = range(-4, 5)


# ---- in doubles


def through(values: List[float], hours: float) -> float:
    """The polynomial through the values at the nine hours (Lagrange)."""
    total = 0.0
    for i, value in zip(HOURS, values):
        weight = 1.0
        for j in HOURS:
            if i != j:
                weight *= (hours - j) / (i - j)
        total += weight * value
    return total


class Direct:
    """An eclipse seen from a station, in floating point."""

    def __init__(self, eclipse: Eclipse, station: ukhtvaresh.Station, radii: Radii):
        self.columns = [[row[k] / UNIT for row in eclipse.rows] for k in range(6)]
        angles = [row[6] for row in eclipse.rows]
        for i in range(1, len(angles)):
            angles[i] += 360_000_000 * round((angles[i - 1] + 15_041_069 - angles[i]) / 360_000_000)
        self.sidereal = [angle / 10**6 for angle in angles]
        self.place = bessel.place(station.latitude / 10**6, station.longitude / 10**6, station.height)
        self.turned = bessel.TURN * station.delta_t / 100
        self.radii = [radius / UNIT for radius in (radii.sun, radii.penumbra, radii.central)]

    def beyond(self, second: float, central: bool) -> float:
        """The separation less the sum, or less the size of the difference, of the semidiameters, in radians.

        second: from the middle of the nine hours.
        """
        hours = second / 3600
        angle = radians(through(self.sidereal, hours) + self.place.longitude - self.turned)
        here = (self.place.r * cos(angle), self.place.r * sin(angle), self.place.p)
        body = [through(column, hours) for column in self.columns]
        sun, moon = ([c - h for c, h in zip(body[k : k + 3], here)] for k in (0, 3))
        far, near = (sqrt(sum(c * c for c in vector)) for vector in (sun, moon))
        cross = (
            sun[1] * moon[2] - sun[2] * moon[1],
            sun[2] * moon[0] - sun[0] * moon[2],
            sun[0] * moon[1] - sun[1] * moon[0],
        )
        separation = atan2(sqrt(sum(c * c for c in cross)), sum(a * b for a, b in zip(sun, moon)))
        solar = asin(self.radii[0] / far)
        if central:
            return separation - abs(solar - asin(self.radii[2] / near))
        return separation - (solar + asin(self.radii[1] / near))

    def contact(self, near: float, central: bool, reach: float = 5.0) -> float:
        """The second at which that changes its sign, within `reach` of a second."""
        low, high = near - reach, near + reach
        before = self.beyond(low, central) < 0
        if before == (self.beyond(high, central) < 0):
            raise ValueError("no contact is near")
        while high - low > 1e-7:
            middle = (low + high) / 2
            low, high = (middle, high) if (self.beyond(middle, central) < 0) == before else (low, middle)
        return (low + high) / 2


# ---- by the library


class Contact(NamedTuple):
    """A contact by the library: its second, whether it is the central cone's, and how steeply the edge is crossed."""

    second: float
    central: bool
    steep: float  # speed across the edge over speed in the shadow


def by_library(local: Local) -> Iterator[Contact]:
    request = local.request.to_bytes()

    def at(second: int, central: bool) -> Tuple[float, float, float]:
        found = ukhtvaresh.second(request, second)
        return hypot(found.u, found.v) - (abs(found.l2) if central else found.l1), found.u, found.v

    for entry in local.entries:
        if not isinstance(entry, (ukhtvaresh.Enter, ukhtvaresh.Leave)):
            continue
        central = entry.phase is ukhtvaresh.Phase.CENTRAL
        low, high = entry.from_, entry.to
        before = at(low, central)[0] < 0
        while high - low > 1:
            middle = (low + high) // 2
            low, high = (middle, high) if (at(middle, central)[0] < 0) == before else (low, middle)
        (a, u, v), (b, next_u, next_v) = at(low, central), at(high, central)
        yield Contact(low + a / (a - b), central, abs(b - a) / hypot(next_u - u, next_v - v))


# ---- both


def drawn(rng: random.Random) -> List[Eclipse]:
    """Three of each kind."""
    return [eclipse for kind in "PATH" for eclipse in rng.sample([e for e in eclipses() if e.kind == kind], 3)]


def locals_of(eclipse: Eclipse, count: int, rng: random.Random, radii: Radii) -> Iterator[Local]:
    """The eclipse at so many random places at which it is seen."""
    tables = Tables.of_catalogue(eclipse)
    while count:
        place = round(degrees(asin(rng.uniform(-1, 1))) * 10**6), rng.randint(-180_000_000, 180_000_000)
        station = ukhtvaresh.Station(1, *place, rng.randrange(3001), eclipse.delta_t)
        local = at_station(tables, station, radii=radii)
        entries = [e for e in local.entries if isinstance(e, (ukhtvaresh.Enter, ukhtvaresh.Leave))]
        if entries and altitude(local.request, local.closest().second) > 0:
            count -= 1
            yield local


def fits_accepted(eclipse: Eclipse) -> int:
    """How many fits of the three reference hours wish 14's rule accepts within their misfits; Refused where one is not."""
    count = 0
    for hour in range(-REACH, REACH + 1):
        table, sidereal = eclipse.seven(hour)
        made = elements_of_rows(table, sidereal)
        e, rows = made.elements, ukhtvaresh.from_tables([ukhtvaresh.Row(*row) for row in table])
        fits = {
            "x": [e.x0, e.x1, e.x2, e.x3],
            "y": [e.y0, e.y1, e.y2, e.y3],
            "l1": [e.l1_0, e.l1_1, e.l1_2, 0],
            "l2": [e.l2_0, e.l2_1, e.l2_2, 0],
        }
        for name, coefficients in fits.items():
            ukhtvaresh.fit(coefficients, [getattr(row, name) for row in rows], made.off[name])
            count += 1
    return count


def share(values: List[float], part: float) -> float:
    return sorted(values)[min(len(values) - 1, int(part * len(values)))]


def main() -> int:
    parser = argparse.ArgumentParser(description=__doc__, formatter_class=argparse.RawDescriptionHelpFormatter)
    parser.add_argument("--places", type=int, default=100, help="places for each eclipse (default 100)")
    parser.add_argument("--seed", type=int, default=1)
    parser.add_argument("--radii", choices=RADII, default="document02")
    given = parser.parse_args()
    rng, radii = random.Random(given.seed), RADII[given.radii]
    plain: List[float] = []
    grazing: List[float] = []
    accepted, lost = 0, 0
    for eclipse in drawn(rng):
        accepted += fits_accepted(eclipse)
        own: List[float] = []
        for local in locals_of(eclipse, given.places, rng, radii):
            direct = Direct(eclipse, local.request.station, radii)
            # the reference instant of the request may be another hour than the middle of the rows
            hours = next(h for h in range(-REACH, REACH + 1) if Tables.of_catalogue(eclipse).made(h, radii).elements == local.made.elements)
            for contact in by_library(local):
                try:
                    apart = abs(direct.contact(contact.second + 3600 * hours, contact.central) - 3600 * hours - contact.second)
                except ValueError:
                    lost += 1
                    continue
                (own if contact.steep >= GRAZE else grazing).append(apart)
        plain += own
        date = "%04d-%02d-%02d" % eclipse.date
        print(f"{date} {eclipse.kind}  {len(own):4} contacts  median {share(own, 0.5):.4f}  99 in 100 {share(own, 0.99):.4f}  largest {max(own):.4f} s")
    middle, high = share(plain, 0.5), share(plain, 0.99)
    print(f"{len(plain)} contacts that are no graze: median {middle:.4f} s, 99 in 100 {high:.4f} s, largest {max(plain):.4f} s")
    if grazing:
        print(f"{len(grazing)} grazing contacts: median {share(grazing, 0.5):.4f} s, largest {max(grazing):.4f} s; {lost} more than 5 s apart")
    print(f"{accepted} fits of x, y, l1, l2 are accepted by ukhtvaresh_fit within their misfits")
    return 0 if middle <= MEDIAN and high <= HIGH else 1


if __name__ == "__main__":
    sys.exit(main())
