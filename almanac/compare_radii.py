#!/usr/bin/env python3
"""How many seconds lie between the contacts by `--radii document02` and by `--radii iau`, at random places.

    python3 almanac/compare_radii.py [PLACES]

It takes twelve eclipses of the catalogue, of all kinds. First and last contacts are those of so many random places
(100) each that have an eclipse; second and third ones those of as many close to the point of greatest eclipse where it
is central. Contacts with the Sun below the horizon do not count. The program needs the library for Python alone.
Contacts are taken between their two seconds, where the library's u, v and L have the edge.
"""

import random
import sys
from math import asin, cos, degrees, radians, sin, sqrt

from besselian import RADII, ukhtvaresh
from catalogue.reader import eclipses
from circumstances import UP, Tables, altitude, at_station

DATES = [(1919, 5, 29), (1935, 1, 5), (1954, 6, 30), (1986, 10, 3), (2012, 5, 20), (2013, 11, 3)]
DATES += [(2014, 4, 29), (2017, 8, 21), (2022, 10, 25), (2026, 8, 12), (2061, 4, 20), (2100, 9, 4)]
SEED = 42


def contacts(local):
    """The four contacts as seconds from the reference instant with fractions; None for one that is not there."""
    request = local.request.to_bytes()
    made = [None] * 4
    for entry in local.entries:
        if isinstance(entry, (ukhtvaresh.Enter, ukhtvaresh.Leave)):
            inner = entry.phase is ukhtvaresh.Phase.CENTRAL
            seconds = [ukhtvaresh.second(request, second) for second in (entry.from_, entry.to)]
            first, last = (sqrt(at.u**2 + at.v**2) - (abs(at.l2) if inner else at.l1) for at in seconds)
            place = (1 if inner else 0) if isinstance(entry, ukhtvaresh.Enter) else (2 if inner else 3)
            made[place] = entry.from_ + (entry.to - entry.from_) * first / (first - last)
    return made


def somewhere(eclipse, within):
    """A random place, evenly on the sphere, within so many degrees of the point of greatest eclipse."""
    there = radians(eclipse.latitude / 10), radians(eclipse.longitude / 10)
    while True:
        latitude, longitude = asin(random.uniform(-1, 1)), radians(random.uniform(-180, 180))
        apart = sin(latitude) * sin(there[0]) + cos(latitude) * cos(there[0]) * cos(longitude - there[1])
        if apart >= cos(radians(within)):
            place = (round(degrees(angle) * 10**6) for angle in (latitude, longitude))
            return ukhtvaresh.Station(1, *place, 0, eclipse.delta_t)


def words(values):
    size = sorted(map(abs, values))
    middle, most = size[len(size) // 2], size[len(size) * 99 // 100]
    return f"{len(values)}: median {middle:.2f} s, 99 in 100 below {most:.2f} s"


def main():
    random.seed(SEED)
    count = int(sys.argv[1]) if len(sys.argv) > 1 else 100
    off = [[], [], [], []]
    only = [0, 0]
    for eclipse in (e for e in eclipses() if e.date in DATES):
        tables = Tables.of_catalogue(eclipse)
        wide = 180 if eclipse.magnitude > 1000 else 8
        for within, tries, counted in ((wide, count, (0, 3)), (0.7, 0 if eclipse.kind == "P" else count, (1, 2))):
            while tries:
                station = somewhere(eclipse, within)
                sheets = [at_station(tables, station, 32, RADII[name]) for name in ("document02", "iau")]
                if sheets[0].instant != sheets[1].instant:
                    continue
                both = list(map(contacts, sheets))
                if not any(contact is not None for contact in both[0]):
                    continue
                tries -= 1
                for k in counted:
                    one, two = both[0][k], both[1][k]
                    if one is not None and two is not None:
                        if altitude(sheets[0].request, one) >= UP:
                            off[k].append(two - one)
                    elif one is not None or two is not None:
                        only[k in (1, 2)] += 1
    print("contacts by --radii iau less those by --radii document02:")
    for name, values in zip(("first ", "second", "third ", "last  "), off):
        print(f"  {name} contact, mean {sum(values) / len(values):+.2f} s; sizes of {words(values)}")
    print(f"  first and last together, sizes of {words(off[0] + off[3])}")
    print(f"  second and third together, sizes of {words(off[1] + off[2])}")
    print(f"  contacts that one of the two alone has: {only[0]} first or last, {only[1]} second or third")


if __name__ == "__main__":
    main()
