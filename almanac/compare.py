#!/usr/bin/env python3
"""Beside Swiss Ephemeris' local circumstances: contacts, greatest eclipse and magnitude, ours made from its own places.

    /usr/bin/python3 almanac/compare.py --places 100 --eclipses 12 --seed 38     drawn places of drawn eclipses: tables
    /usr/bin/python3 almanac/compare.py                                          ten towns, three eclipses: each contact

It needs swetest, swe-basic-data, libswe-dev and python3-erfa (Debian), a C compiler, and the library for Python. Ours
are made twice from the same places: with the radii of document 02, and with those of Swiss Ephemeris (Sun 696,000 km;
Moon 1,738.15 km at first and last contact, 0.99916 of it at second and third). What remains of the differences in the
second is not the radii: see `observer.py`. The last part compares the other sources of places with Swiss Ephemeris. How
places are drawn: `drawn.py`.
"""

import argparse
import random
import subprocess
import sys
import time
from dataclasses import replace
from functools import lru_cache
from math import cos, degrees, sqrt

import drawn
from almanac import request_for
from besselian import ukhtvaresh, with_radii
from moves import spread
from observer import angles
from places import SOURCES, julian_day

PLACES = [  # name, latitude, longitude, height
    ("Hopkinsville", 36.8656, -87.4886, 165),
    ("Carbondale", 37.7273, -89.2168, 126),
    ("Salem", 44.9429, -123.0351, 47),
    ("Casper", 42.8501, -106.3252, 1560),
    ("Charleston", 32.7765, -79.9311, 6),
    ("Albuquerque", 35.0844, -106.6504, 1619),
    ("San Antonio", 29.4241, -98.4936, 198),
    ("Dallas", 32.7767, -96.7970, 131),
    ("Cleveland", 41.4993, -81.6944, 199),
    ("New York", 40.7128, -74.0060, 10),
]
ECLIPSES = [(2017, 8, 21), (2023, 10, 14), (2024, 4, 8)]
SUN, MOON, INNER = 696_000.0, 1_738.15, 1_738.15 * 0.99916  # km
NAMES = ("1st", "2nd", "3rd", "4th")


def when_loc(lines):
    """What Swiss Ephemeris says of each line, an eclipse and a place."""
    ran = subprocess.run([drawn.program()], input="".join(lines), capture_output=True, text=True, check=True)
    return [list(map(float, line.split())) for line in ran.stdout.splitlines()]


def swiss():
    """What Swiss Ephemeris says of each of the three eclipses and the ten places."""
    return when_loc(f"{y} {m} {d} 6 {lon} {lat} {height}\n" for y, m, d in ECLIPSES for _, lat, lon, height in PLACES)


def contacts(request):
    """From and to of the four contacts, in ephemeris seconds, and the closest entry; None for a contact that is not
    there."""
    made = [None] * 4
    for entry in ukhtvaresh.read(ukhtvaresh.sheet(request.to_bytes())):
        if isinstance(entry, (ukhtvaresh.Enter, ukhtvaresh.Leave)):
            inner = entry.phase is ukhtvaresh.Phase.CENTRAL
            made[
                (1 if inner else 0) if isinstance(entry, ukhtvaresh.Enter) else (2 if inner else 3)
            ] = (entry.from_, entry.to)
        if isinstance(entry, ukhtvaresh.Closest):
            closest = entry
    return made, closest


def clock(days):
    tenths = round(days * 864000)
    return f"{tenths // 36000:02}:{tenths // 600 % 60:02}:{tenths // 10 % 60:02}.{tenths % 10}"


def moment(request, contact, inner):
    """A contact to a part of a second: between its two seconds, where the library's u, v and L have the edge if they
    go evenly."""
    def outside(at):
        second = ukhtvaresh.second(request.to_bytes(), at)
        return sqrt(second.u**2 + second.v**2) - (abs(second.l2) if inner else second.l1)

    first, last = map(outside, contact)
    return contact[0] + (contact[1] - contact[0]) * first / (first - last)


def written(date):
    return "%04d-%02d-%02d" % date


def summary(values):
    mean = sum(values) / len(values)
    return f"{len(values):3} from {min(values):+.2f} to {max(values):+.2f} s, mean {mean:+.2f}"


def their_radii(elements, places):
    """The elements with Swiss Ephemeris' radii: the larger Moon throughout; the smaller one for the central cone."""
    outer, inner = (with_radii(elements, places, SUN, moon) for moon in (MOON, INNER))
    return outer, replace(outer, l2_0=inner.l2_0, l2_1=inner.l2_1, l2_2=inner.l2_2, tan_f2=inner.tan_f2)


def radii(said):
    """Contacts and magnitudes of both, place by place."""
    found = {"document 02's radii": ([], [], []), "their radii": ([], [], [])}
    ours_took, dated_took, theirs_took = [], [], []
    for date in ECLIPSES:
        print(
            f"\n{written(date)}: universal time by Swiss Ephemeris; in brackets theirs less ours, s, "
            "with document 02's radii and with theirs"
        )
        for number, (name, latitude, longitude, height) in enumerate(PLACES, 1):
            *given, greatest, magnitude, _, delta_t, took = next(said)[:9]
            station = ukhtvaresh.Station(
                number, round(latitude * 10**6), round(longitude * 10**6), height, round(delta_t * 100)
            )
            began = time.perf_counter()
            instant, made, request = request_for(SOURCES["swiss"], date, station, guard=16)
            dated_took.append(time.perf_counter() - began)
            theirs_took.append(took / 10**6)
            began = time.perf_counter()
            for _ in range(20):
                ukhtvaresh.sheet(request.to_bytes())
            ours_took.append((time.perf_counter() - began) / 20)
            outer, own = their_radii(made.elements, SOURCES["swiss"](instant))
            zero = instant[3] * 3600 - delta_t  # universal time of second 0
            asked = (request, replace(request, elements=own))
            sheets = [contacts(each) for each in asked]
            line = f"  {name:13}"
            for k, contact in enumerate(given):
                if any((contact == 0) != (seen[k] is None) for seen, _ in sheets):
                    sys.exit(f"{name}: contact {NAMES[k]} is in one of the two only")
                if contact == 0:
                    continue
                off = [
                    contact * 86400 - zero - moment(each, seen[k], k in (1, 2)) for each,
                    (seen, _) in zip(asked, sheets)
                ]
                for group, value in zip(found.values(), off):
                    group[k in (1, 2)].append(value)
                line += f"  {NAMES[k]} {clock(contact)} [{off[0]:+.2f} {off[1]:+.2f}]"
            # their magnitude has the larger Moon throughout
            by_outer = contacts(replace(request, elements=outer))[1]
            less = [magnitude - closest.magnitude / 1e6 for closest in (sheets[0][1], by_outer)]
            for group, value in zip(found.values(), less):
                group[2].append(value)
            later = greatest * 86400 - zero - sheets[0][1].second
            print(f"{line}  greatest {clock(greatest)} [{later:+.1f}] {magnitude:.5f} [{less[0]:+.5f} {less[1]:+.5f}]")
    print("\nTheirs less ours")
    for name, (outer, inner, magnitude) in found.items():
        print(f"  {name:20} first and last contacts {summary(outer)}; second and third {summary(inner)};", end=" ")
        print(f"magnitude from {min(magnitude):+.5f} to {max(magnitude):+.5f}")
    middle = [sorted(times)[len(times) // 2] * 1000 for times in (theirs_took, ours_took, dated_took)]
    print(
        "\nMedian times: swe_sol_eclipse_when_loc %.2f ms; our sheet of 21,601 seconds %.2f ms;" % tuple(middle[:2]),
        end=" "
    )
    print("ours from the date on, with swetest run some fifteen times, %.0f ms" % middle[2])


def sources():
    """The other sources against Swiss Ephemeris: the Moon's place against the Sun's, and what it makes of the
    contacts of ten places."""
    print(
        "\nOther sources against Swiss Ephemeris: the Moon less the Sun at the middle hour, "
        "then the contacts of the ten places"
    )
    for name in ("moshier", "erfa"):
        for date in ECLIPSES:
            off, contact_off = None, []
            for number, (_, latitude, longitude, height) in enumerate(PLACES, 1):
                station = ukhtvaresh.Station(number, round(latitude * 10**6), round(longitude * 10**6), height, 6900)
                instant, _, request = request_for(SOURCES["swiss"], date, station, guard=16)
                try:
                    other_instant, _, other = request_for(SOURCES[name], date, station, guard=16)
                    places = [SOURCES[source](instant)[3] for source in ("swiss", name)]
                except ImportError:
                    print(f"  {name}: not here (python3-erfa needs /usr/bin/python3)")
                    return
                if off is None:
                    (swiss_ra, swiss_dec), (ra, dec) = (
                        tuple(m - s for m, s in zip(angles(p.moon), angles(p.sun))) for p in places
                    )
                    off = ((ra - swiss_ra) * cos(angles(places[0].moon)[1]), dec - swiss_dec)
                if other_instant != instant:
                    continue
                for k, (one, two) in enumerate(zip(contacts(request)[0], contacts(other)[0])):
                    if one and two:
                        contact_off.append(moment(other, two, k in (1, 2)) - moment(request, one, k in (1, 2)))
            seconds = [degrees(angle) * 3600 for angle in off]
            print(
                f"  {name:8} {written(date)}: {seconds[0]:+.2f}\" east, {seconds[1]:+.2f}\" north; "
                f"contacts {summary(contact_off)}"
            )


WHERE = {
    "anywhere": "drawn anywhere",
    "grazing": "where the magnitude is at most 0.01",
    "path": "about the central path",
}
ROWS = [
    "first and last, document 02's radii",
    *(f"first and last, the same {where}" for where in WHERE.values()),
    "first and last, their radii",
    "second and third, document 02's radii",
    "second and third, their radii",
    "greatest eclipse less our closest second",
    *(
        f"{source}, {pair}"
        for source in ("moshier", "erfa")
        for pair in ("first and last", "first and last, the same drawn anywhere", "second and third")
    ),
]


class Differences:
    """Differences by what they are of, and what only one of the two has."""

    def __init__(self):
        self.values, self.one_only = {}, {}

    def add(self, name, value):
        self.values.setdefault(name, []).append(value)

    def contacts(self, name, one, two):
        """Four contacts of each, None for none; `name` has a place for the pair of contacts."""
        for k, (first, second) in enumerate(zip(one, two)):
            pair = name.format("second and third" if k in (1, 2) else "first and last")
            if first is not None and second is not None:
                self.add(pair, first - second)
            elif first is not None or second is not None:
                self.one_only[pair] = self.one_only.get(pair, 0) + 1

    def table(self, heading, scale=1.0):
        print(f"\n| {heading} | count | median | 9 in 10 | 99 in 100 | worst | mean, signed | in one only |")
        print("|---|---|---|---|---|---|---|---|")
        for name, values in sorted(self.values.items(), key=lambda item: ROWS.index(item[0]) if item[0] in ROWS else 0):
            mean = sum(values) / len(values) * scale
            print(f"| {name} | {len(values)} | {spread(values, scale)} | {mean:+.2g} | {self.one_only.get(name, 0)} |")


def refined(request):
    """The four contacts to a part of a second, and the closest entry."""
    found, closest = contacts(request)
    return [each and moment(request, each, k in (1, 2)) for k, each in enumerate(found)], closest


def drawn_places(count, many, seed):
    """Drawn places of drawn eclipses: one table of all differences from Swiss Ephemeris, then its own failures."""
    rng, sources = random.Random(seed), drawn.sources()
    source = sources["swiss"]
    asked = [(eclipse, at) for eclipse in drawn.eclipses(many, rng) for at in drawn.places(eclipse, count, rng, source)]
    said = when_loc(
        "%d %d %d %.6f" % (*eclipse.date, eclipse.hour - 12) + f" {at.longitude} {at.latitude} {at.height}\n"
        for eclipse, at in asked
    )
    radii = lru_cache(maxsize=None)(lambda elements, instant: their_radii(elements, source(instant)))
    theirs_less_ours, magnitudes, others, failures = Differences(), Differences(), Differences(), []
    for number, ((eclipse, place), line) in enumerate(zip(asked, said)):
        given, (greatest, magnitude, _, delta_t, _) = line[:4], line[4:9]
        station = drawn.station(place, 1 + number % 999, delta_t)
        instant, made, request = request_for(source, eclipse.date, station, guard=16)
        # universal time of second 0, counted as Swiss Ephemeris' times are, from 0h of the eclipse's date
        days = round(julian_day(*instant[:3]) - julian_day(*eclipse.date))
        zero = days * 86400 + instant[3] * 3600 - delta_t
        by_places = [at * 86400 - zero if at else None for at in line[9:13]]
        ours, closest = refined(request)
        outer, own = radii(made.elements, instant)
        theirs_less_ours.contacts("{}, document 02's radii", by_places, ours)
        kept = [at if k in (0, 3) else None for k, at in enumerate(by_places)]
        ours_kept = [at if k in (0, 3) else None for k, at in enumerate(ours)]
        theirs_less_ours.contacts("{}, the same " + WHERE[place.kind], kept, ours_kept)
        theirs_less_ours.contacts("{}, their radii", by_places, refined(replace(request, elements=own))[0])
        theirs_less_ours.add("greatest eclipse less our closest second", line[13] * 86400 - zero - closest.second)
        off = [at * 86400 - zero - by if at and by is not None else None for at, by in zip(given, by_places)]
        missed = [k for k in (0, 3) if by_places[k] is not None and (off[k] is None or abs(off[k]) > 1)]
        another = abs(greatest - line[13]) > 0.5
        if missed or another:
            error = max((abs(off[k]) for k in missed if off[k] is not None), default=0)
            failures.append((closest.magnitude / 10**6, another, error))
        else:
            magnitudes.add("document 02's radii", magnitude - closest.magnitude / 10**6)
            magnitudes.add("their radii", magnitude - contacts(replace(request, elements=outer))[1].magnitude / 10**6)
        for name in ("moshier", "erfa"):
            try:
                other_instant, _, other = request_for(sources[name], eclipse.date, station, guard=16)
            except ImportError:
                continue
            days = julian_day(*other_instant[:3]) - julian_day(*instant[:3])
            later = round(days * 86400) + (other_instant[3] - instant[3]) * 3600
            found = [at if at is None else at + later for at in refined(other)[0]]
            others.contacts(name + ", {}", found, ours)
            if place.kind == "anywhere":
                found_kept = [at if k in (0, 3) else None for k, at in enumerate(found)]
                others.contacts(name + ", {}, the same drawn anywhere", found_kept, ours_kept)
    south = sum(place.latitude < 0 for _, place in asked)
    print(f"{len(asked)} places of {many} eclipses, seed {seed}, {south} of them south of the equator:", end=" ")
    print(", ".join(sorted({written(eclipse.date) for eclipse, _ in asked})))
    theirs_less_ours.table("Theirs less ours, s")
    magnitudes.table("Their magnitude less ours")
    others.table("Other sources less Swiss Ephemeris, both ours, s")
    print(f"\nswe_sol_eclipse_when_loc itself fails at {len(failures)} places: no first or last contact,", end=" ")
    print("one more than 1 s from where its own places have it, or another eclipse. Our magnitude, its error in s:")
    for size, other, error in sorted(failures):
        print(f"  {size:.6f}", "another eclipse" if other else f"{error:.0f}" if error else "no contact")


def main():
    parser = argparse.ArgumentParser(description=__doc__, formatter_class=argparse.RawDescriptionHelpFormatter)
    parser.add_argument("--places", type=int, help="how many places of each eclipse are drawn")
    parser.add_argument("--eclipses", type=int, default=12)
    parser.add_argument("--seed", type=int, default=38)
    given = parser.parse_args()
    if given.places:
        drawn_places(given.places, given.eclipses, given.seed)
        return
    said = iter(swiss())
    radii(said)
    sources()


if __name__ == "__main__":
    main()
