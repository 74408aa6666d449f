#!/usr/bin/env python3
"""What moves a contact, and by how much, at drawn places of drawn eclipses.

    python3 almanac/moves.py --places 100 --eclipses 12 --seed 38

It needs swetest, swe-basic-data and libswe-dev (Debian), a C compiler, and the library for Python. The library makes
the elements from Swiss Ephemeris' places, as for `almanac.py`. Contacts are then those of Bessel's formulas in
floating point (`bessel.py`), and each is first compared with the two seconds that the library's own sheet names.
"""

import argparse
import random
from dataclasses import replace
from functools import lru_cache
from math import atan2, cos, degrees, hypot, radians, sin
from typing import List, Optional

import bessel
from almanac import request_for
from bessel import KRASOVSKY, WGS84, Place
from besselian import elements, ukhtvaresh, with_radii
from drawn import Drawn, eclipses, places, sources, station
from places import AU, EARTH, MOON_UNIT, swiss_delta_t

UNIT = 1e-8
RADIUS, K = 959.63, 0.272274  # document 02: the Sun's radius at one astronomical unit, "; the Moon's, Earth radii
PULKOVO = (23.92, -141.27, -80.9)  # metres from the Earth's centre to that of Pulkovo 1942's spheroid: EPSG 1267
GROUPS = ((0, 3, "first, last"), (1, 2, "second, third"))
KINDS = ("all", "anywhere", "grazing", "path")  # how places were drawn: drawn.py
WIDTHS = (13, 19, 32, 64, 50, 500, 29_000)  # units by which an edge is moved in and out


def share(values: List[float], part: float) -> float:
    """The value that so large a part of the sorted values does not exceed."""
    return sorted(values)[min(len(values) - 1, int(part * len(values)))]


def spread(values: List[float], scale: float = 1.0) -> str:
    """Median, nine in ten, 99 in 100 and worst, as cells of a table."""
    if not values:
        return "- | - | - | -"
    sizes = [abs(value) * scale for value in values]
    shown = (share(sizes, 0.5), share(sizes, 0.9), share(sizes, 0.99), max(sizes))
    return " | ".join(f"{float(f'{value:.3g}'):g}" for value in shown)


def library_contacts(request) -> List[Optional[tuple]]:
    """From and to of the four contacts in the library's sheet."""
    found: List[Optional[tuple]] = [None] * 4
    for entry in ukhtvaresh.read(ukhtvaresh.sheet(request.to_bytes())):
        if isinstance(entry, (ukhtvaresh.Enter, ukhtvaresh.Leave)):
            inner = entry.phase is ukhtvaresh.Phase.CENTRAL
            found[int(inner) if isinstance(entry, ukhtvaresh.Enter) else 3 - inner] = (entry.from_, entry.to)
    return found


def shifted(drawn: Drawn) -> Place:
    """The place of a latitude and longitude by Pulkovo 1942: on Krasovsky's spheroid, its centre moved by PULKOVO."""
    at = bessel.place(drawn.latitude, drawn.longitude, drawn.height)
    turn = radians(drawn.longitude)
    x, y, z = (c + metres / KRASOVSKY[0] for c, metres in zip((at.r * cos(turn), at.r * sin(turn), at.p), PULKOVO))
    return Place(hypot(x, y), z, degrees(atan2(y, x)))


def spheroids() -> str:
    """How far a place by WGS84 is from one with the same latitude by Krasovsky's spheroid, at most, in units."""
    def apart(latitude):
        one, two = (bessel.place(latitude, 0, 0, spheroid) for spheroid in (KRASOVSKY, WGS84))
        return hypot(one.r - two.r, one.p - two.p) / UNIT

    worst = max((step / 100 for step in range(9001)), key=apart)
    return f"{apart(worst):.1f} units, {apart(worst) * UNIT * KRASOVSKY[0]:.2f} m, at latitude {worst:.1f}"


class Moves:
    """The changes that are tried, and how far each moves each contact."""

    NAMES = {
        "k": "lunar radius k 0.2725076 for 0.272274",
        "sun": 'solar radius 959.95" for 959.63"',
        "delta t": "ΔT larger by 1 s, the contact in universal time",
        "spheroid": "WGS84's spheroid for Krasovsky's",
        "datum": "latitude and longitude by Pulkovo 1942, not converted, 165 m",
        "unit": "the Sun's rows at today's astronomical unit (parallax 8.794\") for 8.80\"",
    }

    def __init__(self, source):
        self.source = source
        self.moved = {(name, group[2], kind): [] for name in self.NAMES for group in GROUPS for kind in KINDS}
        self.changed = {name: 0 for name in self.NAMES}
        self.durations = []

    @lru_cache(maxsize=None)
    def made(self, instant, name):
        """The elements of an instant with a change of the radii or of the Sun's distance."""
        there = self.source(instant)
        own = elements(there).elements
        if name == "unit":
            today = [replace(place, sun=tuple(c * MOON_UNIT / SUN_SCALE for c in place.sun)) for place in there]
            return elements(today).elements
        arc, k = {"base": (RADIUS, K), "k": (RADIUS, 0.2725076), "sun": (959.95, K)}[name]
        return with_radii(own, there, AU * sin(radians(arc / 3600)), k * EARTH)

    def add(self, drawn, instant, request, delta_t):
        """All changes at one place."""
        here = bessel.place(drawn.latitude, drawn.longitude, drawn.height)
        plain = bessel.contacts(bessel.shadow(request.elements, here, delta_t))
        radii = bessel.contacts(bessel.shadow(self.made(instant, "base"), here, delta_t))
        for name in self.NAMES:
            there, base, later = request.elements, plain, 0.0
            place, seconds = here, delta_t
            if name in ("k", "sun", "unit"):
                there, base = self.made(instant, name), plain if name == "unit" else radii
            elif name == "delta t":
                seconds, later = delta_t + 1, -1.0
            elif name == "spheroid":
                place = bessel.place(drawn.latitude, drawn.longitude, drawn.height, WGS84)
            else:
                place = shifted(drawn)
            found = bessel.contacts(bessel.shadow(there, place, seconds))
            self.changed[name] += sum((one is None) != (two is None) for one, two in zip(base, found))
            for first, last, group in GROUPS:
                pairs = [(base[k], found[k]) for k in (first, last)]
                values = [two - one + later for one, two in pairs if one is not None and two is not None]
                for kind in ("all", drawn.kind):
                    self.moved[name, group, kind] += values
            if name == "unit" and None not in (base[1], base[2], found[1], found[2]):
                self.durations.append((found[2] - found[1]) - (base[2] - base[1]))


SUN_SCALE = 1 / sin(radians(8.80 / 3600))


def main():
    parser = argparse.ArgumentParser(description=__doc__, formatter_class=argparse.RawDescriptionHelpFormatter)
    parser.add_argument("--places", type=int, default=100)
    parser.add_argument("--eclipses", type=int, default=12)
    parser.add_argument("--seed", type=int, default=38)
    given = parser.parse_args()
    rng, source = random.Random(given.seed), sources()["swiss"]
    widths = {(units, kind): [] for units in WIDTHS for kind in KINDS}
    moves, closest_off, count = Moves(source), {kind: [] for kind in KINDS}, 0
    lost, within, beside, south = {units: 0 for units in WIDTHS}, 0, [], 0
    for eclipse in eclipses(given.eclipses, rng):
        for number, drawn in enumerate(places(eclipse, given.places, rng, source), 1):
            delta_t = round(swiss_delta_t_of(eclipse.date), 2)
            instant, _, request = request_for(source, eclipse.date, station(drawn, number, delta_t), guard=16)
            at = bessel.shadow(request.elements, bessel.place(drawn.latitude, drawn.longitude, drawn.height), delta_t)
            found = bessel.contacts(at)
            count, south = count + 1, south + (drawn.latitude < 0)
            for contact, named in zip(found, library_contacts(request)):
                if contact is None and named is None:
                    continue
                if contact is None or named is None or not named[0] <= contact <= named[1]:
                    beside.append((eclipse.date, drawn, contact, named))
                else:
                    within += 1
            for units in WIDTHS:
                wider, narrower = (bessel.contacts(at, more * units * UNIT) for more in (1, -1))
                for k, contact in enumerate(found):
                    if contact is None:
                        continue
                    if narrower[k] is None or wider[k] is None:
                        lost[units] += 1
                        continue
                    for kind in ("all", drawn.kind):
                        widths[units, kind].append(max(abs(wider[k] - contact), abs(narrower[k] - contact)))
            second, best = bessel.greatest(at)
            for kind in ("all", drawn.kind):
                closest_off[kind].append(best - second)
            moves.add(drawn, instant, request, delta_t)
    print(f"{count} places of {given.eclipses} eclipses, seed {given.seed}; {south} south of the equator")
    print(f"{within} contacts lie between the library's two seconds, {len(beside)} do not")
    for each in beside:
        print("   ", *each)
    print(f"\nWGS84 against Krasovsky's spheroid, same latitude, both centred at the Earth's centre: {spheroids()}")
    print("\n| Units | contacts of places drawn | median | 9 in 10 | 99 in 100 | worst | thousandths of a second")
    for (units, kind), times in widths.items():
        print(f"| {units} | {kind}, {len(times)} | {spread(times, 1000)} |")
    gone = ", ".join(f"{many} by {units} units" for units, many in lost.items())
    print("Contacts that go when the edge is moved:", gone)
    print("\n| What changes | contacts | median | 9 in 10 | 99 in 100 | worst | seconds")
    for name, words in moves.NAMES.items():
        for _, _, group in GROUPS:
            for kind in KINDS:
                values = moves.moved[name, group, kind]
                if values:
                    print(f"| {words} | {kind}: {group}, {len(values)} | {spread(values)} |")
        print(f"  (contacts that come or go: {moves.changed[name]})")
    print("\nThe central phase's length with the Sun at today's unit, less ours, s:", spread(moves.durations), end="; ")
    print(f"from {min(moves.durations):+.2f} to {max(moves.durations):+.2f}" if moves.durations else "none")
    print("\nThe second of greatest magnitude of a partial eclipse less the closest second, s")
    for kind in KINDS:
        print(f"| {kind} | {spread(closest_off[kind])} |")


@lru_cache(maxsize=None)
def swiss_delta_t_of(date) -> float:
    return swiss_delta_t((*date, 12))


if __name__ == "__main__":
    main()
