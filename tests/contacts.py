#!/usr/bin/env python3
"""Contacts to the hundredth of a second, compared with the true ones: tests/contacts.py [SEED [PLACES [BRACKETS]]]

Needs the library for Python (tools/build library && python/build). Each bracket comes from the compiled library. The
true shadow is computed with 50 digits from Bessel's formulas, with sines by their series; nothing of it is shared with
the crates, the proofs or tests/reference.

1. Each contact of the examples: the bracket and the true contact, found by bisection between the entry's two seconds.
2. Of twelve random eclipses of the catalogue, random places with heights of 0 to 3,000 m until PLACES have a contact: the
   same of every contact, first with a guard of 32 and then with the guard that the almanac gives. Prints the widths; the
   median under a guard of 32 must be at most 0.03 s.
3. Until BRACKETS brackets were found: random requests of eclipses and stars, half of them with numbers at the ends of their
   ranges, with the station near an edge at a random time. At the earlier hundredth the station must truly be on the side
   of the first second, at the later on the other.

Stops at the first bracket that the true contact is not in.
"""

import math
import random
import statistics
import sys
import time
from collections import Counter
from dataclasses import astuple, replace
from decimal import Decimal, getcontext
from pathlib import Path

TOP = Path(__file__).resolve().parent.parent
sys.path[:0] = [str(TOP / "python"), str(TOP / "almanac")]

import ukhtvaresh  # noqa: E402
from catalogue.reader import eclipses  # noqa: E402
from circumstances import Tables, at_station  # noqa: E402
from ukhtvaresh import Elements, Enter, Leave, Phase, Refused, Request, StarElements, StarRequest, Station, Window  # noqa: E402

getcontext().prec = 50
PI = Decimal("3.14159265358979323846264338327950288419716939937510582")
E, RADIUS, ONE = Decimal(99_330_658) / 10**8, 6_378_245, 10**8
SMALLEST = Decimal(10) ** -46
ECLIPSES = 12
WIDEST = Window(-10_800, 10_800)
MEDIAN = 3  # hundredths of a second


# ---- the true shadow


def sines(millionths: Decimal):
    """The sine and the cosine of an angle in millionths of a degree."""
    x = (millionths % 360_000_000) * PI / 180_000_000
    found = []
    for power, term in ((1, x), (0, Decimal(1))):
        total = term
        while abs(term) > SMALLEST:
            term = -term * x * x / ((power + 1) * (power + 2))
            power += 2
            total += term
        found.append(total)
    return found


class Sky:
    """What is seen of a request, with nothing rounded: elements and station as they are given."""

    def __init__(self, request):
        elements, station = request.elements, request.station
        numbers = [Decimal(number) for number in astuple(elements)]
        self.x, self.y = numbers[0:4], numbers[4:8]
        if isinstance(request, StarRequest):
            self.d, self.mu = numbers[8:9], numbers[9:12]
            self.cones = {Phase.STAR: ([Decimal(request.radius)], Decimal(0))}
        else:
            self.d, self.mu = numbers[8:11], numbers[17:20]
            self.cones = {Phase.PENUMBRA: (numbers[11:14], numbers[20]), Phase.CENTRAL: (numbers[14:17], numbers[21])}
        self.east = Decimal(station.longitude) - Decimal(station.delta_t) * 417_807 / 10_000
        sine, cosine = sines(Decimal(station.latitude))
        normal = 1 / (cosine * cosine + E * sine * sine).sqrt()
        height = Decimal(station.height) / RADIUS
        self.r, self.p = (normal + height) * cosine * ONE, (E * normal + height) * sine * ONE

    def shadow(self, seconds: Decimal):
        """u, v and ζ."""
        hours = seconds / 3600
        x, y, d, mu = (value(c, hours) for c in (self.x, self.y, self.d, self.mu))
        (sin_h, cos_h), (sin_d, cos_d) = sines(mu + self.east), sines(d)
        q = self.r * cos_h
        return x - self.r * sin_h, y - (self.p * cos_d - q * sin_d), self.p * sin_d + q * cos_d

    def beyond(self, phase: Phase, seconds: Decimal) -> Decimal:
        """The true distance less the true L: below 0 the station is truly inside."""
        u, v, zeta = self.shadow(seconds)
        coefficients, tangent = self.cones[phase]
        radius = value(coefficients, seconds / 3600) - zeta * tangent / ONE
        return (u * u + v * v).sqrt() - (abs(radius) if phase is Phase.CENTRAL else radius)

    def inside(self, phase: Phase, seconds: Decimal) -> bool:
        return self.beyond(phase, seconds) < 0

    def contact(self, phase: Phase, first: int, last: int) -> Decimal:
        """A true contact between two seconds of which one is truly outside and the other truly inside."""
        low, high = Decimal(first), Decimal(last)
        start = self.inside(phase, low)
        for _ in range(40):
            middle = (low + high) / 2
            if self.inside(phase, middle) == start:
                low = middle
            else:
                high = middle
        return low


def value(coefficients, hours: Decimal) -> Decimal:
    total = Decimal(0)
    for coefficient in reversed(coefficients):
        total = total * hours + coefficient
    return total


# ---- brackets


def brackets(request):
    """Each enter and leave of a request's sheet with its bracket; no bracket where a guard below 32 leaves none."""
    data = request.to_bytes()
    star = isinstance(request, StarRequest)
    for entry in ukhtvaresh.read((ukhtvaresh.star if star else ukhtvaresh.sheet)(data)):
        if not isinstance(entry, (Enter, Leave)):
            continue
        try:
            if star:
                yield entry, ukhtvaresh.star_contact(data, entry.from_, entry.to)
            else:
                yield entry, ukhtvaresh.contact(data, entry.phase, entry.from_, entry.to)
        except Refused as refused:
            if (refused.number, refused.place) != (22, 1) or request.guard >= 32:
                raise


def stop(what: str, request, entry, bracket):
    sys.exit(f"{what}: {entry} {bracket}\n{request}")


def sides(sky: Sky, request, entry, bracket):
    """The station is truly on the entry's sides at the two hundredths."""
    enters = isinstance(entry, Enter)
    at = [sky.inside(entry.phase, Decimal(hundredth) / 100) for hundredth in (bracket.earlier, bracket.later)]
    if at != [not enters, enters]:
        stop("the true contact is not in the bracket", request, entry, bracket)


def compared(request):
    """The entry, the bracket and the true contact of each contact of a request, which lies in it."""
    sky = Sky(request)
    for entry, bracket in brackets(request):
        sides(sky, request, entry, bracket)
        true = sky.contact(entry.phase, entry.from_, entry.to)
        if not bracket.earlier <= 100 * true <= bracket.later:
            stop(f"the true contact {true} is not in the bracket", request, entry, bracket)
        yield entry, bracket, true


# ---- 1: the examples


def examples():
    for file in sorted((TOP / "examples").glob("*.bin")):
        data = file.read_bytes()
        request = (Request if len(data) == ukhtvaresh.REQUEST_LENGTH else StarRequest).from_bytes(data)
        for entry, bracket, true in compared(replace(request, guard=32)):
            kind = f"{type(entry).__name__.lower()} {entry.phase.value}"
            earlier, later = bracket.earlier / 100, bracket.later / 100
            print(f"{file.name:22} {kind:14} {entry.from_} {entry.to}: {earlier:.2f} to {later:.2f}, truly {true:.5f}")


# ---- 2: ordinary places


def ordinary(rng: random.Random, places: int):
    drawn = sorted(rng.sample(eclipses(), ECLIPSES), key=lambda eclipse: eclipse.date)
    tables = [Tables.of_catalogue(eclipse) for eclipse in drawn]
    widths, wider, guards, seen, none = [], [], [], 0, 0
    while seen < places:
        at = (seen + none) % ECLIPSES
        latitude = math.degrees(math.asin(rng.uniform(-1, 1)))
        station = Station(
            1, round(latitude * 10**6), rng.randint(-180_000_000, 180_000_000), rng.randint(0, 3_000), drawn[at].delta_t
        )
        local = at_station(tables[at], station)
        found = [bracket.later - bracket.earlier for _, bracket, _ in compared(replace(local.request, guard=32))]
        if not found:
            none += 1
            continue
        seen += 1
        guards.append(local.request.guard)
        widths += found
        wider += [bracket.later - bracket.earlier for _, bracket, _ in compared(local.request)]
    dates = ", ".join("%04d-%02d-%02d" % eclipse.date for eclipse in drawn)
    print(f"eclipses of {dates}")
    print(f"{places} places, {len(widths)} contacts, each in its bracket; {none} other places had none")
    median = statistics.median(widths)
    print(f"guard 32: median {median / 100:.3f} s, widths in hundredths {dict(sorted(Counter(widths).items()))}")
    print(
        f"the almanac's guards, {min(guards)} to {max(guards)}: median {statistics.median(wider) / 100:.3f} s, "
        f"widest {max(wider) / 100:.2f} s, {len(wider)} contacts"
    )
    if median > MEDIAN:
        sys.exit(f"the median is above {MEDIAN / 100} s")


# ---- 3: extremes among the rest


class Draw:
    """Numbers within their ranges, at their ends where the request is an extreme one."""

    def __init__(self, rng: random.Random):
        self.rng, self.far = rng, rng.random() < 0.5

    def of(self, low: int, high: int) -> int:
        if self.far and self.rng.random() < 0.7:
            return self.rng.choice((low, high))
        return self.rng.randint(low, high)

    def about(self, *sizes: int):
        return [self.of(-size, size) for size in sizes]

    def station(self) -> Station:
        latitude, longitude = self.about(90_000_000, 180_000_000)
        return Station(self.rng.randint(1, 999), latitude, longitude, self.of(-500, 9_000), self.of(-10_000, 20_000))

    def mu(self):
        return [self.of(0, 359_999_999), self.of(14_900_000, 15_100_000), *self.about(100)]

    def request(self):
        guard = self.of(16, 1_000) if self.rng.random() < 0.3 else 32
        sizes = (200_000_000, 100_000_000, 100_000, 10_000)
        x, y = self.about(*sizes), self.about(*sizes)
        if self.rng.random() < 0.3:
            elements = StarElements(*x, *y, *self.about(30_000_000), *self.mu())
            return StarRequest(elements, self.of(27_200_000, 27_300_000), self.station(), WIDEST, guard)
        l1 = [self.of(50_000_000, 60_000_000), *self.about(100_000, 10_000)]
        d, l2 = self.about(25_000_000, 20_000, 100), self.about(5_000_000, 100_000, 10_000)
        tangents = [self.of(400_000, 500_000), self.of(400_000, 500_000)]
        return Request(Elements(*x, *y, *d, *l1, *l2, *self.mu(), *tangents), self.station(), WIDEST, guard)


def at_edge(rng: random.Random, request):
    """The request with x and y moved so that the station is near an edge at a random time; None where that is too far."""
    sky = Sky(request)
    phase = rng.choice(list(sky.cones))
    when = Decimal(rng.randint(-10_700, 10_700))
    u, v, zeta = sky.shadow(when)
    coefficients, tangent = sky.cones[phase]
    radius = abs(value(coefficients, when / 3600) - zeta * tangent / ONE)
    turn = rng.uniform(0, 2 * math.pi)
    x0 = request.elements.x0 + round(float(radius) * math.sin(turn) - float(u))
    y0 = request.elements.y0 + round(float(radius) * math.cos(turn) - float(v))
    if max(abs(x0), abs(y0)) > 200_000_000:
        return None
    return replace(request, elements=replace(request.elements, x0=x0, y0=y0))


def extremes(rng: random.Random, count: int):
    found, requests, extreme, stars, widths, start = 0, 0, 0, 0, Counter(), time.time()
    while found < count:
        draw = Draw(rng)
        request = at_edge(rng, draw.request())
        if request is None:
            continue
        requests += 1
        sky = Sky(request)
        for entry, bracket in brackets(request):
            sides(sky, request, entry, bracket)
            found += 1
            extreme += draw.far
            stars += isinstance(request, StarRequest)
            width = bracket.later - bracket.earlier
            widths[width if width <= 10 else "more"] += 1
    widths = dict(sorted(widths.items(), key=lambda pair: (isinstance(pair[0], str), pair)))
    print(
        f"{found} brackets of {requests} random requests, {extreme} of them at the ends of the ranges, {stars} of stars: "
        f"none misses the true contact ({time.time() - start:.0f} s)"
    )
    print(f"widths in hundredths {widths}")


if __name__ == "__main__":
    seed, places, count = (list(map(int, sys.argv[1:])) + [1954, 1_000, 50_000][len(sys.argv) - 1 :])[:3]
    examples()
    ordinary(random.Random(seed), places)
    extremes(random.Random(seed), count)
