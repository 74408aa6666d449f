"""Eclipses and places drawn by a seed, for `compare.py` and `moves.py`.

Eclipses are drawn from all that Swiss Ephemeris finds from 1900 to 2099; the same seed gives the same ones. At every
place the Sun is up at the closest second. Three places in five lie anywhere on the Earth; at one in five the magnitude
is at most 0.01, so that the place grazes the penumbra; one in five lies in the central shadow or within a tenth of its
radius beside it, where the eclipse has one, and anywhere where it has none. Heights are 0 to 3,000 m.
"""

import os
import random
import subprocess
from dataclasses import dataclass
from functools import lru_cache
from math import asin, atan2, cos, degrees, hypot, pi, radians, sin, sqrt
from pathlib import Path
from typing import Callable, Iterator, List, Tuple

from almanac import conjunction
from bessel import KRASOVSKY, TURN, contacts, greatest, place, shadow
from besselian import elements, ukhtvaresh
from places import SOURCES, Instant, swiss_delta_t

TOP = Path(__file__).resolve().parent.parent
YEARS = (1900, 2099)


@dataclass(frozen=True)
class Eclipse:
    """Date and hour of universal time at which it is greatest on the Earth, and whether its axis meets the Earth."""

    date: Tuple[int, int, int]
    hour: float
    central: bool


@dataclass(frozen=True)
class Drawn:
    """A place: degrees north and east to six decimals, metres; how it was drawn."""

    latitude: float
    longitude: float
    height: int
    kind: str


def sources() -> dict:
    """The sources of places, each instant asked for once."""
    return {name: lru_cache(maxsize=None)(source) for name, source in SOURCES.items()}


def program() -> Path:
    """when_loc.c, compiled where that is not yet done."""
    source, made = TOP / "almanac" / "when_loc.c", TOP / "target" / "when_loc"
    if not made.exists() or made.stat().st_mtime < source.stat().st_mtime:
        part = made.with_suffix(f".{os.getpid()}")
        subprocess.run(["cc", "-O2", source, "-lswe", "-lm", "-o", part], check=True)
        part.replace(made)
    return made


def eclipses(count: int, rng: random.Random) -> List[Eclipse]:
    """So many eclipses, in order of time."""
    ran = subprocess.run([program(), *map(str, YEARS)], capture_output=True, text=True, check=True)
    lines = map(str.split, ran.stdout.splitlines())
    found = [Eclipse((int(y), int(m), int(d)), float(hour), kind == "C") for y, m, d, hour, kind in lines]
    return sorted(rng.sample(found, count), key=lambda eclipse: eclipse.date)


def _anywhere(rng: random.Random) -> Tuple[float, float]:
    return degrees(asin(rng.uniform(-1, 1))), rng.uniform(-180, 180)


def _near_path(made, delta_t: float, rng: random.Random) -> Iterator[Tuple[float, float]]:
    """Places up to 1.1 times the central shadow's radius from where the axis meets the spheroid."""
    e = [number / 10**8 for number in vars(made).values()]
    polar = 1 - KRASOVSKY[1]
    while True:
        hours = rng.uniform(-3, 3)
        x, y, l2 = (sum(c * hours**k for k, c in enumerate(e[start:end])) for start, end in ((0, 4), (4, 8), (14, 17)))
        d, mu = (sum(c * 100 * hours**k for k, c in enumerate(e[start:start + 3])) for start in (8, 17))
        rho = sqrt(1 - (1 - polar**2) * cos(radians(d)) ** 2)
        sine, cosine = sin(radians(d)) / rho, polar * cos(radians(d)) / rho
        turn, far = rng.uniform(0, 2 * pi), 1.1 * sqrt(rng.random())
        beyond = 1 - x * x - (y / rho) ** 2
        if beyond <= 0:
            continue
        far *= abs(l2 - sqrt(beyond) * e[21])
        xi, eta = x + far * cos(turn), (y + far * sin(turn)) / rho
        if xi * xi + eta * eta < 1:
            zeta = sqrt(1 - xi * xi - eta * eta)
            across = zeta * cosine - eta * sine
            longitude = (degrees(atan2(xi, across)) - mu + TURN * delta_t + 180) % 360 - 180
            yield degrees(atan2(eta * cosine + zeta * sine, polar * hypot(xi, across))), longitude


def places(eclipse: Eclipse, count: int, rng: random.Random, source: Callable[[Instant], list]) -> List[Drawn]:
    """So many places of an eclipse at which the Sun is up at its greatest."""
    instant = conjunction(source, eclipse.date)
    made, delta_t = elements(source(instant)).elements, swiss_delta_t(instant)
    grazing, path = count // 5, count // 5 if eclipse.central else 0
    near = _near_path(made, delta_t, rng)
    found: List[Drawn] = []
    for kind, many in (("anywhere", count - grazing - path), ("grazing", grazing), ("path", path)):
        while many:
            latitude, longitude = next(near) if kind == "path" else _anywhere(rng)
            drawn = Drawn(round(latitude, 6), round(longitude, 6), rng.randrange(3001), kind)
            at = shadow(made, place(drawn.latitude, drawn.longitude, drawn.height), delta_t)
            second, best = greatest(at)
            magnitude = at(best).magnitude
            if at(second).zeta < 0.01 or magnitude <= 0 or (kind == "grazing" and magnitude > 0.01):
                continue
            if abs(second) > 10_000 or (kind == "path" and contacts(at)[0] is None):
                continue
            found.append(drawn)
            many -= 1
    return found


def station(drawn: Drawn, number: int, delta_t: float) -> "ukhtvaresh.Station":
    """A place as the library takes it."""
    latitude, longitude = round(drawn.latitude * 10**6), round(drawn.longitude * 10**6)
    return ukhtvaresh.Station(number, latitude, longitude, drawn.height, round(delta_t * 100))
