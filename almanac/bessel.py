"""Bessel's formulas in floating point: the contacts of a station to a part of a second, on any spheroid.

It measures what moves a contact. The library is in whole numbers and proved; this is neither, and `moves.py` first
checks that each of its contacts lies between the two seconds that the library names.
"""

from dataclasses import dataclass
from math import cos, hypot, radians, sin, sqrt
from typing import Callable, List, Optional, Tuple

KRASOVSKY = (6_378_245.0, 1 / 298.3)  # equatorial radius in metres, flattening
WGS84 = (6_378_137.0, 1 / 298.257223563)
SPAN = 10_800  # seconds on either side of the reference instant
TURN = 0.00417807  # degrees that the Earth turns in a second (document 02, wish 1)


@dataclass(frozen=True)
class Place:
    """R from the Earth's axis and P from the equator's plane in equatorial radii; longitude, degrees, east positive."""

    r: float
    p: float
    longitude: float


def place(latitude: float, longitude: float, height: float, spheroid=KRASOVSKY) -> Place:
    """The place of a geodetic latitude, degrees, and a height, metres, on a spheroid centred at the Earth's centre."""
    radius, flattening = spheroid
    s, c, ratio = sin(radians(latitude)), cos(radians(latitude)), (1 - flattening) ** 2
    vertical = 1 / sqrt(c * c + ratio * s * s)
    return Place((vertical + height / radius) * c, (vertical * ratio + height / radius) * s, longitude)


@dataclass(frozen=True)
class Shadow:
    """Axis less station, radii of both cones at the station, ζ; in equatorial radii."""

    u: float
    v: float
    l1: float
    l2: float
    zeta: float

    @property
    def distance(self) -> float:
        return hypot(self.u, self.v)

    @property
    def magnitude(self) -> float:
        """Of a partial eclipse: document 01's, without its rounding."""
        return (self.l1 - self.distance) / (self.l1 + self.l2)


def shadow(elements, at_place: Place, delta_t: float) -> Callable[[float], Shadow]:
    """The shadow at a second, for elements as the library takes them and ΔT in seconds."""
    e = [number / 10**8 for number in vars(elements).values()]
    x, y, l1, l2, tan_f1, tan_f2 = e[0:4], e[4:8], e[11:14], e[14:17], e[20], e[21]
    d, mu = ([number * 100 for number in part] for part in (e[8:11], e[17:20]))

    def value(coefficients, hours):
        result = 0.0
        for coefficient in reversed(coefficients):
            result = result * hours + coefficient
        return result

    def at(second: float) -> Shadow:
        hours = second / 3600
        turned = radians(value(mu, hours) + at_place.longitude - TURN * delta_t)
        declination = radians(value(d, hours))
        across, xi = at_place.r * cos(turned), at_place.r * sin(turned)
        sine, cosine = sin(declination), cos(declination)
        eta, zeta = at_place.p * cosine - across * sine, at_place.p * sine + across * cosine
        return Shadow(value(x, hours) - xi, value(y, hours) - eta, value(l1, hours) - zeta * tan_f1,
                      value(l2, hours) - zeta * tan_f2, zeta)

    return at


def least(function: Callable[[float], float], step: int = 240) -> float:
    """The second at which a function that falls and then rises is least, to a ten-thousandth."""
    best = min(range(-SPAN, SPAN + 1, step), key=function)
    low, high = max(-SPAN, best - step), min(SPAN, best + step)
    while high - low > 1e-4:
        one, two = low + (high - low) * 0.382, low + (high - low) * 0.618
        low, high = (low, two) if function(one) < function(two) else (one, high)
    return (low + high) / 2


def _edge(function: Callable[[float], float], inside: float, outside: float) -> Optional[float]:
    if function(outside) < 0:
        return None
    while abs(outside - inside) > 1e-6:
        middle = (inside + outside) / 2
        inside, outside = (middle, outside) if function(middle) < 0 else (inside, middle)
    return (inside + outside) / 2


def beyond(at: Callable[[float], Shadow], central: bool, more: float = 0.0) -> Callable[[float], float]:
    """How far the station is beyond the edge of a cone whose radius is larger by so much; below zero inside."""
    def function(second: float) -> float:
        here = at(second)
        return here.distance - (abs(here.l2) if central else here.l1) - more

    return function


def contacts(at: Callable[[float], Shadow], more: float = 0.0) -> List[Optional[float]]:
    """First, second, third and last contact in seconds; None for one that is not there."""
    found: List[Optional[float]] = [None] * 4
    for central in (False, True):
        function = beyond(at, central, more)
        middle = least(function)
        if function(middle) < 0:
            found[central] = _edge(function, middle, -SPAN)
            found[3 - central] = _edge(function, middle, SPAN)
        elif not central:
            break
    return found


def greatest(at: Callable[[float], Shadow]) -> Tuple[float, float]:
    """The second of least distance in the fundamental plane, and the one of greatest magnitude of a partial eclipse."""
    return least(lambda second: at(second).distance), least(lambda second: -at(second).magnitude)
