"""From seven hourly rows of Sun and Moon to the elements of a request.

The proved library makes the elements and reports how far each fit is off: `ukhtvaresh_elements`, docs/ELEMENTS.md. Here
are only the radii, and the rows that are given to it.
"""

import sys
from dataclasses import dataclass, replace
from fractions import Fraction
from math import radians, sin
from pathlib import Path
from typing import Dict, List, Sequence, Tuple

sys.path.append(str(Path(__file__).resolve().parent.parent / "python"))
import ukhtvaresh  # noqa: E402
from ukhtvaresh import DOCUMENT_02, Radii  # noqa: E402

from places import AU, EARTH, SUN_UNIT, TURN, UNIT, Place, rows, sidereal_angles  # noqa: E402

TOLERANCE = 1000  # units, the most that a fit may be off


@dataclass(frozen=True)
class Made:
    """Elements, and how far each fit lies from its seven values at most, in units."""

    elements: ukhtvaresh.Elements
    off: Dict[str, int]


# ---- radii

# The Moon's mean radius, and the smaller one that reaches the floors of the valleys on its limb. The Sun's radius is
# 959.63" at one astronomical unit, at the distance that the Sun is set at here.
IAU = Radii(round(SUN_UNIT * sin(radians(959.63 / 3600)) * UNIT), 27_250_760, 27_228_100)
RADII = {"document02": DOCUMENT_02, "iau": IAU}


# ---- elements


def elements_of_rows(table: Sequence[Sequence[int]], sidereal: Sequence[int], radii: Radii = DOCUMENT_02) -> Made:
    """The 22 elements of seven hourly rows and sidereal angles; Refused where the library refuses them.

    table: Sun x, y, z, Moon x, y, z of each hour in units. sidereal: Greenwich apparent sidereal time, 10^-6 degree.
    All ways from places to elements go through this function.
    """
    made, misfits = ukhtvaresh.elements([ukhtvaresh.Row(*row) for row in table], sidereal, radii, TOLERANCE)
    return Made(made, dict(vars(misfits)))


def elements(places: Sequence[Place], radii: Radii = DOCUMENT_02) -> Made:
    """The 22 elements of seven hourly places."""
    return elements_of_rows(rows(places), sidereal_angles(places), radii)


FAR = 23_400 * UNIT  # a direction is given as a body so far off the Moon, within the distances that rows may have


def cubics_and_turn(
    across: Sequence[Tuple[int, int, int]], sidereal: Sequence[int]
) -> Tuple[List[int], List[int], List[int], Dict[str, int]]:
    """Cubics of x and y, the quadratic of mu and the misfits, by the same function, of a direction that is known.

    across: the Moon to the east, to the north and along the direction at each hour, in units. The rows have that
    direction for their first axis, so the library takes x and y as they are. sidereal: sidereal time less the right
    ascension of the direction, 10^-6 degree.
    """
    table = [(along + FAR, x, y, along, x, y) for x, y, along in across]
    made = elements_of_rows(table, [angle % TURN for angle in sidereal])
    e, off = made.elements, {name: made.off[name] for name in ("x", "y", "mu")}
    return [e.x0, e.x1, e.x2, e.x3], [e.y0, e.y1, e.y2, e.y3], [e.mu0, e.mu1, e.mu2], off


def with_radii(
    made: ukhtvaresh.Elements, places: Sequence[Place], sun_km: float, moon_km: float
) -> ukhtvaresh.Elements:
    """The same elements with the cones of other radii in kilometres and of the Sun at its distance today."""
    scale = AU / EARTH * UNIT
    table = [[round(c * scale) for vector in (place.sun, place.moon) for c in vector] for place in places]
    sun, moon = (round(km / EARTH * UNIT) for km in (sun_km, moon_km))
    other = elements_of_rows(table, sidereal_angles(places), Radii(sun, moon, moon)).elements
    names = ("l1_0", "l1_1", "l1_2", "l2_0", "l2_1", "l2_2", "tan_f1", "tan_f2")
    return replace(made, **{name: getattr(other, name) for name in names})


def decimal(units: int, places: int) -> str:
    """Units as the decimal number that a typed request has."""
    text = str(Fraction(abs(units)).numerator).rjust(places + 1, "0")
    whole, decimals = (text[:-places], text[-places:].rstrip("0")) if places else (text, "")
    return ("-" if units < 0 else "") + whole + ("." + decimals if decimals else "")
