"""An eclipse or an occultation at a station: the request for its reference hour, and what is visible of it.

The altitude here is a plain computation in floating point, from the request's own d and mu: that of the Sun's centre
(or the star) over the horizon, without refraction and dip. No sheet depends on it.
"""

from datetime import datetime, timedelta
from math import asin, cos, degrees, radians, sin, sqrt
from typing import Callable, Dict, List, NamedTuple, Optional, Sequence, Tuple

from besselian import DOCUMENT_02, Made, Radii, elements, elements_of_rows, ukhtvaresh
from catalogue.reader import REACH, Eclipse
from places import EARTH, UNIT, Instant, Place, later

WIDEST = ukhtvaresh.Window(-10800, 10800)
UP = -0.8333  # degrees: the usual altitude of rising and setting, for refraction of 34' and a semidiameter of 16'
STAR_UP = -0.5667  # the same for a star, refraction alone
TURN_RATE = 15.0410686 / 3600  # degrees that the Earth turns in a second


def moment(instant: Instant, second: float, delta_t: int) -> datetime:
    """Universal time of a second from an instant of ephemeris time, to the nearest second."""
    at = datetime(*instant) + timedelta(seconds=second - delta_t / 100)
    return (at + timedelta(milliseconds=500)).replace(microsecond=0)


# ---- requests


class Tables:
    """One eclipse: elements for each of some whole hours around an instant of ephemeris time."""

    def __init__(self, instant: Instant, reach: int, made: Callable[[int, Radii], Made]):
        self.instant = instant
        self.reach = reach  # the farthest hour from the instant that has elements
        self._made = made
        self._kept: Dict[Tuple[int, Radii], Made] = {}

    def made(self, hour: int, radii: Radii) -> Made:
        """The elements for the reference hour that is so many hours after the instant."""
        if (hour, radii) not in self._kept:
            self._kept[hour, radii] = self._made(hour, radii)
        return self._kept[hour, radii]

    @staticmethod
    def of_catalogue(eclipse: Eclipse) -> "Tables":
        return Tables(
            eclipse.instant(), REACH, lambda hour, radii: elements_of_rows(*eclipse.seven(hour), radii)
        )

    @staticmethod
    def of_source(source: Callable[[Instant], Sequence[Place]], instant: Instant) -> "Tables":
        return Tables(instant, 3, lambda hour, radii: elements(source(later(instant, hour)), radii))


class Local(NamedTuple):
    """An eclipse at a station: its reference instant, the elements, the request and the entries of its sheet."""

    instant: Instant
    made: Made
    request: ukhtvaresh.Request
    entries: List[ukhtvaresh.Entry]

    def closest(self) -> ukhtvaresh.Closest:
        return next(entry for entry in self.entries if isinstance(entry, ukhtvaresh.Closest))


def least_guard(off: Dict[str, int]) -> int:
    """The sum of what the fits of x, y and l are off, kept within the range of a guard."""
    return min(1000, max(16, off["x"] + off["y"] + max(off["l1"], off["l2"])))


def at_station(
    tables: Tables, station: ukhtvaresh.Station, guard: Optional[int] = None, radii: Radii = DOCUMENT_02
) -> Local:
    """The eclipse at a station, with the reference hour that is nearest to the station's closest second.

    The widest window then holds all of the eclipse at the station.
    """
    hour = 0
    for _ in range(3):
        made = tables.made(hour, radii)
        request = ukhtvaresh.Request(made.elements, station, WIDEST, guard or least_guard(made.off))
        entries = ukhtvaresh.read(ukhtvaresh.sheet(request.to_bytes()))
        local = Local(later(tables.instant, hour), made, request, entries)
        nearest = max(-tables.reach, min(tables.reach, hour + round(local.closest().second / 3600)))
        if nearest == hour:
            break
        hour = nearest
    return local


# ---- what is visible


def altitude(request, second: float) -> float:
    """Degrees of the Sun, or of the star, over the horizon at a second: geometric, without refraction and dip."""
    e, station, hours = request.elements, request.station, second / 3600
    d = radians((e.d0 + getattr(e, "d1", 0) * hours + getattr(e, "d2", 0) * hours**2) / 10**6)
    mu = (e.mu0 + e.mu1 * hours + e.mu2 * hours**2) / 10**6
    angle = radians(mu + station.longitude / 10**6 - station.delta_t / 100 * TURN_RATE)
    latitude = radians(station.latitude / 10**6)
    sine = sin(latitude) * sin(d) + cos(latitude) * cos(d) * cos(angle)
    return degrees(asin(max(-1.0, min(1.0, sine))))


def spell(entries: Sequence[ukhtvaresh.Entry], phase: ukhtvaresh.Phase) -> Optional[Tuple[int, int]]:
    """The first and the last second of the entries of a phase, or None."""
    phases = (ukhtvaresh.Enter, ukhtvaresh.Leave, ukhtvaresh.Graze, ukhtvaresh.Open)
    seconds = [s for e in entries if isinstance(e, phases) and e.phase is phase for s in (e.from_, e.to)]
    return (min(seconds), max(seconds)) if seconds else None


def highest(request, first: int, last: int) -> float:
    """The greatest altitude at each minute of a spell and at its last second."""
    return max(altitude(request, second) for second in [*range(first, last, 60), last])


def why_not_visible(local: Local) -> Optional[str]:
    """Why nothing of an eclipse is visible from its station, or None where something is."""
    whole = spell(local.entries, ukhtvaresh.Phase.PENUMBRA)
    if whole is None:
        at = ukhtvaresh.second(local.request.to_bytes(), local.closest().second)
        away = (sqrt(at.u**2 + at.v**2) - at.l1) / UNIT * EARTH
        return f"no contact, the Moon's penumbra passes {away:,.0f} km from it"
    top = highest(local.request, *whole)
    if top < UP:
        return f"the Sun is below the horizon throughout, at an altitude of {top:.1f} degrees at most"
    return None


def partly_visible(local: Local) -> List[str]:
    """Which of first contact, greatest eclipse and last contact happen with the Sun below the horizon."""
    first, last = spell(local.entries, ukhtvaresh.Phase.PENUMBRA)
    events = (("first contact", first), ("greatest eclipse", local.closest().second), ("last contact", last))
    altitudes = [(name, altitude(local.request, second)) for name, second in events]
    return [f"{name} (altitude {above:.1f} degrees)" for name, above in altitudes if above < UP]


class Seen(NamedTuple):
    """What a station sees of an eclipse: its kind there, and the greatest magnitude while the Sun is up."""

    kind: str
    begins: int
    greatest: int
    ends: int
    magnitude: int
    central: Optional[Tuple[int, int]]  # the spell of the central phase, where the Sun is up in it


def seen(local: Local) -> Optional[Seen]:
    """What the station sees, or None where nothing is visible."""
    if why_not_visible(local):
        return None
    request = local.request.to_bytes()
    first, last = spell(local.entries, ukhtvaresh.Phase.PENUMBRA)
    greatest = local.closest().second
    if altitude(local.request, greatest) < UP:
        up = [second for second in range(first, last + 1, 5) if altitude(local.request, second) >= UP]
        greatest = max(up or [greatest], key=lambda second: ukhtvaresh.second(request, second).magnitude)
    at = ukhtvaresh.second(request, greatest)
    central = spell(local.entries, ukhtvaresh.Phase.CENTRAL)
    if central and highest(local.request, *central) < UP:
        central = None
    kind = "partial" if central is None else "total" if at.l2 < 0 else "annular"
    return Seen(kind, first, greatest, last, at.magnitude, central)
