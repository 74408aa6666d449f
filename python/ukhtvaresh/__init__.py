"""Local circumstances of a solar eclipse, and of a star behind the Moon, in whole numbers, from a proved library.

From the elements of an eclipse, a station, a window of seconds and a guard, `sheet` makes the station's contact sheet,
`sheet_and_share` the same with the covered share of the Sun's disc; `star` makes that of a star from its elements and the Moon's
radius; `read` takes a sheet apart, `write` puts entries together as one, `listing` gives a sheet as text, `second` the shadow at one
second, `star_second` that of a star, and `share` the share at a second. `mirror` gives the request beyond the equator, `fit` judges coefficients that a spreadsheet made
of seven hourly values, `from_tables` makes the values of rows of Sun and Moon, `elements` the 22 elements of them, `root` gives a square root with its rounds, `mend`
takes the damaged parts out of a file of sheets, `sheet_of_doubles` makes the sheet of positions that come as doubles, `doubles` makes
doubles of whole units; `network` says of a list of stations how far each clock is from the antenna and which one the
penumbra reaches first. Each is a thin call of the proved function of the same name in libukhtvaresh.so. The wheel has
that file in it; in the repository the script `python/build` makes it.

`horizon` and `star_horizon` give the altitude and azimuth of the Sun and of a star at a second, and the direction of
the zenith from it, without refraction and dip. `contact` and `star_contact` give the two hundredths of a second between
which a contact lies.

`sheet` takes a `Request`, a `StarRequest`, a typed text or bytes; `sheets` goes through a year file of any size; `rows`
turns entries and tables into rows for pandas and numpy.

>>> import ukhtvaresh
>>> sheet = ukhtvaresh.sheet(ukhtvaresh.HAND_WORKED)
>>> print(ukhtvaresh.listing(sheet), end="")
station 7 from -6000 to 6000
enter penumbra -5401 -5399 2700
leave penumbra 5399 5401 900
enter central -101 -99 2700
leave central 99 101 900
closest 0 1037735

Lengths are in 10^-8 of the Earth's equatorial radius, angles in 10^-6 degree, times in whole seconds of
ephemeris time from the reference instant. East longitude is positive. "Document 01" is the paper whose rules the library keeps.

A number is taken exactly or not at all. Whole numbers are ints, or other types with `__index__` such as numpy's
integers; a float, a Decimal, a bool, a string or None raises NotWhole with the field's name. The library itself refuses
whole numbers outside their ranges. A function whose name ends in `_into` writes to the caller's memory. It first checks
that the memory is writable, that its elements have the right type and follow one another, and that no two such buffers
overlap; otherwise it raises TypeError or ValueError with the buffer's name. It copies what it reads before it writes.

Latitude is geodetic, on Krasovsky's spheroid (6,378,245 m, flattening 1:298.3) with its centre at the Earth's centre.
The library converts no datum. A latitude and longitude by WGS84 put the station up to 55.6 units, 3.5 m, from its
place. Those of Pulkovo 1942, whose spheroid is Krasovsky's with its centre 165 m away, must be converted first. No
sheet says whether the Sun is above the horizon: `horizon` does, for any second.
"""

import ctypes
import math
import operator
import os
import struct
import sys
import threading
from dataclasses import dataclass, fields
from decimal import Decimal
from enum import Enum
from numbers import Number, Real
from pathlib import Path
from typing import Any, Callable, Dict, Iterable, Iterator, List, Optional, Sequence, Tuple, Union

__version__ = "0.1.0"

# What a user of the module needs; names that begin with _ are the module's own.
__all__ = [
    *("REQUEST_LENGTH", "STAR_REQUEST_LENGTH", "LEAST_GUARD", "ROWS", "STATIONS", "HAND_WORKED"),
    *("Refused", "NotWhole"),
    *("Elements", "Station", "Window", "Request", "StarElements", "StarRequest"),
    *("Phase", "Head", "Enter", "Leave", "Graze", "Open", "Closest", "Share", "End", "Entry"),
    *("State", "Second", "StarSecond", "Horizon", "Root", "Row", "Besselian", "Stretch", "Mended"),
    *("Degrees", "Hours", "Longitude", "Survey", "Node", "Network"),
    *("sheet", "sheet_into", "sheet_and_share", "sheet_and_share_into", "star", "star_into", "sheets"),
    *("share", "second", "star_second", "horizon", "star_horizon", "contact", "star_contact", "Bracket", "mirror"),
    *("read", "extent", "write", "write_into", "listing", "typed", "times", "Instant", "Fault", "rows", "dataframe", "array"),
    *("fit", "root", "from_tables", "from_tables_into", "elements", "elements_into", "Radii", "Misfits", "DOCUMENT_02", "mend", "mend_into"),
    *("sheet_of_doubles", "sheet_of_doubles_into", "doubles", "doubles_into", "network", "network_into"),
]

REQUEST_LENGTH = 115  # bytes
STAR_REQUEST_LENGTH = 79
LEAST_GUARD = 16  # that of document 01's cases

# ---- refusals

_WORDS = {
    1: "window outside its range",
    2: "an element outside its range",
    3: "a station value outside its range",
    4: "sheet longer than the buffer",
    5: "kind not in the table",
    6: "input ends inside a record or before the end record",
    7: "a field breaks a reader's rule",
    8: "order broken",
    9: "bytes after the end record",
    10: "request not of its shape",
    11: "a row of the tables outside its distances",
    12: "a double that is not finite",
    13: "the radius of a star request outside its range",
    14: "a station number already used in the list",
    15: "a clock neither 0 nor in the list",
    16: "a station whose chain of clocks never reaches 0",
    17: "a fit further from a tabulated value than the tolerance",
    18: "a tolerance or a tabulated value outside its range",
    19: "a list of no station or of more than 64",
    20: "an invalid line of a typed text",
    21: "a radius or a sidereal angle outside its range",
    22: "no such phase",
    23: "a number of an instant outside its range",
}
_GUARD_WORDS = "guard outside its range"  # of 1 with place 1
_NO_CONTACT_WORDS = "two seconds that are not one surely outside and one surely inside"  # of 22 with place 1


class Refused(Exception):
    """Why a request, a sheet, entries, a fit or a network is refused: number and place of document 01's table, and words.

    place: 1 is 0 for the window, 1 for the guard; 2, 3 the first such field, 3 of a network ten times the list place plus
    that; 4 the length needed; 5 to 9 the record's first byte; 11 the row; 12 the first such field, 22 for the longitude;
    14 to 16 the first such list place, counted from 0; 17 the first such hour, 0 to 6, of elements ten times the
    fit plus that; 18 is 0 for the tolerance, 1 to 7
    for the first such tabulated value; 20 the line of a typed text; 21 is 0 to 2 for a radius, 3
    to 9 for a sidereal angle; 22 is 0 for the phase, 1 for the two seconds; 23 the
    first such number of an instant, 0 scale, 1 date, 4 hundredths of a second, 5 TAI less UTC; else 0.

    field, value, range: of a request's number outside its range the field's name, the number and its least and greatest
    value, in units; of a typed text that is refused the field's name and its value as it was typed; else None.
    line: the line of a typed text, counted from 1, or None.

    >>> from dataclasses import replace
    >>> try:
    ...     sheet(replace(HAND_WORKED, station=Station(7, 95_750_000, 0, 0, 0)))
    ... except Refused as refused:
    ...     print(refused.field, refused.value, refused.range)
    ...     print(refused)
    latitude 95750000 (-90000000, 90000000)
    refused 3 1: a station value outside its range: latitude 95750000 is not within -90000000 to 90000000
    """

    def __init__(self, number: int, place: int, words: Optional[str] = None):
        self.number = number
        self.place = place
        known = {(1, 1): _GUARD_WORDS, (22, 1): _NO_CONTACT_WORDS}.get((number, place))
        known = known or _WORDS.get(number, "refused by the library")
        self.words = words or known
        self.field: Optional[str] = None
        self.value: Union[int, str, None] = None
        self.range: Optional[Tuple[int, int]] = None
        self.line: Optional[int] = place if number == _TYPED else None
        super().__init__(number, place)

    def __str__(self) -> str:
        said = f"refused {self.number} {self.place}: {self.words}"
        if self.range is not None:
            said += f": {self.field} {self.value} is not within {self.range[0]} to {self.range[1]}"
        return said


_TYPED = 20  # the refusal of a typed text

# The ranges of a request's numbers, in units. The library alone judges; these put its refusals into words.
_LENGTH_RANGES = [200_000_000, 100_000_000, 100_000, 10_000]
_MU_RANGES = [(0, 359_999_999), (14_900_000, 15_100_000), (-100, 100)]
_ELEMENT_RANGES = [
    *[(-most, most) for most in _LENGTH_RANGES * 2],
    *[(-25_000_000, 25_000_000), (-20_000, 20_000), (-100, 100)],
    *[(50_000_000, 60_000_000), (-100_000, 100_000), (-10_000, 10_000)],
    *[(-5_000_000, 5_000_000), (-100_000, 100_000), (-10_000, 10_000)],
    *_MU_RANGES,
    *[(400_000, 500_000)] * 2,
]
_STAR_RANGES = [*[(-most, most) for most in _LENGTH_RANGES * 2], (-30_000_000, 30_000_000), *_MU_RANGES]
_RADIUS_RANGE = (27_200_000, 27_300_000)
_STATION_RANGES = [(1, 999), (-90_000_000, 90_000_000), (-180_000_000, 180_000_000), (-500, 9_000), (-10_000, 20_000)]
_SECOND_RANGE = (-10_800, 10_800)
_GUARD_RANGE = (16, 1_000)


def _with_field(refused: Refused, request: bytes) -> Refused:
    """The refusal of a request's bytes with the field, its value and its range, where it is about one."""
    try:
        asked: Any = (StarRequest if request[:1] == b"\x05" else Request).from_bytes(request)
    except Refused:
        return refused
    number, place, star = refused.number, refused.place, isinstance(asked, StarRequest)
    ranges = _STAR_RANGES if star else _ELEMENT_RANGES
    if number == 1 and place == 1:
        found = ("guard", asked.guard, _GUARD_RANGE)
    elif number == 1:
        ends = {"first": asked.window.first, "last": asked.window.last}
        outside = [name for name, end in ends.items() if not _SECOND_RANGE[0] <= end <= _SECOND_RANGE[1]]
        if not outside and asked.window.first <= asked.window.last:
            return refused  # the second that was asked for
        name = (outside or ["first"])[0]
        found = (name, ends[name], _SECOND_RANGE if outside else (_SECOND_RANGE[0], asked.window.last))
    elif number == 2 and place < len(ranges):
        name = fields(asked.elements)[place].name
        found = (name, getattr(asked.elements, name), ranges[place])
    elif number == 3 and place < len(_STATION_RANGES):
        name = fields(asked.station)[place].name
        found = (name, getattr(asked.station, name), _STATION_RANGES[place])
    elif number == 13 and star:
        found = ("radius", asked.radius, _RADIUS_RANGE)
    else:
        return refused
    refused.field, refused.value, refused.range = found
    return refused


class Fault(Refused):
    """The first invalid line of a typed text, refusal 20. `message` has the bytes that program `request` writes of it."""

    def __init__(self, line: int, message: bytes):
        super().__init__(20, line)
        self.message = message
        self.words = message.decode("utf-8", "replace").rstrip("\n")


# ---- numbers and bytes that a caller gives


class NotWhole(TypeError, ValueError):
    """A value that is not a whole number where one is needed. The message has the field, the value and the right unit.

    It is a TypeError, as `operator.index` raises, and a ValueError, as Request.to_bytes has always raised for it.
    """


_RADIUS, _ANGLE, _SECONDS = "10^-8 of the Earth's equatorial radius", "10^-6 degree", "seconds"
# The unit of each field.
_UNITS = {
    **{name: f"{_RADIUS} (coefficients per hour)" for name in "x0 x1 x2 x3 y0 y1 y2 y3".split()},
    **{name: f"{_RADIUS} (coefficients per hour)" for name in "l1_0 l1_1 l1_2 l2_0 l2_1 l2_2".split()},
    **{name: f"{_ANGLE} (coefficients per hour)" for name in "d0 d1 d2 mu0 mu1 mu2".split()},
    **{name: "10^-8" for name in "tan_f1 tan_f2".split()},
    **{name: _RADIUS for name in "sun_x sun_y sun_z moon_x moon_y moon_z radius guard tolerance".split()},
    **{name: _ANGLE for name in "latitude longitude".split()},
    **{name: _SECONDS for name in "first last second from_ to".split()},
    **{name: "millionths" for name in "magnitude share".split()},
    "height": "metres",
    "delta_t": "hundredths of a second",
    "direction": "tenths of a degree",
}


def _shown(value) -> str:
    """A value and its type, as a message shows them."""
    shown = repr(value)
    return f"{shown if len(shown) <= 60 else shown[:57] + '...'} ({type(value).__name__})"


def _is_bool(value) -> bool:
    """Whether a value is Python's or numpy's True or False: they count as 1 and 0, but are no numbers to a user."""
    return type(value).__name__ in ("bool", "bool_")


def _index(value, name: str, of: str = "") -> int:
    """The whole number that a value is. `of` says whose field it is."""
    if not _is_bool(value):
        try:
            return operator.index(value)
        except TypeError:
            pass
    unit = f" in {_UNITS[name]}" if name in _UNITS else ""
    raise NotWhole(f"{name}{of} must be a whole number (int){unit}, not {_shown(value)}") from None


def _signed(value, name: str, of: str = "") -> int:
    """The same, or the end of 64 bits that it is beyond: ctypes would take it modulo 2^64, and no range goes so far."""
    return max(-(2**63), min(_index(value, name, of), 2**63 - 1))


def _double(value, name: str) -> float:
    """The float that a value is, one that is not finite too; another number only if a float has exactly its value."""
    if isinstance(value, float):
        return float(value)
    real = isinstance(value, (Real, Decimal)) or not isinstance(value, Number)
    if real and hasattr(type(value), "__float__") and not _is_bool(value):
        try:
            made = float(value)
            if made == value or math.isnan(made):
                return made
        except OverflowError:
            pass
        raise ValueError(f"{name} must be a float, and no float has exactly the value {_shown(value)}")
    raise TypeError(f"{name} must be a float, not {_shown(value)}")


def _instance(value, kind: type, name: str):
    """The value, which must be of a kind."""
    if not isinstance(value, kind):
        raise TypeError(f"{name} must be of type {kind.__name__}, not {_shown(value)}")
    return value


def _items(values, name: str) -> list:
    """The items of a list, a tuple, an array or another iterable."""
    try:
        return list(values)
    except TypeError:
        raise TypeError(f"{name} must be a list or another iterable, not {_shown(values)}") from None


def _fields(value, kind: type, name: str, of: str = "") -> List[int]:
    """The whole numbers of a value of a kind, in the order of its fields."""
    _instance(value, kind, name + of)
    return [_index(getattr(value, field.name), field.name, of) for field in fields(kind)]


def _bytes(value, name: str) -> bytes:
    """The bytes of an object that is nothing but bytes. `bytes` itself would also take a number, as so many zeros."""
    try:
        view = memoryview(value)
    except TypeError:
        hint = ": call its to_bytes()" if isinstance(value, (Request, StarRequest)) else ""
        raise TypeError(f"{name} must be bytes, not {_shown(value)}{hint}") from None
    if view.itemsize != 1:
        raise TypeError(f"{name} must be bytes; one of its elements has {view.itemsize} bytes, format {view.format!r}")
    return bytes(view)


# ---- requests

_REQUEST = struct.Struct(">B22iBH4iB2hH")
_STAR_REQUEST = struct.Struct(">B13iBH4iB2hH")


def _number_bytes(value, size: int, signed: bool, name: str) -> bytes:
    """A whole number big-endian; ValueError where it does not fit."""
    number = _index(value, name)
    try:
        return number.to_bytes(size, "big", signed=signed)
    except OverflowError:
        sign = "with" if signed else "without"
        raise ValueError(f"{name} does not fit {size} bytes {sign} a sign: {_shown(value)}") from None


def _station_bytes(station: "Station") -> bytes:
    """Kind 03 and a station."""
    _instance(station, Station, "station")
    rest = "latitude longitude height delta_t".split()
    packed = [_number_bytes(getattr(station, name), 4, True, name) for name in rest]
    return b"".join([b"\x03", _number_bytes(station.number, 2, False, "number"), *packed])


def _window_bytes(window: "Window", guard: int) -> bytes:
    """Kind 04, a window and a guard."""
    _instance(window, Window, "window")
    ends = [_number_bytes(getattr(window, name), 2, True, name) for name in ("first", "last")]
    return b"".join([b"\x04", *ends, _number_bytes(guard, 2, False, "guard")])


def _elements_bytes(elements, kind: type) -> bytes:
    """The elements of an eclipse or of an occultation."""
    _instance(elements, kind, "elements")
    return b"".join(_number_bytes(getattr(elements, field.name), 4, True, field.name) for field in fields(kind))


@dataclass(frozen=True)
class Elements:
    """The elements of an eclipse, in document 01's order. Coefficients are per hour."""

    x0: int = 0  # ±200,000,000
    x1: int = 0  # ±100,000,000
    x2: int = 0  # ±100,000
    x3: int = 0  # ±10,000
    y0: int = 0  # y as x
    y1: int = 0
    y2: int = 0
    y3: int = 0
    d0: int = 0  # angle, ±25,000,000
    d1: int = 0  # ±20,000
    d2: int = 0  # ±100
    l1_0: int = 0  # 50,000,000 to 60,000,000
    l1_1: int = 0  # ±100,000
    l1_2: int = 0  # ±10,000
    l2_0: int = 0  # ±5,000,000; below zero is total
    l2_1: int = 0  # ±100,000
    l2_2: int = 0  # ±10,000
    mu0: int = 0  # angle, 0 to 359,999,999
    mu1: int = 0  # 14,900,000 to 15,100,000
    mu2: int = 0  # ±100
    tan_f1: int = 0  # 400,000 to 500,000, in 10^-8
    tan_f2: int = 0  # likewise


@dataclass(frozen=True)
class Station:
    """A station."""

    number: int  # 1 to 999
    latitude: int  # geodetic on Krasovsky's spheroid, 10^-6 degree, ±90,000,000
    longitude: int  # 10^-6 degree, ±180,000,000, east positive
    height: int  # metres, -500 to 9,000
    # ephemeris less universal time, hundredths of a second, -10,000 to 20,000; 0 for elements by universal time
    delta_t: int


@dataclass(frozen=True)
class Window:
    """A window of ephemeris seconds, both ends included: -10,800 <= first <= last <= 10,800."""

    first: int
    last: int


@dataclass(frozen=True)
class Request:
    """What a sheet is asked for. Numbers outside document 01's ranges are the library's to refuse.

    guard: how near to a cone's edge nothing is sure, in 10^-8 of the Earth's equatorial radius, 16 to 1,000. A larger
        guard only withholds: what is sure under it is sure, with the same answer, under every smaller one.
    """

    elements: Elements
    station: Station
    window: Window
    guard: int = LEAST_GUARD

    def to_bytes(self) -> bytes:
        """The 115 bytes that the library takes; ValueError where a number does not fit its bytes or is not whole."""
        elements = b"\x02" + _elements_bytes(self.elements, Elements)
        return elements + _station_bytes(self.station) + _window_bytes(self.window, self.guard)

    @staticmethod
    def from_bytes(request: bytes) -> "Request":
        """The request of 115 bytes; Refused(10, 0) where they are not of its shape."""
        request = _bytes(request, "request")
        if len(request) != REQUEST_LENGTH:
            raise Refused(10, 0)
        numbers = _REQUEST.unpack(request)
        if (numbers[0], numbers[23], numbers[29]) != (2, 3, 4):
            raise Refused(10, 0)
        return Request(Elements(*numbers[1:23]), Station(*numbers[24:29]), Window(*numbers[30:32]), numbers[32])


@dataclass(frozen=True)
class StarElements:
    """The elements of an occultation, in document 02's order. Coefficients are per hour.

    x and y are the Moon's centre in the fundamental plane, which is at right angles to the star's direction.
    """

    x0: int = 0  # to the east, ±200,000,000
    x1: int = 0  # ±100,000,000
    x2: int = 0  # ±100,000
    x3: int = 0  # ±10,000
    y0: int = 0  # to the north, y as x
    y1: int = 0
    y2: int = 0
    y3: int = 0
    d0: int = 0  # the star's declination, angle, ±30,000,000
    mu0: int = 0  # its hour angle, 0 to 359,999,999
    mu1: int = 0  # 14,900,000 to 15,100,000; a star's is 15,041,069
    mu2: int = 0  # ±100


@dataclass(frozen=True)
class StarRequest:
    """What a star's sheet is asked for. Numbers outside their ranges are the library's to refuse.

    radius: the Moon's, in 10^-8 of the Earth's equatorial radius, 27,200,000 to 27,300,000.
    guard: how near to the cylinder's edge nothing is sure, as in Request.
    """

    elements: StarElements
    radius: int
    station: Station
    window: Window
    guard: int = LEAST_GUARD

    def to_bytes(self) -> bytes:
        """The 79 bytes that the library takes; ValueError where a number does not fit its bytes or is not whole."""
        elements = b"\x05" + _elements_bytes(self.elements, StarElements)
        radius = _number_bytes(self.radius, 4, True, "radius")
        return elements + radius + _station_bytes(self.station) + _window_bytes(self.window, self.guard)

    @staticmethod
    def from_bytes(request: bytes) -> "StarRequest":
        """The request of 79 bytes; Refused(10, 0) where they are not of its shape."""
        request = _bytes(request, "request")
        if len(request) != STAR_REQUEST_LENGTH:
            raise Refused(10, 0)
        numbers = _STAR_REQUEST.unpack(request)
        if (numbers[0], numbers[14], numbers[20]) != (5, 3, 4):
            raise Refused(10, 0)
        elements, radius = StarElements(*numbers[1:13]), numbers[13]
        return StarRequest(elements, radius, Station(*numbers[15:20]), Window(*numbers[21:23]), numbers[23])


HAND_WORKED = Request(
    Elements(
        x1=36_000_000, y0=99_664_768, l1_0=54_000_000, l2_0=-1_000_000, mu1=15_000_000, tan_f1=460_000, tan_f2=458_000
    ),
    Station(number=7, latitude=90_000_000, longitude=0, height=0, delta_t=0),
    Window(-6000, 6000),
)  # document 01's hand-worked case: an axis that crosses the north pole at the reference instant


# ---- entries of a sheet


class Phase(Enum):
    """The shadow that an entry is about; a star's stands in place of the other two, and no sheet has both."""

    PENUMBRA = "penumbra"
    CENTRAL = "central"
    STAR = "star"


# Seconds count from the reference instant. A direction is in tenths of a degree, north through east, 0 to 3,599; None
# where the axis goes through the station. `from_` is from, which Python keeps for itself. Enter, leave, graze and open
# are document 01's words.


@dataclass(frozen=True)
class Head:
    """The station's number, 1 to 999, the window and the request's guard, 16 to 1,000."""

    station: int
    first: int
    last: int
    guard: int


@dataclass(frozen=True)
class Enter:
    """Outside at from, inside at to; direction at to."""

    phase: Phase
    from_: int
    to: int
    direction: Optional[int]


@dataclass(frozen=True)
class Leave:
    """Inside at from, outside at to; direction at from."""

    phase: Phase
    from_: int
    to: int
    direction: Optional[int]


@dataclass(frozen=True)
class Graze:
    """One state at from and to, with unsure seconds between them."""

    phase: Phase
    from_: int
    to: int


@dataclass(frozen=True)
class Open:
    """Unsure seconds at an end of the window, up to the nearest sure second."""

    phase: Phase
    from_: int
    to: int


@dataclass(frozen=True)
class Closest:
    """The second at which the axis is closest to the station; its magnitude in millionths, 0 after an entry of a star.

    It is the second of least distance in the fundamental plane; the greatest magnitude came up to 14 s from it.
    """

    second: int
    magnitude: int


@dataclass(frozen=True)
class Share:
    """How much of the Sun's disc is covered at the closest second, millionths, 0 to 1,000,000.

    It stands directly after Closest, in a sheet that has it; no sheet with an entry of a star has it.
    """

    share: int


@dataclass(frozen=True)
class End:
    """The end of the sheet."""


Entry = Union[Head, Enter, Leave, Graze, Open, Closest, Share, End]
_ENTRIES = (Head, Enter, Leave, Graze, Open, Closest, Share, End)

_SHIFT = 10_800  # a second is stored plus this
_NONE = 65_535  # direction where there is none
_BAD = 0xFFFF_FFFF  # breaks every rule; stands for a number that cannot be stored
_BASE = {Phase.PENUMBRA: 0x10, Phase.CENTRAL: 0x20, Phase.STAR: 0x40}
_PHASES = {base: phase for phase, base in _BASE.items()}
_OF_PHASE = (Enter, Leave, Graze, Open)  # kinds from the phase's base on


def _fit(number: int) -> int:
    return number if 0 <= number <= _BAD else _BAD


def _tenths(direction: int) -> int:
    return direction if 0 <= direction < 3_600 else _BAD


def _direction(tenths: int) -> Optional[int]:
    return None if tenths == _NONE else tenths


def _numbers(entry: Entry, at: int) -> List[int]:
    """The entry as the library has it: its kind and the kind's fields. It is entry `at` of a list."""
    if not isinstance(entry, _ENTRIES):
        raise TypeError(f"entry {at} must be an entry such as Head or Enter, not {_shown(entry)}")
    of = f" of entry {at}, {type(entry).__name__},"

    def number(name: str) -> int:
        return _fit(_index(getattr(entry, name), name, of))

    def stored(name: str) -> int:
        return _fit(_index(getattr(entry, name), name, of) + _SHIFT)

    if isinstance(entry, Head):
        return [0x01, number("station"), stored("first"), stored("last"), number("guard")]
    if isinstance(entry, Closest):
        return [0x30, stored("second"), number("magnitude"), 0, 0]
    if isinstance(entry, Share):
        return [0x31, number("share"), 0, 0, 0]
    if isinstance(entry, End):
        return [0x7F, 0, 0, 0, 0]
    direction = 0
    if isinstance(entry, (Enter, Leave)):
        direction = _NONE if entry.direction is None else _tenths(_index(entry.direction, "direction", of))
    _instance(entry.phase, Phase, "phase" + of)
    kind = _BASE[entry.phase] + next(at for at, made in enumerate(_OF_PHASE) if isinstance(entry, made))
    return [kind, stored("from_"), stored("to"), direction, 0]


def _entry(kind: int, a: int, b: int, c: int, d: int) -> Entry:
    """The entry of numbers that the library gave."""
    if kind == 0x01:
        return Head(a, b - _SHIFT, c - _SHIFT, d)
    if kind == 0x30:
        return Closest(a - _SHIFT, b)
    if kind == 0x31:
        return Share(a)
    if kind == 0x7F:
        return End()
    phase, made = _PHASES[kind & 0xF0], _OF_PHASE[kind & 0x0F]
    if made in (Enter, Leave):
        return made(phase, a - _SHIFT, b - _SHIFT, _direction(c))
    return made(phase, a - _SHIFT, b - _SHIFT)


# ---- one second


class State(Enum):
    """The state of a station in a shadow at a second; unsure is within the guard plus 13 units of the cone's edge."""

    OUTSIDE = 0
    INSIDE = 1
    UNSURE = 2


@dataclass(frozen=True)
class Second:
    """The shadow at one second."""

    u: int  # axis less station, to the east
    v: int  # the same to the north
    l1: int  # radius of the penumbra at the station
    l2: int  # of the central cone, below zero where the eclipse is total
    penumbra: State
    central: State
    magnitude: int  # millionths, 0 to 1,300,000
    direction: Optional[int]  # tenths of a degree, None where u and v are 0


@dataclass(frozen=True)
class StarSecond:
    """The shadow of a star at one second."""

    u: int  # axis less station, to the east: the Moon's centre from the star
    v: int  # the same to the north
    radius: int  # the Moon's
    state: State  # inside, the star is hidden
    direction: Optional[int]  # tenths of a degree, None where u and v are 0


@dataclass(frozen=True)
class Horizon:
    """Where the Sun's centre or a star is in the station's sky at one second, in tenths of a degree.

    No refraction and no dip. The horizon is the plane at right angles to the spheroid's normal, so the altitude
    depends on the geodetic latitude. An angle from the zenith is a direction, such as a contact's, less `zenith`,
    modulo 3,600.
    """

    altitude: int  # rounded down, -900 to 900; below 0 it is under the horizon
    azimuth: Optional[int]  # from north through east, 0 to 3,599; None straight overhead or straight down
    zenith: Optional[int]  # direction of the zenith from the Sun's centre or the star, likewise


@dataclass(frozen=True)
class Bracket:
    """Two hundredths of a second from the reference instant, between which a contact lies.

    At the earlier the station is truly on the side of the first of the two seconds, at the later truly on that of the
    second: by Bessel's formulas with nothing rounded, for circular limbs, the elements as given, and the station on
    Krasovsky's spheroid. Limb, refraction and the elements' own errors are not in it.
    """

    earlier: int  # -1,080,000 to 1,080,000
    later: int


# ---- the library


def _load() -> ctypes.CDLL:
    here = Path(__file__).resolve().parent
    named = os.environ.get("UKHTVARESH_LIB")
    # Of a wheel the library is in the package; in the repository python/build makes it.
    folders = [Path(named).resolve()] if named else [here, here.parent.parent / "target" / "staticlib"]
    shared = next((path for path in (folder / "libukhtvaresh.so" for folder in folders) if path.is_file()), None)
    if shared is None:
        raise ImportError(
            f"There is no {folders[-1] / 'libukhtvaresh.so'}. "
            "Run `tools/build library` and then `python/build` at the repository's top."
        )
    library = ctypes.CDLL(str(shared))
    data, length, room = ctypes.c_char_p, ctypes.c_size_t, ctypes.c_void_p
    value = ctypes.POINTER(ctypes.c_uint64)
    library.ukhtvaresh_sheet.argtypes = [data, length, room, length, room, length, value]
    library.ukhtvaresh_sheet_and_share.argtypes = library.ukhtvaresh_sheet.argtypes
    library.ukhtvaresh_star.argtypes = library.ukhtvaresh_sheet.argtypes
    library.ukhtvaresh_share.argtypes = [data, length, ctypes.c_int64, room, length, value]
    library.ukhtvaresh_second.argtypes = [data, length, ctypes.c_int64, room, length, room, length, value]
    library.ukhtvaresh_star_second.argtypes = library.ukhtvaresh_second.argtypes
    library.ukhtvaresh_horizon.argtypes = library.ukhtvaresh_second.argtypes
    library.ukhtvaresh_star_horizon.argtypes = library.ukhtvaresh_second.argtypes
    asked = [ctypes.c_int64, ctypes.c_int64, ctypes.c_int64]
    library.ukhtvaresh_contact.argtypes = [data, length, *asked, room, length, room, length, value]
    library.ukhtvaresh_star_contact.argtypes = library.ukhtvaresh_contact.argtypes
    library.ukhtvaresh_mirror.argtypes = [data, length, room, length, value]
    library.ukhtvaresh_read.argtypes = [data, length, room, length, value]
    library.ukhtvaresh_extent.argtypes = [data, length, value]
    library.ukhtvaresh_write.argtypes = [room, length, room, length, value]
    library.ukhtvaresh_listing.argtypes = [data, length, room, length, value]
    library.ukhtvaresh_typed.argtypes = [data, length, room, length, room, length, room, length, value]
    library.ukhtvaresh_times.argtypes = [data, length, room, length, room, length, room, length, room, length, value]
    library.ukhtvaresh_fit.argtypes = [room, length, room, length, ctypes.c_int64, value]
    library.ukhtvaresh_from_tables.argtypes = [room, length, room, length, value]
    tables = [room, length, room, length, room, length, ctypes.c_int64]
    library.ukhtvaresh_elements.argtypes = tables + [room, length, room, length, room, length, value]
    library.ukhtvaresh_root.argtypes = [ctypes.c_uint64, value]
    library.ukhtvaresh_mend.argtypes = [data, length, room, length, room, length, value, value]
    survey = [room, length, ctypes.c_double, ctypes.c_uint64, room, length]
    library.ukhtvaresh_sheet_of_doubles.argtypes = survey + [room, length, room, length, value]
    library.ukhtvaresh_doubles.argtypes = [room, length, room, length, value]
    library.ukhtvaresh_network.argtypes = [room, length, room, length, room, length, room, length, value]
    names = "sheet sheet_and_share star second star_second share horizon star_horizon contact star_contact mirror read"
    names += " extent write listing fit elements typed times from_tables root mend sheet_of_doubles doubles network"
    for name in names.split():
        getattr(library, "ukhtvaresh_" + name).restype = ctypes.c_uint64
    return library


_library = _load()


def _call(name: str, *arguments) -> int:
    """The length, the count, the share or the station that the library's function gives, or its refusal."""
    value = ctypes.c_uint64()
    number = getattr(_library, "ukhtvaresh_" + name)(*arguments, ctypes.byref(value))
    if number:
        refused = Refused(number, value.value)
        raise _with_field(refused, arguments[0]) if name in _OF_REQUESTS else refused
    return value.value


# The functions whose first argument is a request's bytes.
_OF_REQUESTS = frozenset("sheet sheet_and_share star share second star_second horizon star_horizon".split())


# What the elements of a buffer may be: their size in bytes, the letters of their format as in module struct, and words.
_BYTES = (1, "Bbc", "bytes")
_SIGNED = (8, "qln", "64-bit signed numbers (c_int64)")
_UNSIGNED = (8, "QLN", "64-bit unsigned numbers (c_uint64)")
_DOUBLES = (8, "d", "doubles (c_double)")
_OTHER_ORDER = ">!" if sys.byteorder == "little" else "<"


def _lent(buffer, name: str, elements=_BYTES):
    """A writable buffer as memory and the number of its elements; TypeError where the library could not write to it.

    The library needs a pointer that is not null, also for no elements.
    """
    size, letters, words = elements
    wanted, kind = f"{name} must be a writable buffer of {words}", type(buffer).__name__
    try:
        view = memoryview(buffer)
    except (TypeError, ValueError, BufferError):
        raise TypeError(f"{wanted}, not {_shown(buffer)}") from None
    if view.readonly:
        raise TypeError(f"{wanted}; this {kind} is read-only")
    letter = view.format.lstrip("@=<>!")
    foreign = size > 1 and view.format[:1] in tuple(_OTHER_ORDER)
    if view.itemsize != size or len(letter) != 1 or letter not in letters or foreign:
        held = f"{view.itemsize} byte{'s' if view.itemsize != 1 else ''}, format {view.format!r}"
        raise TypeError(f"{wanted}; an element of this {kind} has {held}")
    if not view.c_contiguous:
        raise TypeError(f"{wanted} that follow one another in memory; this {kind} has gaps")
    if view.nbytes == 0:
        return (ctypes.c_uint8 * 1)(), 0
    return (ctypes.c_uint8 * view.nbytes).from_buffer(view), view.nbytes // size


def _apart(one, its_name: str, other, other_name: str) -> None:
    """ValueError where two buffers of bytes, as _lent gives them, have a byte in common."""
    (a, length), (b, other_length) = one, other
    start, other_start = ctypes.addressof(a), ctypes.addressof(b)
    if start < other_start + other_length and other_start < start + length and length and other_length:
        raise ValueError(f"{its_name} and {other_name} overlap: give two buffers that have no byte in common")


def _listed(values: Iterable, name: str, number: Callable):
    """The values as a ctypes array of 64-bit numbers, one longer, and their count. `number` takes a value and place."""
    made = [number(value, at) for at, value in enumerate(_items(values, name))]
    return (ctypes.c_int64 * (len(made) + 1))(*made), len(made)


_SINES = 901  # numbers of the sine table
_rooms = threading.local()


def _sines():
    """The buffer for the sine table, which each call fills again, and its length: one for each thread, used in call
    after call."""
    if not hasattr(_rooms, "sines"):
        _rooms.sines = (ctypes.c_uint32 * _SINES)()
    return _rooms.sines, _SINES


def _whole(fill: Callable[[bytearray], int]) -> bytes:
    """What `fill` writes, at its exact length. Few sheets pass 128 bytes; else refusal 4 tells the length."""
    buffer = bytearray(128)
    try:
        length = fill(buffer)
    except Refused as refused:
        if refused.number != 4:
            raise
        buffer = bytearray(refused.place)
        length = fill(buffer)
    return bytes(buffer[:length])


def sheet_into(request: bytes, buffer) -> int:
    """Puts the contact sheet of a request at the start of a writable buffer; gives its length in bytes.

    The bytes past the sheet, and on refusal all bytes, keep what they held.
    Refusals, the first of them: 10, 1, 2, 3, 4.
    """
    lent, request = _lent(buffer, "buffer"), _bytes(request, "request")
    return _call("sheet", request, len(request), *_sines(), *lent)


def sheet(request: Union[Request, StarRequest, str, bytes]) -> bytes:
    """The contact sheet of a Request or a StarRequest, of a typed text (str), or of the 115 bytes of a request.

    A typed text may be a star's. Refusals, the first of them: 20 with the line of a typed text; 10, 1, 2, 13, 3.

    >>> len(sheet(HAND_WORKED)), sheet(HAND_WORKED) == sheet(HAND_WORKED.to_bytes())
    (45, True)
    """
    if isinstance(request, str):
        from ._texts import typed

        text, request = request, typed(request).request
        try:
            return _sheet_of(request)
        except Refused as refused:
            raise _with_line(refused, text) from None
    if isinstance(request, (Request, StarRequest)):
        return _sheet_of(request.to_bytes())
    return _whole(lambda buffer: sheet_into(request, buffer))


def _sheet_of(request: bytes) -> bytes:
    """The sheet of an eclipse's or a star's bytes."""
    fill = star_into if request[:1] == b"\x05" else sheet_into
    return _whole(lambda buffer: fill(request, buffer))


def _with_line(refused: Refused, text: str) -> Refused:
    """The refusal with the line of a text that has its field."""
    from ._texts import line_of

    refused.line = line_of(text, refused.field)
    return refused


def sheet_and_share_into(request: bytes, buffer) -> int:
    """As sheet_into, but the sheet has the covered share at its closest second, a Share between Closest and End: 5
    bytes more."""
    lent, request = _lent(buffer, "buffer"), _bytes(request, "request")
    return _call("sheet_and_share", request, len(request), *_sines(), *lent)


def sheet_and_share(request: bytes) -> bytes:
    """The same sheet. Refusals, the first of them: 10, 1, 2, 3.

    >>> read(sheet_and_share(HAND_WORKED.to_bytes()))[-2]
    Share(share=1000000)
    """
    return _whole(lambda buffer: sheet_and_share_into(request, buffer))


def star_into(request: bytes, buffer) -> int:
    """Puts the sheet of a star behind the Moon at the start of a writable buffer; gives its length in bytes.

    Its entries are of Phase.STAR: Enter where the star vanishes, Leave where it appears again. A direction is that of
    the Moon's centre from the star. The closest second has magnitude 0. The bytes past the sheet, and on refusal all
    bytes, keep what they held. Refusals, the first of them: 10, 1, 2, 13, 3, 4.
    """
    lent, request = _lent(buffer, "buffer"), _bytes(request, "request")
    return _call("star", request, len(request), *_sines(), *lent)


def star(request: bytes) -> bytes:
    """The same sheet. Refusals, the first of them: 10, 1, 2, 13, 3."""
    return _whole(lambda buffer: star_into(request, buffer))


def share(request: bytes, second: int) -> int:
    """How much of the Sun's disc the Moon covers at a second of a request, -10,800 to 10,800, also outside its window.

    Millionths, rounded down, 0 to 1,000,000: 1,000,000 wherever the total phase is sure, 0 where the penumbra is surely left.
    Refusals, the first of them: 10, 1 (for the window or the second, then for the guard), 2, 3.

    >>> share(HAND_WORKED.to_bytes(), 0)  # total
    1000000
    """
    request, second = _bytes(request, "request"), _signed(second, "second")
    return _call("share", request, len(request), second, *_sines())


def second(request: bytes, second: int) -> Second:
    """The shadow at a second of a request, -10,800 to 10,800, also outside its window.

    Refusals, the first of them: 10, 1 (for the window or the second, then for the guard), 2, 3.

    >>> second(HAND_WORKED.to_bytes(), 0).magnitude
    1037735
    """
    request, second = _bytes(request, "request"), _signed(second, "second")
    shadow = (ctypes.c_int64 * 8)()
    _call("second", request, len(request), second, *_sines(), shadow, 8)
    u, v, l1, l2, penumbra, central, magnitude, direction = shadow
    return Second(u, v, l1, l2, State(penumbra), State(central), magnitude, _direction(direction))


def star_second(request: bytes, second: int) -> StarSecond:
    """The shadow at a second of a star request, -10,800 to 10,800, also outside its window.

    Refusals, the first of them: 10, 1 (for the window or the second, then for the guard), 2, 13, 3.
    """
    request, second = _bytes(request, "request"), _signed(second, "second")
    shadow = (ctypes.c_int64 * 5)()
    _call("star_second", request, len(request), second, *_sines(), shadow, 5)
    u, v, radius, state, direction = shadow
    return StarSecond(u, v, radius, State(state), _direction(direction))


def _horizon(name: str, request: bytes, second: int) -> Horizon:
    """The horizon that one of two functions gives."""
    request, second = _bytes(request, "request"), _signed(second, "second")
    horizon = (ctypes.c_int64 * 3)()
    _call(name, request, len(request), second, *_sines(), horizon, 3)
    altitude, azimuth, zenith = horizon
    return Horizon(altitude, _direction(azimuth), _direction(zenith))


def horizon(request: bytes, second: int) -> Horizon:
    """Where the Sun's centre is at a second of a request, -10,800 to 10,800, also outside its window.

    No refraction and no dip. The mirror of a request has the same altitude at every second.
    Refusals, the first of them: 10, 1 (for the window or the second, then for the guard), 2, 3.

    >>> horizon(HAND_WORKED.to_bytes(), 0)
    Horizon(altitude=0, azimuth=1800, zenith=0)
    """
    return _horizon("horizon", request, second)


def star_horizon(request: bytes, second: int) -> Horizon:
    """Where the star is at a second of a star request, -10,800 to 10,800, also outside its window.

    No refraction and no dip.
    Refusals, the first of them: 10, 1 (for the window or the second, then for the guard), 2, 13, 3.
    """
    return _horizon("star_horizon", request, second)


# The number of a phase; an eclipse has no phase of a star.
_PHASE_NUMBERS = {Phase.PENUMBRA: 0, Phase.CENTRAL: 1, Phase.STAR: 2}


def _contact(name: str, request: bytes, phase: int, from_: int, to: int) -> Bracket:
    """The bracket that one of two functions gives."""
    request, from_, to = _bytes(request, "request"), _signed(from_, "from_"), _signed(to, "to")
    bracket = (ctypes.c_int64 * 2)()
    _call(name, request, len(request), phase, from_, to, *_sines(), bracket, 2)
    return Bracket(*bracket)


def contact(request: bytes, phase: Phase, from_: int, to: int) -> Bracket:
    """Where the contact of a phase between two seconds of a request lies, such as those of an enter or a leave.

    -10,800 <= from_ <= to <= 10,800, also outside its window. One of the two seconds must be surely outside and the other
    surely inside, under the larger of the request's guard and 32; of a sheet with a guard of 32 or more every enter and
    leave is so.
    Refusals, the first of them: 10, 1 (for the window or the two seconds, then for the guard), 2, 3, 22.
    """
    if not isinstance(phase, Phase):
        raise TypeError(f"phase is {phase!r}, not a Phase")
    return _contact("contact", request, _PHASE_NUMBERS[phase], from_, to)


def star_contact(request: bytes, from_: int, to: int) -> Bracket:
    """The same of the star of a star request.

    Refusals, the first of them: 10, 1 (for the window or the two seconds, then for the guard), 2, 13, 3, 22.
    """
    return _contact("star_contact", request, 0, from_, to)


def mirror(request: bytes) -> bytes:
    """The mirror of a request: all y and d coefficients and the latitude with the other sign, nothing else changed.

    Any numbers: -2^31, which has no opposite in its bytes, stays as it is. The sheet of the mirror of a request within
    the limits has the same entries, of the same seconds, magnitude, share and length; their directions differ. A request that
    is refused 1, 2 or 3 and its mirror are refused alike. Taken twice the mirror is the first request. Refusal: 10.

    >>> Request.from_bytes(mirror(HAND_WORKED.to_bytes())).station.latitude
    -90000000
    """
    request = _bytes(request, "request")
    mirrored = bytearray(REQUEST_LENGTH)
    _call("mirror", request, len(request), *_lent(mirrored, "mirrored"))
    return bytes(mirrored)


def read(sheet: bytes) -> List[Entry]:
    """The entries of a sheet, head and end among them.

    Refusals: the first faulty record's, in it 5, 6, 8, 7; then 9.

    >>> read(sheet(HAND_WORKED))[1]
    Enter(phase=<Phase.PENUMBRA: 'penumbra'>, from_=-5401, to=-5399, direction=2700)
    """
    sheet = _bytes(sheet, "sheet")
    # An entry is five numbers. Its record has five bytes or more, save the end's one, and the head's nine make up for
    # that: as many numbers as the sheet has bytes are always enough.
    numbers = (ctypes.c_uint32 * (len(sheet) + 1))()
    count = _call("read", sheet, len(sheet), numbers, len(sheet))
    return [_entry(*numbers[5 * k : 5 * k + 5]) for k in range(count)]


def extent(data: bytes) -> int:
    """The length of the well-formed sheet that some bytes begin with, whatever follows it.

    Refusals as read, but 9.
    """
    data = _bytes(data, "data")
    return _call("extent", data, len(data))


def write_into(entries: Iterable[Entry], buffer) -> int:
    """Puts the sheet of entries at the start of a writable buffer; gives its length in bytes.

    The bytes past the sheet, and on refusal all bytes, keep what they held. Refusals: the first faulty entry's, in it
    8, 7; 6 where the list stops before its end; 9; then 4. Places are those that the records have or would have in
    the sheet. A whole number that cannot be stored is refused as 7; any other value raises NotWhole.
    """
    lent = _lent(buffer, "buffer")
    listed = [number for at, entry in enumerate(_items(entries, "entries")) for number in _numbers(entry, at)]
    handed = (ctypes.c_uint32 * (len(listed) + 1))(*listed)
    return _call("write", handed, len(listed), *lent)


def write(entries: Iterable[Entry]) -> bytes:
    """The sheet of entries. Refusals as write_into, but 4.

    >>> write(read(sheet(HAND_WORKED))) == sheet(HAND_WORKED)
    True
    """
    entries = _items(entries, "entries")
    return _whole(lambda buffer: write_into(entries, buffer))


def listing(sheet: bytes) -> str:
    """The listing of a sheet, as program `listing` prints it: a line for each entry but the end. Refusals as read.

    >>> listing(sheet(HAND_WORKED)).splitlines()[-1]
    'closest 0 1037735'
    """
    sheet = _bytes(sheet, "sheet")
    return _whole(lambda buffer: _call("listing", sheet, len(sheet), *_lent(buffer, "text"))).decode("ascii")


# ---- typed texts and clock times


@dataclass(frozen=True)
class Instant:
    """The date and time of second 0, in the Gregorian calendar, 1583 to 9999."""

    scale: int  # 1 ephemeris time, 2 universal time
    year: int
    month: int
    day: int
    hundredths: int  # of a second from 0h, 0 to 8,639,999
    tai_utc: int = 0  # TAI less UTC in seconds, 10 to 99 and only from 1972 on; 0 where it is not given


def typed(text: Union[str, bytes]) -> Tuple[bytes, Optional[Instant]]:
    """The bytes of the request that a typed text is, of an eclipse or of a star, and its instant, if it has one.

    A text that program `request` refuses raises Fault with its first invalid line.
    """
    given = text.encode() if isinstance(text, str) else _bytes(text, "text")
    # A message has at most 87 bytes beside the text's own.
    request, numbers, message = bytearray(REQUEST_LENGTH), (ctypes.c_uint64 * 6)(), bytearray(len(given) + 128)
    into = (*_lent(request, "request"), *_lent(numbers, "instant", _UNSIGNED), *_lent(message, "message"))
    try:
        length = _call("typed", given, len(given), *into)
    except Refused as refused:
        if refused.number != 20:
            raise
        raise Fault(refused.place, bytes(message[: message.index(b"\n") + 1])) from None
    return bytes(request[:length]), Instant(*numbers) if numbers[0] else None


def times(request: bytes, instant: Optional[Instant] = None) -> str:
    """What program `times` prints of a request, a star's if it has 79 bytes: the listing of its sheet with clock times
    by the instant, altitudes and notes.

    Refusals, the first of them: 23 for the instant; then those of sheet, or of star.
    """
    request = _bytes(request, "request")
    given = [_index(getattr(instant, field.name), field.name) for field in fields(Instant)] if instant else [0] * 6
    # A number that 64 bits cannot have is outside its range too: the largest one stands for it.
    numbers = (ctypes.c_uint64 * 6)(*(n if 0 <= n < 2**64 else 2**64 - 1 for n in given))
    length = 1024
    while True:
        sheet, text = bytearray(length), bytearray(length)
        into = (*_sines(), *_lent(sheet, "sheet"), *_lent(text, "text"))
        try:
            written = _call("times", request, len(request), numbers, 6, *into)
        except Refused as refused:
            if refused.number != 4:
                raise
            length = refused.place
        else:
            return bytes(text[:written]).decode("ascii")


# ---- fits


def fit(coefficients: Sequence[int], tabulated: Sequence[int], tolerance: int) -> None:
    """Accepts a cubic's four coefficients for seven tabulated hourly values, -3 to 3, or raises Refused.

    Accepted exactly if the tolerance is 0 to 1,000 units, the tabulated values are within ±10^9, the coefficients in the
    ranges of x, and at each hour the value of document 01's rule differs from the tabulated one by at most the tolerance.
    Refusals, the first of them: 10 (not four and seven), 18, 2, 17.

    >>> fit([0, 36_000_000, 0, 0], [36_000_000 * hour for hour in range(-3, 4)], 0)
    """
    lists = [
        *_listed(coefficients, "coefficients", lambda value, at: _signed(value, f"coefficient {at}")),
        *_listed(tabulated, "tabulated", lambda value, at: _signed(value, f"tabulated value {at}")),
    ]
    _call("fit", *lists, _signed(tolerance, "tolerance"))


# ---- the root


@dataclass(frozen=True)
class Root:
    """The root of a number, and the rounds in which it is found.

    The number of rounds is that of the definition and of the one loop that runs. It says nothing of time.
    """

    root: int  # the largest whole number whose square is at most the number
    rounds: int  # one for each two bits up to the highest one set, a single bit at the top counting as two; 0 to 32


def root(n: int) -> Root:
    """The root of n with its rounds: none for 0, at most 30 for n below 2^60. ValueError unless n is 0 to 2^64 - 1.

    >>> root(10)
    Root(root=3, rounds=2)
    """
    n = _index(n, "n")
    if not 0 <= n < 2**64:
        raise ValueError(f"n must be 0 to 2^64 - 1, not {_shown(n)}")
    rounds = ctypes.c_uint64()
    return Root(_library.ukhtvaresh_root(n, ctypes.byref(rounds)), rounds.value)


# ---- elements from tables of Sun and Moon

ROWS = 7


@dataclass(frozen=True)
class Row:
    """Apparent places from the Earth's centre at one hour, 10^-8 of its equatorial radius; the third to the north pole.

    The Sun is set for a parallax of 8.80": see from_tables.
    """

    sun_x: int  # the Sun, 23,000 to 24,000 radii off
    sun_y: int
    sun_z: int
    moon_x: int  # the Moon, 55 to 65 radii off
    moon_y: int
    moon_z: int


@dataclass(frozen=True)
class Besselian:
    """The elements of one row. Lengths lie within 1,000 units of the exact values, the others within 4."""

    x: int  # the Moon across the axis, to the east, 10^-8 radius
    y: int  # the same to the north
    sin_d: int  # 10^-8
    cos_d: int
    tan_f1: int
    tan_f2: int
    l1: int  # the penumbra's radius in the fundamental plane, 10^-8 radius
    l2: int  # the central cone's, below zero where the eclipse is total


def _coordinate(value, name: str, of: str = "") -> int:
    """A whole number of 64 bits. A table's numbers have no range of their own, so none may stand for another."""
    number = _index(value, name, of)
    if not -(2**63) <= number < 2**63:
        raise ValueError(f"{name}{of} does not fit 64 bits: {_shown(number)}")
    return number


def from_tables_into(rows: Iterable[int], values) -> int:
    """Puts the values of 42 numbers at the start of `values`, a writable buffer of 64-bit signed numbers; gives 56.

    `values` is a ctypes array of c_int64, an array.array("q") or a numpy array of int64. What lies past the 56, and on
    refusal all of it, keeps what it held. A number beyond 64 bits is ValueError.
    Refusals: 10 for another count than 42; 11 with the first row outside its distances; then 4 with 56.
    """
    lent = _lent(values, "values", _SIGNED)
    listed = _listed(rows, "rows", lambda value, at: _coordinate(value, f"number {at} of rows"))
    return _call("from_tables", *listed, *lent)


def from_tables(rows: Iterable[Row]) -> List[Besselian]:
    """The Besselian elements of seven hourly rows. Refusals: 10 unless they are seven, 11 with the first bad row.

    The Sun's radius is document 02's, 109.04847 Earth radii. That is 959.63" at one astronomical unit only for a solar
    parallax of 8.80", so set the Sun at its distance in astronomical units times 1 / sin 8.80" = 23,439.18 Earth radii,
    and not times today's 23,454.8: with that the Sun is 0.64" too small, and second and third contact come
    1.8 s wrong in the median and up to 8.5 s.
    The Moon's distance is the true one over the equatorial radius.
    """
    values, listed = (ctypes.c_int64 * 56)(), []
    for at, row in enumerate(_items(rows, "rows")):
        _instance(row, Row, f"row {at}")
        listed += [_coordinate(getattr(row, field.name), field.name, f" of row {at}") for field in fields(Row)]
    from_tables_into(listed, values)
    return [Besselian(*values[8 * k : 8 * k + 8]) for k in range(ROWS)]


@dataclass(frozen=True)
class Radii:
    """Radii of Sun and Moon, 10^-8 of the Earth's equatorial radius."""

    sun: int  # 10,890,000,000 to 10,930,000,000
    penumbra: int  # the Moon's for the penumbra, 27,200,000 to 27,300,000
    central: int  # the Moon's for the central cone, 27,200,000 to 27,300,000


# With document 02's radii the values of each row are those of from_tables.
DOCUMENT_02 = Radii(10_904_847_000, 27_227_400, 27_227_400)


@dataclass(frozen=True)
class Misfits:
    """How far each fit is from its seven values at most: lengths in 10^-8 radius, d and mu in 10^-6 degree."""

    x: int
    y: int
    d: int
    l1: int
    l2: int
    mu: int


def elements_into(
    rows: Iterable[int], sidereal: Iterable[int], radii: Iterable[int], tolerance: int, elements, misfits
) -> int:
    """Puts the elements of 42, seven and three numbers at the start of `elements`, and the misfits of `misfits`; gives 22.

    Both are writable buffers of 64-bit signed numbers. What lies past the 22 and the six, and on refusal all of it,
    keeps what it held. A number beyond 64 bits is ValueError.
    Refusals, the first of them: 10 for other counts; 18; 21; 11; 2; 17; 4 with 22; 4 with 6.
    """
    first, second = _lent(elements, "elements", _SIGNED), _lent(misfits, "misfits", _SIGNED)
    lists = [
        *_listed(rows, "rows", lambda value, at: _coordinate(value, f"number {at} of rows")),
        *_listed(sidereal, "sidereal", lambda value, at: _coordinate(value, f"sidereal angle {at}")),
        *_listed(radii, "radii", lambda value, at: _coordinate(value, f"radius {at}")),
    ]
    return _call("elements", *lists, _signed(tolerance, "tolerance"), *_sines(), *first, *second)


def elements(
    rows: Iterable[Row], sidereal: Iterable[int], radii: Radii = DOCUMENT_02, tolerance: int = 1000
) -> Tuple[Elements, Misfits]:
    """The 22 elements of seven hourly rows and of Greenwich's apparent sidereal time at these hours, and the misfits.

    sidereal: 10^-6 degree, 0 to 359,999,999. x and y are cubics, d, l1, l2 and mu quadratics of least squares over the
    hours -3 to 3, tan f the middle row's. tolerance: 0 to 1,000 units. docs/ELEMENTS.md has the rule.
    Refusals, the first of them: 10 unless they are seven and seven; 18 with place 0 for the tolerance; 21 with place 0 to
    2 for a radius, 3 to 9 for a sidereal angle; 11 with the row; 2 with the element out of its range; 17 with ten times
    the fit, 0 to 5 in the order of the misfits, plus the first hour, 0 to 6, that misses by more than the tolerance.
    """
    made, off, listed = (ctypes.c_int64 * 22)(), (ctypes.c_int64 * 6)(), []
    for at, row in enumerate(_items(rows, "rows")):
        _instance(row, Row, f"row {at}")
        listed += [_coordinate(getattr(row, field.name), field.name, f" of row {at}") for field in fields(Row)]
    _instance(radii, Radii, "radii")
    elements_into(listed, sidereal, [radii.sun, radii.penumbra, radii.central], tolerance, made, off)
    return Elements(*made), Misfits(*off)


# ---- a file of sheets mended


@dataclass(frozen=True)
class Stretch:
    """An unbroken stretch of dropped bytes."""

    start: int  # its first byte, counted from 0 in the file
    length: int  # at least 1


@dataclass(frozen=True)
class Mended:
    """A file mended: the kept sheets in their order, and what was dropped, in order, with kept bytes between two
    stretches."""

    sheets: bytes
    stretches: List[Stretch]


def mend_into(file: bytes, sheets, dropped) -> Tuple[int, int]:
    """Mends a file into two writable buffers, which must not overlap; gives how many bytes each then has.

    `sheets` gets the kept sheets, `dropped` 16 bytes for each stretch, its start and its length, 8 each, big-endian.
    The bytes past them, and on refusal all bytes, keep what they held. Refusal: 4 with the length needed, `sheets`
    first.
    """
    kept_room, notes_room = _lent(sheets, "sheets"), _lent(dropped, "dropped")
    _apart(kept_room, "sheets", notes_room, "dropped")
    file = _bytes(file, "file")
    noted = ctypes.c_uint64()
    kept = ctypes.c_uint64()
    number = _library.ukhtvaresh_mend(
        file, len(file), *kept_room, *notes_room, ctypes.byref(kept), ctypes.byref(noted)
    )
    if number:
        raise Refused(number, kept.value)
    return kept.value, noted.value


def mend(file: bytes) -> Mended:
    """Mends a file of sheets appended to one another, of any size.

    From the start: where a whole well-formed sheet begins, it is kept, and the walk goes on behind it; otherwise one byte is
    dropped. A file of nothing but well-formed sheets comes out unchanged with no stretch. Kept bytes and the lengths of the
    stretches add up to the file's length. Its time went by that length on every file that
    was tried: measured, not proved.

    >>> mend(sheet(HAND_WORKED) + b"damage").stretches
    [Stretch(start=45, length=6)]
    """
    file = _bytes(file, "file")
    # a stretch and the sheet behind it have 18 bytes at least, and behind the last there may be none
    sheets, dropped = bytearray(len(file)), bytearray(len(file) + 16)
    kept, noted = mend_into(file, sheets, dropped)
    return Mended(bytes(sheets[:kept]), [Stretch(*numbers) for numbers in struct.iter_unpack(">QQ", dropped[:noted])])


# ---- positions as doubles


@dataclass(frozen=True)
class Degrees:
    """A longitude in degrees, east positive."""

    value: float


@dataclass(frozen=True)
class Hours:
    """A longitude in hours of time, 15 degrees each, east positive."""

    value: float


Longitude = Union[Degrees, Hours]


@dataclass(frozen=True)
class Survey:
    """What a sheet is asked for, as it was surveyed.

    elements: 22 floats, also a numpy array of them, in the order of Elements; lengths in Earth radii, angles in
        degrees, tangents as they are. A float is read as the binary fraction that it exactly is, to the nearest whole
        unit, halves away from zero. The rest is in whole numbers, as in Station and Request: latitude 55_755_000 is
        55.755 degrees, delta_t 6_880 is 68.8 seconds.
    """

    elements: Sequence[float]
    longitude: Longitude
    number: int
    latitude: int
    height: int
    delta_t: int
    window: Window
    guard: int = LEAST_GUARD


def sheet_of_doubles_into(survey: Survey, buffer) -> int:
    """Puts the contact sheet of a survey at the start of a writable buffer; gives its length: the sheet of the
    request in whole units.

    The bytes past the sheet, and on refusal all bytes, keep what they held. Refusals, the first of them: 10 for
    another count than 22; 1; 12 with the first float that is not finite; 2, 3 (a unit too large for 64 bits is
    outside its range); 4.
    """
    lent = _lent(buffer, "buffer")
    _instance(survey, Survey, "survey")
    elements = [_double(element, f"element {at}") for at, element in enumerate(_items(survey.elements, "elements"))]
    handed = (ctypes.c_double * (len(elements) + 1))(*elements)
    if not isinstance(survey.longitude, (Degrees, Hours)):
        raise TypeError(f"longitude must be Degrees(..) or Hours(..), not {_shown(survey.longitude)}")
    marked = (_double(survey.longitude.value, "longitude"), 1 if isinstance(survey.longitude, Hours) else 0)
    station = [_signed(getattr(survey, name), name) for name in "number latitude height delta_t".split()]
    window = [_signed(end, name) for end, name in zip(_fields(survey.window, Window, "window"), ("first", "last"))]
    rest = (ctypes.c_int64 * 7)(*station, *window, _signed(survey.guard, "guard"))
    return _call("sheet_of_doubles", handed, len(elements), *marked, rest, 7, *_sines(), *lent)


def sheet_of_doubles(survey: Survey) -> bytes:
    """The contact sheet of a survey. Refusals as sheet_of_doubles_into, but 4."""
    return _whole(lambda buffer: sheet_of_doubles_into(survey, buffer))


def _unit_name(at: int) -> Tuple[str, str]:
    """The name of a unit, and where it stands."""
    names = [field.name for field in fields(Elements)] + ["longitude"]
    return (names[at], f", unit {at},") if at < len(names) else (f"unit {at}", "")


def doubles_into(units: Iterable[int], room) -> int:
    """Puts 23 units, the elements and a longitude, as doubles at the start of `room`; gives 23. The longitude is in
    degrees.

    `room` is a writable buffer of doubles: a numpy array of float64, an array.array("d"), a ctypes array of c_double.
    What lies past the 23, and on refusal all of it, keeps what it held. Each double is one division by 10^8 or, of
    angles, by 1,000,000; read again it gives its unit back, for every unit in its range. Refusals: 10 for another
    count than 23; 2; 3 with 2 for the longitude; then 4 with 23.
    """
    lent = _lent(room, "room", _DOUBLES)
    return _call("doubles", *_listed(units, "units", lambda value, at: _signed(value, *_unit_name(at))), *lent)


def doubles(elements: Union[Elements, Iterable[int]], longitude: int) -> Tuple[List[float], Degrees]:
    """Elements and a longitude in whole units as floats. Refusals: 10 for another count than 22; 2; 3 with 2 for the longitude.

    >>> doubles(HAND_WORKED.elements, 37_570_000)[1]
    Degrees(value=37.57)
    """
    room = (ctypes.c_double * 23)()
    units = _fields(elements, Elements, "elements") if isinstance(elements, Elements) else _items(elements, "elements")
    doubles_into([*units, _index(longitude, "longitude")], room)
    return list(room[:22]), Degrees(room[22])


# ---- the whole network in one list

STATIONS = 64  # at most in a list


@dataclass(frozen=True)
class Node:
    """A station of a network's list, and the number of the station whose clock it follows, 0 being the antenna."""

    station: Station
    clock: int


@dataclass(frozen=True)
class Network:
    """What is said of a list.

    steps: how many steps each station's clock is from the antenna, in the list's order: 1 if it follows 0, else one
        more than the station it follows. first: the number of the station that the penumbra reaches first, whether or
        not the Sun is up there, None if none enters.
    """

    steps: List[int]
    first: Optional[int]


class _Node(ctypes.Structure):
    """A station as the library takes it, ukhtvaresh_node."""

    _fields_ = [(name, ctypes.c_int64) for name in "number latitude longitude height delta_t clock".split()]


def _eclipse_name(at: int) -> Tuple[str, str]:
    """The name of a number of the eclipse, and where it stands."""
    names = [field.name for field in fields(Elements)] + ["first", "last", "guard"]
    return (names[at], f", number {at} of eclipse,") if at < len(names) else (f"number {at} of eclipse", "")


def _node(node: Node, at: int) -> _Node:
    """Place `at` of a list."""
    of = f" of station {at} in the list"
    _instance(node, Node, f"station {at} in the list")
    station = _fields(node.station, Station, "station", of)
    return _Node(*(_signed(number, "") for number in station), _signed(node.clock, "clock", of))


def network_into(eclipse: Sequence[int], stations: Sequence[Node], steps) -> Optional[int]:
    """Puts the steps of a list at `steps`, 0 past the list; gives the first station, or None.

    `steps` is a writable buffer of 64 unsigned 64-bit numbers: a ctypes array of c_uint64, an array.array("Q"), a numpy
    array of uint64. eclipse: the 22 elements, first and last second of the window, guard. On refusal `steps` keeps what
    it held.
    Refusals, the first of them: 10 for other lengths than 25 and 64, 19, 1, 2, 3, 14, 15, 16.
    """
    room = _lent(steps, "steps", _UNSIGNED)
    common = _listed(eclipse, "eclipse", lambda value, at: _signed(value, *_eclipse_name(at)))
    nodes = [_node(node, at) for at, node in enumerate(_items(stations, "stations"))]
    lent = (_Node * (len(nodes) + 1))(*nodes)
    number = _call("network", *common, lent, len(nodes), *_sines(), *room)
    return number or None


def network(elements: Elements, window: Window, stations: Sequence[Node], guard: int = LEAST_GUARD) -> Network:
    """How far the clocks of a list are from the antenna, and which station the penumbra reaches first.

    The first is the station whose first Enter of the penumbra, in the sheet that it gets alone, has the smallest `to`, the first in the
    list among equals. Refusals, the first of them: 19, 1, 2, 3, 14, 15, 16.

    >>> network(HAND_WORKED.elements, HAND_WORKED.window, [Node(HAND_WORKED.station, clock=0)])
    Network(steps=[1], first=7)
    """
    stations = _items(stations, "stations")
    steps = (ctypes.c_uint64 * STATIONS)()
    eclipse = [*_fields(elements, Elements, "elements"), *_fields(window, Window, "window"), _index(guard, "guard")]
    first = network_into(eclipse, stations, steps)
    return Network(list(steps[: len(stations)]), first)


# ---- rows for pandas and numpy, and year files

from ._tables import array, dataframe, rows  # noqa: E402
from ._texts import sheets  # noqa: E402
