"""Reads and writes eclipses.txt, the catalogue of solar eclipses from 1900 to 2100. Its header describes the format.

    from catalogue.reader import eclipses
    total = [eclipse for eclipse in eclipses() if eclipse.kind == "T"]

It uses Python's standard library alone.
"""

from datetime import datetime, timedelta
from functools import lru_cache
from pathlib import Path
from typing import List, NamedTuple, Tuple

FILE = Path(__file__).resolve().parent / "eclipses.txt"
ROWS = range(-4, 5)  # hours from the reference instant
REACH = 1  # hours from the reference instant that have seven rows around them
ORDER = 4  # of the differences
LINES = 8  # of a record
TURN = 360_000_000  # 10^-6 degree
KINDS = {"P": "partial", "A": "annular", "T": "total", "H": "hybrid"}
DELTA_T_SOURCES = {"O": "observed", "X": "extrapolated table", "F": "formula"}


class Eclipse(NamedTuple):
    """A record, in the units of the file's header."""

    date: Tuple[int, int, int]  # of greatest eclipse, by universal time
    hour: int  # of the reference instant, from 0h of the date
    kind: str  # P, A, T or H
    delta_t: int  # 0.01 s
    delta_t_source: str  # O, X or F
    saros: int
    gamma: int
    magnitude: int
    latitude: int
    longitude: int
    greatest: int  # seconds from the reference instant
    rows: List[List[int]]  # nine of seven numbers: Sun x, y, z, Moon x, y, z, sidereal time

    def instant(self) -> Tuple[int, int, int, int]:
        """The reference instant: year, month, day, hour of ephemeris time."""
        at = datetime(*self.date) + timedelta(hours=self.hour)
        return at.year, at.month, at.day, at.hour

    def seven(self, hour: int) -> Tuple[List[List[int]], List[int]]:
        """Seven rows and seven sidereal angles around the hour -1, 0 or 1 from the reference instant."""
        if not -REACH <= hour <= REACH:
            raise ValueError(f"hour {hour} has no seven rows in the catalogue: take one from {-REACH} to {REACH}")
        rows = self.rows[hour + 1 : hour + 8]
        return [row[:6] for row in rows], [row[6] for row in rows]


def summed(differences: List[int]) -> List[int]:
    """The values of a line: sums of its differences, fourth order first."""
    values = list(differences)
    for order in range(ORDER, 0, -1):
        for i in range(order, len(values)):
            values[i] += values[i - 1]
    return values


def differenced(values: List[int]) -> List[int]:
    """The line of values: the first value, its first to fourth difference, and the fourth differences that follow."""
    differences = list(values)
    for order in range(1, ORDER + 1):
        for i in range(len(differences) - 1, order - 1, -1):
            differences[i] -= differences[i - 1]
    return differences


def read(text: str) -> List[Eclipse]:
    """The eclipses of a catalogue's text."""
    lines = [line.split() for line in text.splitlines() if not line.startswith("#")]
    made = []
    for n in range(0, len(lines), LINES):
        date, hour, kind, delta_t, source, *numbers = lines[n]
        columns = [summed(list(map(int, line))) for line in lines[n + 1 : n + LINES]]
        columns[6] = [angle % TURN for angle in columns[6]]
        year, month, day = map(int, date.split("-"))
        rows = [list(row) for row in zip(*columns)]
        made.append(
            Eclipse((year, month, day), int(hour), kind, int(delta_t), source, *map(int, numbers), rows)
        )
    return made


def encoded(eclipse: Eclipse) -> str:
    """The eight lines of a record."""
    facts = ["%04d-%02d-%02d" % eclipse.date, *eclipse[1:11]]
    columns = [list(column) for column in zip(*eclipse.rows)]
    for i in range(1, len(ROWS)):  # sidereal time goes on beyond 360 degrees
        columns[6][i] += TURN if columns[6][i] < columns[6][i - 1] else 0
    lines = [facts] + [differenced(column) for column in columns]
    return "".join(" ".join(map(str, line)) + "\n" for line in lines)


@lru_cache(None)
def eclipses() -> List[Eclipse]:
    """The catalogue, in the order of time."""
    return read(FILE.read_text("ascii"))
