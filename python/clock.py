"""Seconds of a sheet as times of day, by the rules of docs/CLOCK.md.

An instant, the date and time of τ = 0, is carried beside a request and is no part of its bytes; with it goes TAI less UTC, where that is
known. `Instant.read` takes the typed form of an instant, `instant_in` finds both in a typed request, `times` and `nearest` print seconds,
`listing` is the sheet's listing with clock times. Everything is in whole numbers.

    python3 python/clock.py < REQUEST.txt
    python3 python/clock.py "2017-08-21 18:00:00 ET" < examples/hopkinsville2017.txt

print that listing for a typed request with a line `instant ..`, or with the instant as an argument. They need the
program `request` (`tools/build request`) and the shared library (`tools/build library && python/build`).
"""

import operator
import re
import subprocess
import sys
from dataclasses import dataclass, replace
from enum import Enum
from pathlib import Path
from typing import Dict, Optional, Tuple

_DAY = 864_000  # tenths
_FIRST_YEAR = 1583
_FORM = re.compile(
    rb"([0-9]{4})-([0-9]{2})-([0-9]{2})[ \t\r]+([0-9]{2}):([0-9]{2}):([0-9]{2})(?:\.([0-9]{1,2}))?[ \t\r]+(ET|UT)"
)
_NAMED = re.compile(rb"(instant|tai-utc)(?![^ \t\r])")  # a name, with a blank or nothing after it
_ATOMIC = 32_184  # thousandths of a second that ephemeris time is ahead of TAI


class Scale(Enum):
    """Ephemeris time, universal time, and UTC. An instant is typed in one of the first two."""

    ET = "ET"
    UT = "UT"
    UTC = "UTC"


class Malformed(Exception):
    """A line of a typed text, counted from 1, and what is wrong with it."""

    def __init__(self, line: int, wrong: str):
        self.line = line
        self.wrong = wrong
        super().__init__(line, wrong)

    def __str__(self) -> str:
        return f"line {self.line}: {self.wrong}"


def _days(year: int, month: int) -> int:
    """How many days a month has by the Gregorian calendar."""
    leap = year % 4 == 0 and (year % 100 != 0 or year % 400 == 0)
    return [31, 29 if leap else 28, 31, 30, 31, 30, 31, 31, 30, 31, 30, 31][month - 1]


@dataclass(frozen=True)
class Instant:
    """The date and time of τ = 0 in a scale. The time is in hundredths of a second from 0h, 0 to 8,639,999. `offset` is TAI less UTC in
    seconds, 10 to 99, or 0 where it is not known."""

    year: int
    month: int
    day: int
    hundredths: int
    scale: Scale
    offset: int = 0

    @staticmethod
    def read(words: bytes) -> Optional["Instant"]:
        """The instant that the words are, `2017-08-21 18:00:00 ET`, or None."""
        form = _FORM.fullmatch(words)
        if not form:
            return None
        year, month, day, hours, minutes, seconds = (int(form[k]) for k in range(1, 7))
        if year < _FIRST_YEAR or not 1 <= month <= 12 or not 1 <= day <= _days(year, month):
            return None
        if hours > 23 or minutes > 59 or seconds > 59:
            return None
        decimals = int((form[7] or b"").ljust(2, b"0"))
        of_day = ((hours * 60 + minutes) * 60 + seconds) * 100 + decimals
        return Instant(year, month, day, of_day, Scale(form[8].decode()))

    def __str__(self) -> str:
        seconds, decimals = divmod(self.hundredths, 100)
        time = f"{seconds // 3600:02}:{seconds // 60 % 60:02}:{seconds % 60:02}.{decimals:02}"
        return f"{self.year:04}-{self.month:02}-{self.day:02} {time} {self.scale.value}"


def instant_in(text: bytes) -> Optional[Instant]:
    """The instant of a typed text that `request` takes, with TAI less UTC, or None: what the lines of these names say."""
    said = [line.split(b"#")[0].strip(b" \t\r") for line in text.split(b"\n")]
    given = {words[:7]: words[7:].strip(b" \t\r") for words in reversed(said) if _NAMED.match(words)}
    instant = Instant.read(given[b"instant"]) if b"instant" in given else None
    if instant is None or b"tai-utc" not in given:
        return instant
    return replace(instant, offset=int(given[b"tai-utc"]))


def _whole(value, name: str, unit: str) -> int:
    """The whole number that a value is; TypeError for a float, a bool, a string or None."""
    if not isinstance(value, bool):
        try:
            return operator.index(value)
        except TypeError:
            pass
    raise TypeError(f"{name} must be a whole number (int) in {unit}, not {value!r} ({type(value).__name__})") from None


def _thousandths(instant: Instant, delta_t: int, second: int) -> Dict[Scale, int]:
    """The time of a second in each scale that is known: ephemeris time first, UTC last."""
    delta_t, second = _whole(delta_t, "delta_t", "hundredths of a second"), _whole(second, "second", "seconds")
    own = 10 * instant.hundredths + 1000 * second
    if delta_t == 0:
        known = {instant.scale: own}
    elif instant.scale is Scale.ET:
        known = {Scale.ET: own, Scale.UT: own - 10 * delta_t}
    else:
        known = {Scale.ET: own + 10 * delta_t, Scale.UT: own}
    if instant.offset and Scale.ET in known:
        known[Scale.UTC] = known[Scale.ET] - _ATOMIC - 1000 * instant.offset
    return known


def _printed(tenths: int) -> str:
    days, rest = divmod(tenths, _DAY)
    seconds, tenth = divmod(rest, 10)
    time = f"{seconds // 3600:02}:{seconds // 60 % 60:02}:{seconds % 60:02}.{tenth}"
    return f"{time}{days:+}d" if days else time


def times(instant: Instant, delta_t: int, from_: int, to: int) -> Dict[Scale, Tuple[str, str]]:
    """Two times of day in each scale, rounded outward: what lies between the seconds lies between the times.

    delta_t: hundredths of a second, that of the request.
    """
    earlier, later = _thousandths(instant, delta_t, from_), _thousandths(instant, delta_t, to)
    return {scale: (_printed(earlier[scale] // 100), _printed(-(-later[scale] // 100))) for scale in earlier}


def nearest(instant: Instant, delta_t: int, second: int) -> Dict[Scale, str]:
    """The time of day of a second in each scale, to the nearest tenth, halves up."""
    return {scale: _printed((n + 50) // 100) for scale, n in _thousandths(instant, delta_t, second).items()}


def listing(sheet: bytes, instant: Instant, delta_t: int) -> str:
    """The listing of a sheet with clock times; Refused where `ukhtvaresh.listing` refuses."""
    import ukhtvaresh  # here, so that times can be printed without the library

    lines = ukhtvaresh.listing(sheet).splitlines()
    for at, entry in enumerate(ukhtvaresh.read(sheet)[: len(lines)]):
        if isinstance(entry, ukhtvaresh.Head):
            lines[at] += f"\ninstant {instant}"
        elif isinstance(entry, ukhtvaresh.Closest):
            for scale, time in nearest(instant, delta_t, entry.second).items():
                lines[at] += f" {scale.value} {time}"
        elif not isinstance(entry, ukhtvaresh.Share):
            for scale, (earlier, later) in times(instant, delta_t, entry.from_, entry.to).items():
                lines[at] += f" {scale.value} {earlier} {later}"
    return "".join(f"{line}\n" for line in lines)


# ---- the program

_REQUEST = Path(__file__).resolve().parent.parent / "target" / "bin" / "request"


def encoded(text: bytes) -> Tuple[Optional[Instant], bytes]:
    """The instant and the bytes of a typed request, these by the program `request`; Malformed with the first line at
    fault."""
    ran = subprocess.run([_REQUEST], input=text, capture_output=True, check=False)
    told = re.fullmatch(r"line (\d+): (.*)\n", ran.stderr.decode(errors="replace"), re.DOTALL)
    if told:
        raise Malformed(int(told[1]), told[2])
    if not ran.stdout:
        raise ValueError(ran.stderr.decode(errors="replace").strip() or "request wrote nothing")
    return instant_in(text), ran.stdout


def main() -> None:
    import ukhtvaresh

    text, typed = sys.stdin.buffer.read(), None
    if len(sys.argv) > 1:
        typed = Instant.read(sys.argv[1].encode())
        if typed is None:
            sys.exit(f"no date and time: {sys.argv[1]}")
    try:
        instant, request = encoded(text)
    except (Malformed, ValueError) as wrong:
        sys.exit(str(wrong))
    if typed is not None and instant is not None:
        sys.exit("instant is given twice")
    star = request[0] == 5
    kind = ukhtvaresh.StarRequest if star else ukhtvaresh.Request
    try:
        sheet = (ukhtvaresh.star if star else ukhtvaresh.sheet)(request)
    except ukhtvaresh.Refused as refused:
        sys.exit(str(refused))
    instant = typed or instant
    if instant is None:
        print(ukhtvaresh.listing(sheet), end="")
    else:
        print(listing(sheet, instant, kind.from_bytes(request).station.delta_t), end="")


if __name__ == "__main__":
    main()
