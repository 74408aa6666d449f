"""What the almanac's commands share: reading values from the command line, refusing them in plain words, exit status.

Exit status: 0 where the command did what was asked, 1 where a value or an eclipse was refused or a package is missing,
2 where the command line itself is wrong.
"""

import argparse
import re
import sys
from calendar import month_name, monthrange
from datetime import date
from typing import Callable, List, Optional, Sequence

FIRST_YEAR, LAST_YEAR = 1583, 9999  # as in a typed instant (docs/CLOCK.md)


class Refusal(ValueError):
    """Why a value or a day is refused: the value, its range, and what to do."""


def day(text: str, name: str = "date") -> date:
    """The day that YYYY-MM-DD names in the Gregorian calendar."""
    form = re.fullmatch(r"(\d{4})-(\d{2})-(\d{2})", text.strip())
    if not form:
        raise Refusal(f"{name} {text.strip()!r} is not written as YYYY-MM-DD, for example 2024-04-08")
    year, month, number = (int(part) for part in form.groups())
    if not FIRST_YEAR <= year <= LAST_YEAR:
        raise Refusal(f"{name} {form[0]}: the year is outside {FIRST_YEAR} to {LAST_YEAR}, the range of an instant")
    if not 1 <= month <= 12:
        raise Refusal(f"{name} {form[0]} is not a day of the calendar: months are 01 to 12")
    days = monthrange(year, month)[1]
    if not 1 <= number <= days:
        raise Refusal(
            f"{name} {form[0]} is not a day of the calendar: {month_name[month]} {year} has the days 01 to {days}"
        )
    return date(year, month, number)


def number(text: str, name: str, least: float, most: float, decimals: int, unit: str) -> int:
    """A decimal number from `least` to `most`, as whole units of its last decimal, rounded to the nearest."""
    words = text.strip()
    if not re.fullmatch(r"[+-]?(\d+\.?\d*|\.\d+)", words):
        raise Refusal(f"{name} {words!r} is not a decimal number: write one from {least:g} to {most:g} {unit}")
    value = round(float(words) * 10**decimals)
    if not least * 10**decimals <= value <= most * 10**decimals:
        raise Refusal(f"{name} {words} is outside its range, {least:g} to {most:g} {unit}")
    return value


def whole(text: str, name: str, least: int, most: int, unit: str = "") -> int:
    """A whole number from `least` to `most`."""
    words = text.strip()
    unit = f" {unit}" if unit else ""
    if not re.fullmatch(r"[+-]?\d+", words):
        raise Refusal(f"{name} {words!r} is not a whole number: write one from {least} to {most}{unit}")
    if not least <= int(words) <= most:
        raise Refusal(f"{name} {words} is outside its range, {least} to {most}{unit}")
    return int(words)


def latitude(text: str) -> int:
    """10^-6 degree, north positive."""
    return number(text, "latitude", -90, 90, 6, "degrees, north positive")


def longitude(text: str) -> int:
    """10^-6 degree, east positive."""
    return number(text, "longitude", -180, 180, 6, "degrees, east positive")


def height(text: str) -> int:
    """Metres."""
    return whole(text, "height", -500, 9000, "metres")


def station_number(text: str) -> int:
    return whole(text, "station", 1, 999)


def delta_t(text: str) -> int:
    """Hundredths of a second."""
    return number(text, "delta t", -100, 200, 2, "seconds")


def guard(text: str) -> int:
    return whole(text, "guard", 16, 1000, "units")


def parse(parser: argparse.ArgumentParser, words: Optional[Sequence[str]] = None) -> argparse.Namespace:
    """The parsed command line. A number below zero, such as a longitude of -96.797, is no option."""
    given: List[str] = list(sys.argv[1:] if words is None else words)
    return parser.parse_args([" " + word if re.fullmatch(r"-[.\d]\S*", word) else word for word in given])


def note(words: str):
    """A remark for the person who runs the command, on standard error."""
    print(f"note: {words}", file=sys.stderr)


def run(name: str, main: Callable[[], None]):
    """Runs a command; a refusal or a missing package goes to standard error in one line, with exit status 1."""
    from places import Missing  # here, so that this module needs no other

    try:
        main()
    except BrokenPipeError:
        sys.exit(1)
    except (Refusal, Missing, RuntimeError, OSError) as wrong:
        print(f"{name}: {wrong}", file=sys.stderr)
        sys.exit(1)
