#!/usr/bin/env python3
"""TAI - UTC on a day, from leap_seconds.txt; as a program it makes that file from tzdata's list.

    python3 almanac/leap_seconds.py [/usr/share/zoneinfo/leap-seconds.list] > leap_seconds.txt

The International Earth Rotation Service writes the list, and Debian's package tzdata has it. In it `#$` is the instant
of the last change and `#@` that of expiry, both in seconds from 1900-01-01 0h, as are the days of the table. `#h` is a
SHA-1 of all these digits, in five words whose leading zeros may be missing; the program checks it.
TT is TAI plus 32.184 s, so UTC is TT less 32.184 s less (TAI - UTC).
"""

import hashlib
import re
import sys
from datetime import date, timedelta
from functools import lru_cache
from pathlib import Path
from typing import List, NamedTuple, Optional, Tuple

FILE = Path(__file__).resolve().parent / "leap_seconds.txt"
LIST = "/usr/share/zoneinfo/leap-seconds.list"

HEAD = """\
# TAI - UTC in whole seconds, from 0h UTC of each day on.
# Made by almanac/leap_seconds.py from tzdata's leap-seconds.list (public domain), last changed on {changed}.
# The list expires on {expires}: up to then there is no leap second but these, and after it the last number is presumed.
# Before 1972 UTC had steps of fractions of a second and another rate: use universal time there.
"""


class Table(NamedTuple):
    """The list: the day of its last change, the day on which it expires, and the days from which each number holds."""

    changed: date
    expires: date
    steps: List[Tuple[date, int]]


def day(seconds: int) -> date:
    """The day that begins so many seconds after 1900-01-01 0h."""
    days, rest = divmod(seconds, 86400)
    if rest:
        raise ValueError(f"{seconds} seconds from 1900 are no whole number of days")
    return date(1900, 1, 1) + timedelta(days=days)


def from_tzdata(text: str) -> Table:
    """The table of a leap-seconds.list; ValueError where its hash is not that of its numbers."""
    (changed,) = re.findall(r"^#\$\s+(\d+)", text, re.M)
    (expires,) = re.findall(r"^#@\s+(\d+)", text, re.M)
    (words,) = re.findall(r"^#h\s+(.*)$", text, re.M)
    steps = re.findall(r"^(\d+)\s+(\d+)", text, re.M)
    digits = changed + expires + "".join(seconds + number for seconds, number in steps)
    if hashlib.sha1(digits.encode()).hexdigest() != "".join(word.rjust(8, "0") for word in words.split()):
        raise ValueError("the hash of the list is not that of its numbers: take the list from Debian's tzdata again")
    rounded = int(changed) // 86400 * 86400
    return Table(day(rounded), day(int(expires)), [(day(int(a)), int(b)) for a, b in steps])


def written(table: Table) -> str:
    """The text of leap_seconds.txt."""
    lines = [f"expires {table.expires}"] + [f"{since} {number}" for since, number in table.steps]
    return HEAD.format(changed=table.changed, expires=table.expires) + "".join(line + "\n" for line in lines)


@lru_cache(None)
def kept() -> Tuple[date, List[Tuple[date, int]]]:
    """The day of expiry and the steps of leap_seconds.txt."""
    lines = [line.split() for line in FILE.read_text("ascii").splitlines() if not line.startswith("#")]
    expires = date.fromisoformat(lines[0][1])
    return expires, [(date.fromisoformat(since), int(number)) for since, number in lines[1:]]


def tai_utc(on: date) -> Optional[int]:
    """TAI - UTC in seconds at 0h UTC of a day, or None before 1972. After the day of expiry it is presumed."""
    numbers = [number for since, number in kept()[1] if since <= on]
    return numbers[-1] if numbers else None


def expired(on: date) -> bool:
    """Whether the list says nothing of a day."""
    return on >= kept()[0]


def main():
    path = Path(sys.argv[1] if len(sys.argv) > 1 else LIST)
    table = from_tzdata(path.read_text("ascii"))
    print(written(table), end="")
    print(f"{len(table.steps)} steps, expires {table.expires}", file=sys.stderr)


if __name__ == "__main__":
    main()
