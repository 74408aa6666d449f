"""From tables of Sun and Moon to a contact sheet: Moscow, 30 June 1954. python3 python/example_tables.py

Seven hourly rows and the sidereal time at Greenwich give the 22 elements, fitted by least squares in whole numbers and
made only if each fit keeps within a tolerance of its hourly values. Then the request, then the sheet. The handbook's
elements (examples/moscow1954.txt) give another sheet: the two are printed side by side.
"""

from dataclasses import replace
from fractions import Fraction
from pathlib import Path

import ukhtvaresh
from ukhtvaresh import Request, Row

EXAMPLES = Path(__file__).resolve().parent.parent / "examples"
HOURS = range(-3, 4)  # from 12h Universal Time

# Given by the user: sidereal time at Greenwich, 12h Universal Time, and what it gains in an hour, in degrees.
# The handbook has 3h 31m 35.23s for 9h.
SIDEREAL_HOUR = Fraction("15.0410686")
SIDEREAL_NOON = (3 + Fraction(31, 60) + Fraction("35.23") / 3600) * 15 + 3 * SIDEREAL_HOUR

TOLERANCE = 200  # units: 10^-8 of the Earth's equatorial radius, or 10^-6 degree


def lines(request):
    """The listing of the request's sheet."""
    return ukhtvaresh.listing(ukhtvaresh.sheet(request.to_bytes())).splitlines()


def main():
    typed = (EXAMPLES / "rows1954.txt").read_text().splitlines()
    rows = [Row(*map(int, line.split())) for line in typed if not line.startswith("#")]
    sidereal = [round((SIDEREAL_NOON + hour * SIDEREAL_HOUR) * 10**6) % 360_000_000 for hour in HOURS]
    made, misfits = ukhtvaresh.elements(rows, sidereal, tolerance=TOLERANCE)
    for name, units in vars(misfits).items():
        print(f"{name:2} within {units} units of the hourly values, {TOLERANCE} allowed")
    handbook = Request.from_bytes((EXAMPLES / "moscow1954.bin").read_bytes())
    ours = replace(handbook, elements=made)
    print(f"{'from the tables':42}from the handbook's elements")
    for a, b in zip(lines(ours), lines(handbook)):
        print(f"{a:42}{b}")


if __name__ == "__main__":
    main()
