"""Rows of Sun and Moon for 30 June 1954, 9h to 15h Universal Time: python3 tests/rows1954.py > rows, as in
examples/rows1954.txt.

Source document 001, section 14, prints right ascension, declination and distance of the Sun and right ascension,
declination and parallax of the Moon for 9h, 11h, 13h and 15h, and corrections to them. The hours between come from
the cubic through the four.
"""

from fractions import Fraction
from math import cos, radians, sin

HOURS = (9, 11, 13, 15)


def hours(h, m, s):
    """A right ascension in seconds of arc."""
    return (3600 * h + 60 * m + Fraction(s)) * 15


def degrees(d, m, s):
    """A declination in seconds of arc."""
    return 3600 * d + 60 * m + Fraction(s)


# as printed, and the printed corrections: +0.070 s and -0.06" for the Sun, -0.161 s and -0.17" for the Moon
SUN_A = [hours(6, 34, "58.802"), hours(6, 35, "19.520"), hours(6, 35, "40.237"), hours(6, 36, "0.952")]
SUN_D = [degrees(23, 12, "7.77"), degrees(23, 11, "50.36"), degrees(23, 11, "32.79"), degrees(23, 11, "15.05")]
SUN_R = [Fraction(r) for r in ("1.0166790", "1.0166808", "1.0166825", "1.0166841")]
MOON_A = [hours(6, 26, "58.558"), hours(6, 32, "5.799"), hours(6, 37, "11.727"), hours(6, 42, "16.295")]
MOON_D = [degrees(24, 5, "27.77"), degrees(23, 55, "24.41"), degrees(23, 44, "44.02"), degrees(23, 33, "27.24")]
MOON_P = [Fraction(p) for p in ("3547.22", "3544.40", "3541.52", "3538.58")]
SUN_PARALLAX = 8.80  # seconds of arc, section 2


def at(hour, values):
    """The cubic through the four printed values."""
    total = Fraction(0)
    for i, t in enumerate(HOURS):
        part = values[i]
        for u in HOURS:
            if u != t:
                part *= Fraction(hour - u, t - u)
        total += part
    return total


def place(a, d, distance):
    """Whole units from seconds of arc and radii."""
    a, d = radians(float(a) / 3600), radians(float(d) / 3600)
    return [round(distance * 1e8 * c) for c in (cos(d) * cos(a), cos(d) * sin(a), sin(d))]


def rows():
    for hour in range(9, 16):
        sun = place(
            at(hour, SUN_A) + Fraction("0.070") * 15,
            at(hour, SUN_D) - Fraction("0.06"),
            float(at(hour, SUN_R)) / sin(radians(SUN_PARALLAX / 3600)),
        )
        moon = place(
            at(hour, MOON_A) - Fraction("0.161") * 15,
            at(hour, MOON_D) - Fraction("0.17"),
            1 / sin(radians(float(at(hour, MOON_P)) / 3600)),
        )
        yield sun + moon


if __name__ == "__main__":
    for row in rows():
        print(*row)
