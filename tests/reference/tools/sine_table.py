#!/usr/bin/env python3
"""Write src/sine_table.rs: table S of document 01.

Entry k is 10^8 times the sine series, summed to the 21st power, at k*pi/1800
with pi taken as 3.14159265358979323846, rounded to the nearest whole number.
Everything is done in whole numbers over one denominator.

    python3 tools/sine_table.py > src/sine_table.rs
"""

from math import factorial

PI_NUMERATOR = 314159265358979323846
ANGLE_DENOMINATOR = 1800 * 10**20
POWER = 21
DENOMINATOR = factorial(POWER) * ANGLE_DENOMINATOR**POWER


def series(k):
    """The series at k*pi/1800, times DENOMINATOR."""
    a = k * PI_NUMERATOR
    total = 0
    for power in range(1, POWER + 1, 2):
        term = a**power * ANGLE_DENOMINATOR ** (POWER - power)
        term *= factorial(POWER) // factorial(power)
        total += term if power % 4 == 1 else -term
    return total


def entry(k):
    scaled = 10**8 * series(k)
    nearest = (2 * scaled + DENOMINATOR) // (2 * DENOMINATOR)
    # Strictly within half a unit, so that no other whole number would do.
    assert 2 * abs(nearest * DENOMINATOR - scaled) < DENOMINATOR, k
    return nearest


table = [entry(k) for k in range(901)]
assert table[0] == 0 and table[300] == 50_000_000 and table[900] == 10**8
assert all(a < b for a, b in zip(table, table[1:]))

print("//! Table S of document 01: 10^8 times the sine of each tenth of a degree, 0 to 90.")
print("//! Written by tools/sine_table.py.")
print()
print("pub static S: [i64; 901] = [")
for start in range(0, 901, 10):
    print("    " + " ".join(f"{value}," for value in table[start : start + 10]))
print("];")
