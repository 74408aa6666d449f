"""Judges x of the eclipse of 30 June 1954 beside its hourly values: python3 python/example_fit.py

Source document 001, section 14, prints x at 9h (-1.859012, the worked moment) and from 10h to 15h with five decimals.
Half a unit of the fifth decimal is 500 units of 10^-8, so the tolerance is that. The coefficients are a spreadsheet's.
"""

from ukhtvaresh import Refused, fit

TABULATED = ["-1.859012", "-1.30559", "-0.75213", "-0.19869", "0.35468", "0.90793", "1.46103"]
COEFFICIENTS = ["-0.19869267", "0.55341229", "-0.00003333", "-0.00000800"]


def units(decimal: str) -> int:
    """Units of 10^-8."""
    whole, _, decimals = decimal.partition(".")
    return int(whole + decimals.ljust(8, "0"))


coefficients, tabulated = ([units(decimal) for decimal in column] for column in (COEFFICIENTS, TABULATED))
for tolerance in (500, 458):
    try:
        fit(coefficients, tabulated, tolerance)
        print(f"x0 x1 x2 x3 {' '.join(map(str, coefficients))}: within {tolerance} units of the hourly values")
    except Refused as refused:
        print(f"with a tolerance of {tolerance} units {refused}")
