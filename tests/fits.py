#!/usr/bin/env python3
"""Test vectors of fits for the program `rule_vectors`, by the words of document 02, wish 14. tests/vectors.py puts them
into the program's input and expected output.

A fit is four coefficients, seven tabulated values and a tolerance. From x of 30 June 1954, which the least squares of
the hourly values 9h to 15h of source document 001 give, each number is set to the ends of the ranges and of its type,
and moved by what is left of the tolerance. Then come fits that break two rules at once, and cubics whose worst hour
is each of the seven.
"""
import random
import struct

X = (
    (-19_869_267, 55_341_229, -3_333, -800),
    (-185_901_200, -130_559_000, -75_213_000, -19_869_000, 35_468_000, 90_793_000, 146_103_000),
    459,
)
RANGES_OF_X = (200_000_000, 100_000_000, 100_000, 10_000)


def near(n, k):
    """Document 01, as document 02, wish 3, changes it: to the nearest, halves away from zero."""
    size = (2 * abs(n) + k) // (2 * k)
    return size if n >= 0 else -size


def value(coefficients, second):
    """Document 01: from the highest coefficient, repeat: multiply by the second, near over 3600, add the next lower."""
    held, *lower = reversed(coefficients)
    for coefficient in lower:
        held = near(held * second, 3600) + coefficient
    return held


def answer(coefficients, tabulated, tolerance):
    if not 0 <= tolerance <= 1_000:
        return "refused 18 0"
    for place, number in enumerate(tabulated, 1):
        if abs(number) > 10**9:
            return f"refused 18 {place}"
    for place, (number, most) in enumerate(zip(coefficients, RANGES_OF_X)):
        if abs(number) > most:
            return f"refused 2 {place}"
    for place, hour in enumerate(range(-3, 4)):
        if abs(value(coefficients, 3600 * hour) - tabulated[place]) > tolerance:
            return f"refused 17 {place}"
    return "accepted"


def with_number(fit, k, number):
    """The fit with number k of its twelve changed."""
    coefficients, tabulated, tolerance = fit
    numbers = [*coefficients, *tabulated, tolerance]
    numbers[k] = number
    return tuple(numbers[:4]), tuple(numbers[4:11]), numbers[11]


def fits():
    numbers = [*X[0], *X[1], X[2]]
    differences = [value(X[0], 3600 * hour) - X[1][hour + 3] for hour in range(-3, 4)]
    ends = [0, 1_000, *RANGES_OF_X, 10**9, 2**63 - 1]
    for k in range(12):
        for end in ends:
            for number in (end, end + 1, -end, -end - 1):
                if -(2**63) <= number < 2**63:
                    yield with_number(X, k, number)
        for left in (X[2] - max(differences), X[2] + min(differences)):
            for moved in (left, left + 1, -left, -left - 1):
                yield with_number(X, k, numbers[k] + moved)
    # two rules broken: the tolerance, a tabulated value, a coefficient
    for first, second in [(11, 4), (11, 0), (4, 0), (10, 3), (4, 10), (0, 3), (7, 11)]:
        yield with_number(with_number(X, first, 2**62), second, -(2**62))
    # exact at every hour but one, or wrong at two
    draw = random.Random(14)
    for hour in range(7):
        for other in range(7):
            coefficients = tuple(draw.randint(-most, most) for most in RANGES_OF_X)
            tolerance = draw.choice([0, 1, 1_000, draw.randint(0, 1_000)])
            exact = [value(coefficients, 3600 * h) for h in range(-3, 4)]
            for sign in (-1, 1):
                tabulated = list(exact)
                tabulated[hour] += sign * (tolerance + (hour != other))
                tabulated[other] -= sign * tolerance * (hour != other)
                yield coefficients, tuple(tabulated), tolerance


def vectors():
    for coefficients, tabulated, tolerance in dict.fromkeys(fits()):
        body = struct.pack(">12q", *coefficients, *tabulated, tolerance)
        yield body, answer(coefficients, tabulated, tolerance) + "\n"
