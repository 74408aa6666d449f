#!/usr/bin/env python3
"""The true shadow as it is defined, against 50 digits: tests/true_definitions.py SEED N

Evaluates the definitions of sine_accuracy (Series, Angles) and of sky_accuracy (TruePlace, TrueShadow), whole number by
whole number, at N random seconds of eclipses and at N random hundredths of a second, and compares u, v and L with the
page "The shadow at one second" in 50 digits, with sines by their own series. Prints the largest difference in units;
what is cut off the series, π and C must stay below 10^-7.
"""
import math
import random
import sys
from decimal import Decimal, getcontext
from fractions import Fraction

getcontext().prec = 60
PI = Decimal("3.14159265358979323846264338327950288419716939937510582")


def near(n, k):
    return -near(-n, k) if n < 0 else (2 * n + k) // (2 * k)


def rounded(coefficients, time, parts):
    """The rule's value at so many parts of an hour."""
    value = 0
    for c in reversed(coefficients):
        value = near(value * time, parts) + c
    return value


# ---- the definitions

DENOMINATOR = 180_000_000 * 10**20
COMMON = math.factorial(21) * DENOMINATOR**21


def arc(w):
    return w * 314_159_265_358_979_323_846


def series(a, first):
    terms = (
        arc(a) ** n * DENOMINATOR ** (21 - n) * (math.factorial(21) // math.factorial(n))
        for n in range(first, 22, 2)
    )
    return sum(-term if i % 2 else term for i, term in enumerate(terms))


def whole(z):
    quarter, m = divmod(z % 360_000_000, 90_000_000)
    s, c = series(m, 1), series(m, 0)
    return [(s, c), (c, -s), (-s, -c), (-c, s)][quarter]


def angle(z, w, fine):
    """The sine and the cosine of z millionths of a degree and w fine-ths of one more."""
    rest = 2 * (DENOMINATOR * fine) ** 2
    (s, c), sine, cosine = whole(z), 2 * DENOMINATOR * fine * arc(w), rest - arc(w) ** 2
    return s * cosine + c * sine, c * cosine - s * sine


def exact(coefficients, time, parts):
    """The value without rounding, over the cube of the parts."""
    return sum(c * time**i * parts ** (3 - i) for i, c in enumerate(coefficients))


def defined(w):
    time, parts = w["time"], w["parts"]
    cube = parts**3
    fine = cube * 10_000
    k = COMMON * 2 * (DENOMINATOR * fine) ** 2
    h = rounded(w["mu"], time, parts) + w["longitude"] - near(w["deltat"] * 417_807, 10_000)
    d = rounded(w["d"], time, parts)
    h_rest = exact(w["mu"], time, parts) * 10_000 + w["longitude"] * fine - w["deltat"] * 417_807 * cube - fine * h
    d_rest = exact(w["d"], time, parts) * 10_000 - fine * d
    s, c = whole(w["latitude"])
    under = 10**8 * c * c + 99_330_658 * s * s
    m = 10**20
    one = 10**8 * m * m * COMMON**2
    n = math.isqrt(one // under)
    assert 10**16 * abs(n * n * under - one) <= one
    q = 6_378_245 * m * COMMON
    r = 10**8 * (n * 6_378_245 + w["height"] * m) * c
    p = (99_330_658 * (n * 6_378_245) + 10**8 * (w["height"] * m)) * s
    (sh, ch), (sd, cd) = angle(h, h_rest, fine), angle(d, d_rest, fine)
    xi, eta, zeta = r * sh * k, p * cd * k - r * ch * sd, p * sd * k + r * ch * cd
    t = cube * 10**8 * q * k * k
    return [Fraction(value, t) for value in (
        (exact(w["x"], time, parts) * q * k * k - xi * cube) * 10**8,
        (exact(w["y"], time, parts) * q * k * k - eta * cube) * 10**8,
        exact(w["l"], time, parts) * q * k * k * 10**8 - zeta * w["tangent"] * cube,
    )]


# ---- the page, in digits

def sines(degrees_in_millionths):
    x = (degrees_in_millionths % 360_000_000) * PI / 180_000_000
    found = []
    for power, term in ((1, x), (0, Decimal(1))):
        total = term
        while abs(term) > Decimal(10) ** -55:
            term = -term * x * x / ((power + 1) * (power + 2))
            power += 2
            total += term
        found.append(total)
    return found


def page(w):
    hours = Decimal(w["time"]) / w["parts"]
    value = {name: sum(Decimal(c) * hours**i for i, c in enumerate(w[name])) for name in ("x", "y", "l", "mu", "d")}
    sh, ch = sines(value["mu"] + w["longitude"] - Decimal(w["deltat"]) * 417_807 / 10_000)
    sd, cd = sines(value["d"])
    s, c = sines(Decimal(w["latitude"]))
    e = Decimal(99_330_658) / 10**8
    normal = 1 / (c * c + e * s * s).sqrt()
    h = Decimal(w["height"]) / 6_378_245
    r, p = (normal + h) * c * 10**8, (e * normal + h) * s * 10**8
    term = (p * sd + r * ch * cd) * w["tangent"] / 10**8
    return value["x"] - r * sh, value["y"] - (p * cd - r * ch * sd), value["l"] - term


def draw(parts):
    position = [
        random.randint(-(10**8), 10**8), random.randint(-(10**8), 10**8), random.randint(-(10**5), 10**5),
        random.randint(-(10**4), 10**4)
    ]
    return {
        "x": position,
        "y": position[::-1][2:] + position[2:],
        "l": [random.randint(50_000_000, 60_000_000), random.randint(-(10**5), 10**5), random.randint(-(10**4), 10**4)],
        "mu": [random.randint(0, 359_999_999), random.randint(14_900_000, 15_100_000), random.randint(-100, 100)],
        "d": [random.randint(-25_000_000, 25_000_000), random.randint(-20_000, 20_000), random.randint(-100, 100)],
        "tangent": random.randint(400_000, 500_000),
        "latitude": random.randint(-90_000_000, 90_000_000),
        "longitude": random.randint(-180_000_000, 180_000_000),
        "height": random.randint(-500, 9000),
        "deltat": random.randint(-10_000, 20_000),
        "time": random.randint(-3 * parts, 3 * parts),
        "parts": parts,
    }


random.seed(int(sys.argv[1]))
for name, parts in (("seconds", 3_600), ("hundredths", 360_000)):
    worst = Decimal(0)
    for _ in range(int(sys.argv[2])):
        w = draw(parts)
        for a, b in zip(defined(w), page(w)):
            worst = max(worst, abs(Decimal(a.numerator) / a.denominator - b))
    assert worst < Decimal(10) ** -7, worst
    print(f"{name}: largest difference {worst:.1E} units")
