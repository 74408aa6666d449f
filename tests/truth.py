#!/usr/bin/env python3
"""How far the rule is from the sky, searched for: tests/truth.py SEED CLIMBS

Draws stations and elements within their ranges and climbs from each to a worse one, of eclipses and of stars by
turns; compares the rule of document 01 with true sines, the true spheroid and unrounded angles, and prints the worst
found of

    a sine or a cosine; R and P; and the distance less L, of the true shadow against the exact one of demand 3

in units of 10^-8. Stops where one is beyond what is proved: 2, 5, 5½ and 19; and where a second said to be inside or
outside under a guard of 32 is truly not so. The rule is in whole numbers and the exact shadow in fractions, the true
one in doubles, which are good to 10^-6 of a unit here; the worst is computed once more in 50 digits. Nothing is
shared with the proofs or with tests/reference.
"""
import math
import random
import sys
from decimal import Decimal, getcontext
from fractions import Fraction

getcontext().prec = 50
ONE = 10**8
E = 99_330_658
RADIUS = 6_378_245
PI = Decimal("3.14159265358979323846264338327950288419716939937511")
GUARD = 32
STEPS = 4000


def near(n, k):
    return -near(-n, k) if n < 0 else (2 * n + k) // (2 * k)


# ---- sines

def series(x, odd):
    """The sine or the cosine of x in radians, in 50 digits."""
    term = x if odd else Decimal(1)
    total, power = term, int(odd)
    while abs(term) > Decimal(10) ** -48:
        term = -term * x * x / ((power + 1) * (power + 2))
        power += 2
        total += term
    return total


S = [int((series(k * PI / 1800, True) * ONE).to_integral_value()) for k in range(901)]


def first(a):
    k, b = divmod(a, 100_000)
    r = near(b * 17_453_293, 10**7)
    w = near(r * r, 2 * ONE)
    return min(ONE, S[k] + near(S[900 - k] * r - S[k] * w, ONE))


def turned(quarter, sine, cosine):
    return [(sine, cosine), (cosine, -sine), (-sine, -cosine), (-cosine, sine)][quarter]


def rule_sines(z):
    quarter, rest = divmod(z % 360_000_000, 90_000_000)
    return turned(quarter, first(rest), first(90_000_000 - rest))


def true_sines(angle, digits=False):
    """Of an angle in millionths of a degree, a fraction."""
    quarter, rest = divmod(angle % 360_000_000, 90_000_000)
    if digits:
        x = Decimal(Fraction(rest).numerator) / Fraction(rest).denominator * PI / 180_000_000
        return turned(int(quarter), series(x, True), series(x, False))
    x = math.radians(float(rest) / 10**6)
    return turned(int(quarter), math.sin(x), math.cos(x))


# ---- the place

def rule_place(latitude, height):
    s, c = rule_sines(latitude)
    normal = near(10**16, math.isqrt(c * c + near(s * E, ONE) * s))
    h = near(height * ONE, RADIUS)
    return near((normal + h) * c, ONE), near((near(normal * E, ONE) + h) * s, ONE)


def true_place(latitude, height, digits=False):
    number = Decimal if digits else float
    s, c = true_sines(latitude, digits)
    e = number(E) / ONE
    normal = 1 / (c * c + e * s * s) ** number("0.5")
    h = number(height) / RADIUS
    return (normal + h) * c * ONE, (e * normal + h) * s * ONE


# ---- a second

def rule_value(coefficients, second):
    value = 0
    for c in reversed(coefficients):
        value = near(value * second, 3600) + c
    return value


def exact_value(coefficients, second):
    """Over 3600³."""
    return sum(c * second**i * 3600 ** (3 - i) for i, c in enumerate(coefficients))


HOURS = 3600**3


def shadow(r, p, sines_h, sines_d, tangent, one=1):
    """ξ, η and the cone's term."""
    (sh, ch), (sd, cd) = sines_h, sines_d
    q = r * ch / one
    return r * sh / one, (p * cd - q * sd) / one, (p * sd + q * cd) * tangent / one


def angles(w):
    """H and d in whole millionths as the rule has them, and without rounding."""
    turn = near(w["deltat"] * 417_807, 10_000)
    rule = rule_value(w["mu"], w["second"]) + w["longitude"] - turn, rule_value(w["d"], w["second"])
    turn = Fraction(w["deltat"] * 417_807, 10_000)
    exact = (Fraction(exact_value(w["mu"], w["second"]), HOURS) + w["longitude"] - turn,
             Fraction(exact_value(w["d"], w["second"]), HOURS))
    return rule, exact


def moves(w, digits=False):
    """How far the true ξ, η and term are from the exact ones of demand 3."""
    (h, d), (true_h, true_d) = angles(w)
    r, p = rule_place(w["latitude"], w["height"])
    if digits:
        r, p = Decimal(r), Decimal(p)
        sines = [tuple(map(Decimal, rule_sines(z))) for z in (h, d)]
    else:
        sines = [rule_sines(z) for z in (h, d)]
    exact = shadow(r, p, *sines, w["tangent"] if not digits else Decimal(w["tangent"]), ONE)
    true = shadow(
        *true_place(w["latitude"], w["height"], digits), true_sines(true_h, digits),
        true_sines(true_d, digits), w["tangent"]
    )
    tangent = 1, 1, ONE
    return [t / k - e / k for t, e, k in zip(true, exact, tangent)]


def size(w):
    east, north, term = moves(w)
    return math.hypot(east, north) + abs(term)


def difference(w, digits=False):
    """The true distance less the true L, less the exact ones, with x, y and l as given."""
    number = Decimal if digits else float
    root = (lambda z: z.sqrt()) if digits else math.sqrt
    (h, d), (true_h, true_d) = angles(w)
    r, p = rule_place(w["latitude"], w["height"])
    x, y, l = (number(exact_value(w[name], w["second"])) / HOURS for name in ("x", "y", "l"))
    exact = shadow(
        number(r), number(p), *[tuple(map(number, rule_sines(z))) for z in (h, d)],
        number(w["tangent"]) / ONE, ONE
    )
    true = shadow(
        *true_place(w["latitude"], w["height"], digits), true_sines(true_h, digits),
        true_sines(true_d, digits), number(w["tangent"]) / ONE
    )
    return [root((x - e) ** 2 + (y - n) ** 2) - (l - t) for e, n, t in (exact, true)]


# ---- the search

def draw(star):
    low, high = (0, 0) if star else (400_000, 500_000)
    limit = 30_000_000 if star else 25_000_000
    return {
        "star": star,
        "latitude": random.randint(-90_000_000, 90_000_000),
        "longitude": random.randint(-180_000_000, 180_000_000),
        "height": random.choice((9000, random.randint(-500, 9000))),
        "deltat": random.randint(-10_000, 20_000),
        "mu": [random.randint(0, 359_999_999), random.randint(14_900_000, 15_100_000), random.randint(-100, 100)],
        "d": [random.choice((-limit, limit, random.randint(-limit, limit)))]
        + ([0, 0] if star else [random.randint(-20_000, 20_000), random.randint(-100, 100)]),
        "tangent": random.randint(low, high),
        "second": random.choice((-1, 1)) * random.randint(10_000, 10_800),
    }


def within(z, low, high):
    return min(high, max(low, z))


def step(w):
    """The same with one or two numbers changed."""
    new = dict(w, mu=list(w["mu"]), d=list(w["d"]))
    limit = 30_000_000 if w["star"] else 25_000_000
    for _ in range(random.choice((1, 1, 2))):
        far = int(10 ** random.uniform(0, 8))
        by = random.randint(-far, far)
        match random.randrange(10):
            case 0 | 1 | 2:
                new["latitude"] = within(w["latitude"] + by, -90_000_000, 90_000_000)
            case 3:
                new["mu"][0] = (w["mu"][0] + by) % 360_000_000
            case 4:
                new["mu"][1] = within(w["mu"][1] + by, 14_900_000, 15_100_000)
            case 5:
                new["mu"][2] = random.randint(-100, 100)
            case 6:
                new["d"][0] = within(w["d"][0] + by, -limit, limit)
            case 7 if not w["star"]:
                new["d"][1:] = [within(w["d"][1] + by, -20_000, 20_000), random.randint(-100, 100)]
            case 8:
                new["deltat"] = random.randint(-10_000, 20_000)
            case 9:
                new["second"] = random.choice((-1, 1)) * random.randint(10_000, 10_800)
                new["height"] = random.choice((9000, random.randint(-500, 9000)))
    return new


def with_axis(w, beyond, sign=0):
    """x, y and l so that the move counts whole: the axis lies where it points, or opposite, so many units beyond the
    edge."""
    east, north, term = moves(w)
    length = math.hypot(east, north) or 1.0
    sign = sign or (1 if term > 0 else -1)
    rule = angles(w)[0]
    xi, eta, term = shadow(
        *rule_place(w["latitude"], w["height"]), *[rule_sines(z) for z in rule], w["tangent"] / ONE, ONE
    )
    l = 27_200_000 if w["star"] else 55_000_000
    away = -sign * (l - term + beyond)
    return dict(
        w, x=[round(xi + away * east / length), 0, 0, 0], y=[round(eta + away * north / length), 0, 0, 0],
        l=[l, 0, 0]
    )


def said(w, guard):
    (h, d), _ = angles(w)
    r, p = rule_place(w["latitude"], w["height"])
    (sh, ch), (sd, cd) = rule_sines(h), rule_sines(d)
    q = near(r * ch, ONE)
    u = rule_value(w["x"], w["second"]) - near(r * sh, ONE)
    v = rule_value(w["y"], w["second"]) - near(p * cd - q * sd, ONE)
    l = rule_value(w["l"], w["second"]) - near(near(p * sd + q * cd, ONE) * w["tangent"], ONE)
    m = u * u + v * v
    return "inside" if l > guard and m < (l - guard) ** 2 else "outside" if m > (l + guard) ** 2 else "unsure"


def main():
    random.seed(int(sys.argv[1]))
    climbs = int(sys.argv[2])
    worst = {"sine": (0.0,), "R": (0.0,), "P": (0.0,), "eclipse": (0.0,), "star": (0.0,)}

    def note(name, value, limit, what):
        assert value <= limit, (name, value, what)
        if value > worst[name][0]:
            worst[name] = (value, what)

    for climb in range(climbs):
        w = draw(climb % 2 == 1)
        best = size(w)
        for _ in range(STEPS):
            new = step(w)
            if (found := size(new)) > best:
                w, best = new, found
        there = with_axis(w, 40_000_000)
        exact, true = difference(there)
        note("star" if w["star"] else "eclipse", abs(true - exact), 19, there)
        for edge in (with_axis(w, beyond, sign) for beyond in range(-60, 61) for sign in (-1, 1)):
            answer = said(edge, GUARD)
            _, true = difference(edge)
            assert not (answer == "inside" and true >= 0) and not (answer == "outside" and true < 0), edge
    # sines and places have their own climbs: over the angle, and over latitude and height
    for climb in range(20 * climbs):
        z = random.choice((33_092_914, random.randint(0, 90_000_000)))
        rule, true = rule_sines(z), true_sines(z)
        for a, b in zip(rule, true):
            note("sine", abs(a - b * ONE), 2, z)
    for climb in range(climbs):
        for name, which in (("R", 0), ("P", 1)):
            def off(place):
                return abs(rule_place(*place)[which] - true_place(*place)[which])
            place = random.randint(0, 90_000_000), random.randint(-500, 9000)
            best = off(place)
            for _ in range(STEPS):
                far = int(10 ** random.uniform(0, 8))
                latitude = within(place[0] + random.randint(-far, far), 0, 90_000_000)
                new = latitude, random.choice((place[1], random.randint(-500, 9000)))
                if (found := off(new)) > best:
                    place, best = new, found
            note(name, best, (5, 5.5)[which], place)
    for name in ("eclipse", "star"):
        value, what = worst[name]
        exact, true = difference(what, True)
        assert abs(abs(true - exact) - Decimal(value)) < Decimal("0.00001"), name
    for name, found in worst.items():
        print(f"{name:8} {found[0]:.4f}  {found[1]}")


main()
