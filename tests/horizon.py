#!/usr/bin/python3
"""Compares altitude, azimuth and zenith of the library with ERFA's hd2ae and hd2pa: tests/horizon.py [DRAWS] [SEED]

Requires ERFA for Python (Debian: python3-erfa, so Debian's own python3) and target/staticlib/libukhtvaresh.so, which
python/build makes. Half of the draws (100,000 if not given) are requests of eclipses, half of stars. In half of each
the Sun or the star is anywhere; in the other half it is at an edge: overhead, straight down, rising, setting, on the
meridian, seen from a pole or from the equator, or touching the horizon. In eclipses d moves, often at its limits. ΔT is
any.

The angles for ERFA are computed here in double precision from the request's numbers. The library rounds down, so ERFA's
value lies in the tenth of a degree that the library gives, or next to it, since the library's sines have eight
decimals:

- an altitude within ±89 degrees at most NEXT tenths outside that tenth; beyond ±89 degrees, where the sine hardly
  changes, at most NEXT_TO_ZENITH;
- an azimuth and a zenith, where the altitude is within ±89 degrees, at most NEXT.

Prints what was compared and the largest distance from the tenth that the library gives; the status is 1 on any miss.
"""

import math
import random
import sys
from pathlib import Path

import erfa

sys.path.insert(0, str(Path(__file__).resolve().parent.parent / "python"))
import ukhtvaresh as u  # noqa: E402

NEXT, NEXT_TO_ZENITH = 0.01, 0.25  # tenths of a degree
DEGREE = 1_000_000
TURN = 360 * DEGREE
TURN_IN_DELTA_T = 41.7807  # 10^-6 degree that the Earth turns in a hundredth of a second
FARTHEST = 10_800


def at(coefficients, second):
    """The value of coefficients per hour, in double precision."""
    value = 0.0
    for coefficient in reversed(coefficients):
        value = value * second / 3600 + coefficient
    return value


def about(angle):
    """An angle as it is, or off by a few millionths of a degree, or by a degree at most."""
    off = random.choice((0, 3, 200_000, DEGREE))
    return angle + random.randint(-off, off)


def limit_or_any(low, high):
    return random.choice((low, high, 0 if low <= 0 <= high else low, random.randint(low, high)))


def station(edge, d, mu, delta_t):
    """A station anywhere, or where the Sun or the star is at an edge; d and μ are those of the second asked for."""
    latitude = random.randint(-90 * DEGREE, 90 * DEGREE)
    longitude = random.randint(-180 * DEGREE, 180 * DEGREE)
    if edge:
        d, touching = round(d), 90 * DEGREE - abs(round(d))
        poles = (90 * DEGREE, -90 * DEGREE, 0, touching, -touching)
        latitude = about(random.choice((d, d, -d, latitude, *poles)))
        hour_angle = about(random.choice((0, 0, 180, 90, -90)) * DEGREE)
        longitude = round(hour_angle - mu + TURN_IN_DELTA_T * delta_t)
        longitude = (longitude + TURN // 2) % TURN - TURN // 2
    latitude = max(-90 * DEGREE, min(latitude, 90 * DEGREE))
    return u.Station(random.randint(1, 999), latitude, longitude, random.randint(-500, 9_000), delta_t)


def draw(star, edge):
    """A request, a second, and the hour angle, the declination and the latitude there in radians."""
    second = random.choice((-FARTHEST, FARTHEST, 0, *[random.randint(-FARTHEST, FARTHEST) for _ in range(5)]))
    mu = [random.randint(0, TURN - 1), limit_or_any(14_900_000, 15_100_000), limit_or_any(-100, 100)]
    delta_t = limit_or_any(-10_000, 20_000)
    if star:
        d = [limit_or_any(-30 * DEGREE, 30 * DEGREE)]
    else:
        d = [limit_or_any(-25 * DEGREE, 25 * DEGREE), limit_or_any(-20_000, 20_000), limit_or_any(-100, 100)]
    mu_then, d_then = at(mu, second), at(d, second)
    place = station(edge, d_then, mu_then, delta_t)
    window = u.Window(*sorted(random.randint(-FARTHEST, FARTHEST) for _ in range(2)))
    moments = dict(zip(("mu0", "mu1", "mu2", "d0", "d1", "d2"), mu + d))
    if star:
        request = u.StarRequest(u.StarElements(**moments), 27_250_000, place, window)
    else:
        cones = {"l1_0": 54_000_000, "tan_f1": 460_000, "tan_f2": 458_000}
        request = u.Request(u.Elements(**moments, **cones), place, window)
    hour_angle = mu_then + place.longitude - TURN_IN_DELTA_T * delta_t
    return request, second, [math.radians(angle / DEGREE) for angle in (hour_angle, d_then, place.latitude)]


def outside(value, tenth):
    """How far a value lies outside the tenth from `tenth` up, in tenths: 0 within it."""
    return max(tenth - value, value - (tenth + 1), 0.0)


def outside_turn(value, tenth):
    """The same around the circle."""
    return outside(tenth + 0.5 + (value - tenth - 0.5 + 1800) % 3600 - 1800, tenth)


class Tally:
    """What was compared of one quantity, how often the tenth is another than ERFA's, and the farthest."""

    def __init__(self, name, most):
        self.name, self.most = name, most
        self.count = self.other = self.missed = 0
        self.farthest = 0.0

    def add(self, distance, case):
        self.count += 1
        self.other += distance > 0
        self.farthest = max(self.farthest, distance)
        if distance > self.most:
            self.missed += 1
            if self.missed <= 3:
                print(f"MISS: {self.name} is {distance:.6f} tenths off: {case}")

    def line(self):
        return (
            f"{self.name}: {self.count} compared, {self.other} in a tenth next to ERFA's, "
            f"the farthest {self.farthest:.6f} tenths outside (at most {self.most})"
        )


def main():
    count = int(sys.argv[1]) if len(sys.argv) > 1 else 100_000
    seed = int(sys.argv[2]) if len(sys.argv) > 2 else 1
    random.seed(seed)
    altitudes, steep = Tally("altitude within ±89 degrees", NEXT), Tally("altitude beyond ±89 degrees", NEXT_TO_ZENITH)
    azimuths, zeniths = Tally("azimuth", NEXT), Tally("zenith", NEXT)
    none = 0
    for number in range(count):
        star, edge = number % 2 == 1, number % 4 >= 2
        request, second, (hour_angle, declination, latitude) = draw(star, edge)
        found = (u.star_horizon if star else u.horizon)(request.to_bytes(), second)
        azimuth, elevation = (math.degrees(angle) * 10 for angle in erfa.hd2ae(hour_angle, declination, latitude))
        zenith = math.degrees(erfa.hd2pa(hour_angle, declination, latitude)) * 10
        case = (request, second, found, (elevation, azimuth, zenith))
        none += found.azimuth is None or found.zenith is None
        if abs(elevation) >= 890:
            steep.add(outside(elevation, found.altitude), case)
            continue
        altitudes.add(outside(elevation, found.altitude), case)
        for tally, value, direction in ((azimuths, azimuth, found.azimuth), (zeniths, zenith, found.zenith)):
            tally.add(math.inf if direction is None else outside_turn(value, direction), case)
    print(f"{count} draws, seed {seed}, ERFA {erfa.__version__}; without azimuth or zenith {none}")
    tallies = (altitudes, steep, azimuths, zeniths)
    for tally in tallies:
        print(tally.line())
    missed = sum(tally.missed for tally in tallies)
    print("no miss" if missed == 0 else f"{missed} missed")
    return 1 if missed else 0


if __name__ == "__main__":
    sys.exit(main())
