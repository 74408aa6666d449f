#!/usr/bin/env python3
"""Sun and Moon as seen from a station, against the same from the Earth's centre less the station's place, in seconds
of arc to the east.

    /usr/bin/python3 almanac/observer.py

The difference should be diurnal aberration, alike for both, so that the elements of an eclipse, which are for the
Earth's centre, serve every station. Swiss Ephemeris' own places for a station, and ERFA's reduction done for the
station in full: light time, and aberration by the observer's own velocity.
"""

from math import asin, atan2, cos, degrees, pi, radians, sin, sqrt

from places import AU, julian_day, swetest

PLACE = ("Hopkinsville", 36.8656, -87.4886, 165)
# the hour of universal time near the greatest eclipse there
TIMES = [(2017, 8, 21, 18), (2023, 10, 14, 17), (2024, 4, 8, 19)]
DELTA_T = 69.0  # s; a tenth more or less is nothing here


def angles(vector):
    """Right ascension and declination in radians."""
    x, y, z = vector
    return atan2(y, x), asin(z / sqrt(x * x + y * y + z * z))


def observer(sidereal):
    """The station from the Earth's centre in kilometres, for sidereal time at Greenwich in radians."""
    _, latitude, longitude, height = PLACE
    flat, a, phi, theta = 1 - 1 / 298.25642, 6378.1366, radians(latitude), sidereal + radians(longitude)
    c = 1 / sqrt(cos(phi) ** 2 + (flat * sin(phi)) ** 2)
    across, up = (a * c + height / 1000) * cos(phi), (a * c * flat**2 + height / 1000) * sin(phi)
    return across * cos(theta), across * sin(theta), up


def east(station, centre, place):
    """How far a body for the station lies east of that for the centre less the station's place."""
    ra, dec = angles([c - p for c, p in zip(centre, place)])
    return degrees((angles(station)[0] - ra) * cos(dec)) * 3600


def by_swiss(time):
    year, month, day, hour = time
    _, latitude, longitude, height = PLACE
    at = [f"-b{day}.{month}.{year}", f"-ut{hour}:00:00"]
    centre, station = (
        [[float(c) * AU for c in line.split()[1:4]] for line in swetest(*at, "-p01", "-fPx", *words)]
        for words in ([], [f"-topo{longitude},{latitude},{height}"])
    )
    (armc,) = (float(line.split()[1]) for line in swetest(*at, "-p", "-house0,0,P", "-fPl") if line.startswith("ARMC"))
    return [east(seen, body, observer(radians(armc))) for seen, body in zip(station, centre)]


def by_erfa(time):
    import erfa
    import numpy

    midnight, universal = julian_day(*time[:3]), time[3] / 24
    fraction = universal + DELTA_T / 86400
    sidereal = float(erfa.gst06a(midnight, universal, midnight, fraction))
    light_day = 86_400 * 299_792.458 / AU
    to_date = erfa.pnm06a(midnight, fraction)

    def at(days):
        return numpy.array(observer(sidereal + 2 * pi * 1.00273781 * days)) / AU

    heliocentric, earth = erfa.epv00(midnight, fraction)
    velocity_here = (at(1e-4) - at(-1e-4)) / 2e-4

    def seen(position, place, velocity):
        start, speed = earth["p"] + to_date.T @ place, (earth["v"] + to_date.T @ velocity) / light_day
        delay = 0.0
        for _ in range(4):
            vector = position(fraction - delay) - start
            distance = numpy.linalg.norm(vector)
            delay = distance / light_day
        direction = erfa.ab(
            vector / distance, speed, numpy.linalg.norm(heliocentric["p"]), sqrt(1 - float(speed @ speed))
        )
        return to_date @ direction * distance * AU

    def sun(days):
        around_sun, around_all = erfa.epv00(midnight, days)
        return around_all["p"] - around_sun["p"]

    def moon(days):
        return erfa.epv00(midnight, days)[1]["p"] + erfa.moon98(midnight, days)["p"]

    still = numpy.zeros(3)
    return [east(seen(body, at(0), velocity_here), seen(body, still, still), at(0) * AU) for body in (sun, moon)]


def main():
    for name, shifts in (("Swiss Ephemeris", by_swiss), ("ERFA, in full", by_erfa)):
        for time in TIMES:
            try:
                sun, moon = shifts(time)
            except ImportError:
                print(f"{name}: not here (python3-erfa needs /usr/bin/python3)")
                break
            print(
                f'{name:16} {time[0]}-{time[1]:02}-{time[2]:02}  Sun {sun:+.3f}"  Moon {moon:+.3f}"  '
                f'the Moon against the Sun {moon - sun:+.3f}"'
            )


if __name__ == "__main__":
    main()
