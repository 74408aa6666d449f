#!/usr/bin/env python3
"""The covered share against the area of two overlapping discs, by the closed formula in doubles, over whole eclipses.

    tools/build library && python/build
    python3 tests/discs.py

Takes the elements of examples/*.bin, total eclipses, at each one's station and at others, every second from -10,800
to 10,800; and the same with both cones wider by one amount, as if the Moon were farther off, which makes them
annular. The library gives radii, distance and share. Prints for each station where the share stands lowest and
highest to the area, in millionths, and last the worst of all, of the total eclipses and of the annular ones; more
than 1,000 millionths (0.001) is a failure.
"""
import sys
from dataclasses import replace
from math import acos, pi, sin, sqrt
from pathlib import Path

ROOT = Path(__file__).resolve().parent.parent
sys.path.insert(0, str(ROOT / "python"))
from ukhtvaresh import Request, State, Window, second, share  # noqa: E402

# latitude and longitude, degrees, east positive
STATIONS = [(0, 0), (52, 13), (64, 20), (35, 52), (70, -40), (45, -123), (33, -80), (41, -105), (20, -100), (-10, -60)]
WIDER = 2_500_000  # units added to l1 and l2


def area(L1, L2, M):
    """The covered part of the Sun's disc, millionths."""
    r, n, d = (L1 + L2) / 2, (L1 - L2) / 2, sqrt(M)
    if d >= r + n:
        return 0.0
    if d <= abs(n - r):
        return 1e6 * min(1.0, (n / r) ** 2)
    a = acos((d * d + r * r - n * n) / (2 * d * r))
    b = acos((d * d + n * n - r * r) / (2 * d * n))
    return 1e6 * (r * r * (a - sin(2 * a) / 2) + n * n * (b - sin(2 * b) / 2)) / (pi * r * r)


def differences(request):
    """The share less the area, the second, and whether it is a sure central one; of every second at which the discs
    overlap."""
    found = []
    for at in range(-10_800, 10_801):
        shadow = second(request, at)
        M = shadow.u**2 + shadow.v**2
        if M < shadow.l1**2:
            found.append((share(request, at) - area(shadow.l1, shadow.l2, M), at, shadow.central is State.INSIDE))
    return found


def annular(request):
    elements = request.elements
    return replace(request, elements=replace(elements, l1_0=elements.l1_0 + WIDER, l2_0=elements.l2_0 + WIDER))


def moved(request, place):
    latitude, longitude = (1_000_000 * degrees for degrees in place)
    return replace(request, station=replace(request.station, latitude=latitude, longitude=longitude))


worst = {"total": [], "annular": []}
# a star request has 79 bytes
for path in sorted(path for path in (ROOT / "examples").glob("*.bin") if path.stat().st_size == 115):
    own = replace(Request.from_bytes(path.read_bytes()), window=Window(-10_800, 10_800))
    for sort, made in (("total", own), ("annular", annular(own))):
        for place in [None, *STATIONS]:
            request = made if place is None else moved(made, place)
            found = differences(request.to_bytes())
            name = f"{path.stem} {sort} {'its own station' if place is None else place}"
            if not found:
                print(f"{name}: no eclipse")
                continue
            worst[sort] += found
            low, high = min(found), max(found)
            print(f"{name}: {len(found)} seconds, {low[0]:+.1f} at {low[1]} to {high[0]:+.1f} at {high[1]}")
for sort, found in worst.items():
    central = [difference for difference, _, inside in found if inside]
    print(
        f"worst of {len(found)} seconds, {sort}: {min(found)[0]:+.1f} to {max(found)[0]:+.1f} millionths; "
        f"of {len(central)} central ones {min(central):+.1f} to {max(central):+.1f}"
    )
sys.exit(any(abs(difference) > 1_000 for found in worst.values() for difference, _, _ in found))
