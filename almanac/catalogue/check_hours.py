#!/usr/bin/env python3
"""Whether the catalogue's three reference hours hold every eclipse at every place: all eclipses, random places.

    python3 almanac/catalogue/check_hours.py [PLACES]

For each eclipse it makes the elements of the three hours and the sheets of so many random places (40). It reports how
far the fits are off, how far contacts lie from the chosen hour, and at how many places the widest window of three hours
on either side cuts the eclipse. Places on the night side count too. It needs the library for Python alone.
"""

import random
import sys
from collections import Counter
from math import asin, degrees
from pathlib import Path

sys.path.insert(0, str(Path(__file__).resolve().parent.parent))
from besselian import DOCUMENT_02, ukhtvaresh  # noqa: E402
from catalogue.reader import eclipses  # noqa: E402
from circumstances import Tables, at_station, spell  # noqa: E402

SEED = 1


def main():
    random.seed(SEED)
    count = int(sys.argv[1]) if len(sys.argv) > 1 else 40
    off, hours, cut, farthest = Counter(), Counter(), 0, 0
    for eclipse in eclipses():
        tables = Tables.of_catalogue(eclipse)
        for hour in (-1, 0, 1):
            for name, units in tables.made(hour, DOCUMENT_02).off.items():
                off[name] = max(off[name], units)
        for _ in range(count):
            place = degrees(asin(random.uniform(-1, 1))), random.uniform(-180, 180)
            station = ukhtvaresh.Station(1, *(round(angle * 10**6) for angle in place), 0, eclipse.delta_t)
            local = at_station(tables, station)
            whole = spell(local.entries, ukhtvaresh.Phase.PENUMBRA)
            if whole is None:
                continue
            request = local.request.to_bytes()
            ends = [ukhtvaresh.second(request, second).penumbra for second in (-10800, 10800)]
            cut += ends != [ukhtvaresh.State.OUTSIDE] * 2
            farthest = max(farthest, -whole[0], whole[1])
            hours[(local.instant > tables.instant) - (local.instant < tables.instant)] += 1
    print(f"{len(eclipses())} eclipses, three reference hours each: the library accepts all fits, off by at most")
    print("  " + ", ".join(f"{name} {units}" for name, units in off.items()) + " units")
    print(f"{sum(hours.values())} places with an eclipse, by reference hour: {dict(sorted(hours.items()))}")
    print(f"cut by the widest window: {cut}; contacts at most {farthest} s from the reference instant")


if __name__ == "__main__":
    main()
