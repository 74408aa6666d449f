#!/usr/bin/env python3
"""Cities with their time zones, cities.txt, from tzdata's zone.tab (public domain).

    python3 web/data/make_cities.py [/usr/share/zoneinfo] > web/data/cities.txt

zone.tab has a zone for every country, so that Oslo and Prague are in it; zone1970.tab, which has only zones that differ
since 1970, has fewer cities. What it has and zone.tab has not is added.
"""

import re
import sys
from pathlib import Path
from typing import Dict, Tuple

HEAD = """\
# Cities from tzdata {version}, zone.tab (public domain), by make_cities.py.
# Latitude and east longitude in 0.0001 degree (good to a minute of arc), country (ISO 3166), time zone.
# The city is the zone's last part.
"""


def angle(words: str) -> int:
    """An angle written +DDMM, +DDDMM, +DDMMSS or +DDDMMSS, in 0.0001 degree."""
    sign, digits = words[0], words[1:]
    size = 2 if len(digits) in (4, 6) else 3
    degrees, minutes, seconds = int(digits[:size]), int(digits[size : size + 2]), int(digits[size + 2 :] or 0)
    return (-1 if sign == "-" else 1) * round((degrees * 3600 + minutes * 60 + seconds) * 10**4 / 3600)


def places(path: Path) -> Dict[str, Tuple[int, int, str]]:
    made = {}
    for line in path.read_text("utf-8").splitlines():
        if line.startswith("#"):
            continue
        countries, where, zone = line.split("\t")[:3]
        latitude, longitude = re.fullmatch(r"([+-]\d+)([+-]\d+)", where).groups()
        made[zone] = (angle(latitude), angle(longitude), countries[:2])
    return made


def main():
    folder = Path(sys.argv[1] if len(sys.argv) > 1 else "/usr/share/zoneinfo")
    found = {**places(folder / "zone1970.tab"), **places(folder / "zone.tab")}
    stated = folder / "tzdata.zi"
    version = stated.read_text("utf-8").split("\n")[0].split()[-1] if stated.exists() else "of unknown version"
    text = HEAD.format(version=version)
    for zone in sorted(found, key=lambda zone: zone.split("/")[-1]):
        text += " ".join(map(str, (*found[zone], zone))) + "\n"
    print(text, end="")
    print(f"{len(found)} cities, {len(text)} bytes", file=sys.stderr)


if __name__ == "__main__":
    main()
