"""Where the Sun is at each contact in Hopkinsville, 21 August 2017: python3 python/example_horizon.py

The angle of a contact counts from the zenith through the left, as one sees the disc upright. No refraction and no dip.
"""

from pathlib import Path

from ukhtvaresh import Enter, Leave, horizon, read, sheet

request = (Path(__file__).resolve().parent.parent / "examples" / "hopkinsville2017.bin").read_bytes()
for entry in read(sheet(request)):
    if not isinstance(entry, (Enter, Leave)):
        continue
    # the second at which the entry has its direction
    second = entry.to if isinstance(entry, Enter) else entry.from_
    seen = horizon(request, second)
    line = f"{type(entry).__name__.lower()} {entry.phase.value} at {second}: altitude {seen.altitude / 10}"
    if seen.altitude < 0:
        line += " (below the horizon)"
    if None not in (seen.azimuth, seen.zenith, entry.direction):
        line += f", azimuth {seen.azimuth / 10}, {(entry.direction - seen.zenith) % 3600 / 10} from the zenith"
    print(line)
