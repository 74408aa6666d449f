#!/usr/bin/env python3
"""Input and expected output of the program `times`: python3 tests/times.py FOLDER

The input is the typed request of Hopkinsville, 2017, with its instant and TAI-UTC; the output its listing with altitudes and notes, which
tests/reference gives, with the times of day that python/clock.py prints behind each second.
"""
import subprocess
import sys
from dataclasses import replace
from pathlib import Path

TOP = Path(__file__).resolve().parent.parent
sys.path.append(str(TOP / "python"))
import clock  # noqa: E402

NAME = "hopkinsville2017"
TAI_UTC = 37  # in August 2017
REFERENCE = TOP / "tests/reference/target/release/reference"
FROM = {"enter": 2, "leave": 2, "graze": 2, "open": 2, "closest": 1}  # the word at which the seconds of a line begin


def behind(instant, delta_t, words):
    """What stands behind a line of the listing."""
    if words[0] not in FROM:
        return f"\ninstant {instant}" if words[0] == "station" else ""
    seconds = [int(word) for word in words[FROM[words[0]] :]]
    if words[0] == "closest":
        return "".join(f" {scale.value} {time}" for scale, time in clock.nearest(instant, delta_t, seconds[0]).items())
    times = clock.times(instant, delta_t, seconds[0], seconds[1])
    return "".join(f" {scale.value} {earlier} {later}" for scale, (earlier, later) in times.items())


def with_times(listing, instant, delta_t):
    """A listing with altitudes and notes, as tests/reference gives it, with the times of day."""
    if instant is None or listing.startswith("refused"):
        return listing
    text = ""
    for line in listing.splitlines():
        plain, alt, altitude = line.partition(" alt ")
        text += f"{plain}{behind(instant, delta_t, plain.split())}{alt}{altitude}\n"
    return text


def observed(request):
    """The listing of a request's bytes with altitudes and notes."""
    return subprocess.run([REFERENCE, "observer"], input=request, capture_output=True, check=True).stdout.decode()


def main():
    text = (TOP / f"examples/{NAME}.txt").read_text()
    lines = (TOP / "examples/instants.txt").read_text().splitlines()
    typed = dict(line.split(None, 1) for line in lines if not line.startswith("#"))[NAME]
    delta_t = next(line.split()[2] for line in text.splitlines() if line.startswith("delta t"))
    instant = replace(clock.Instant.read(typed.encode()), offset=TAI_UTC)
    folder = Path(sys.argv[1])
    (folder / "stdin").write_text(f"{text}instant {typed}\ntai-utc {TAI_UTC}\n")
    listing = observed((TOP / f"examples/{NAME}.bin").read_bytes())
    (folder / "stdout").write_text(with_times(listing, instant, round(float(delta_t) * 100)))


if __name__ == "__main__":
    main()
