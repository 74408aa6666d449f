#!/usr/bin/env python3
"""What an observer reads on `times` at three places: python3 tests/observer.py

London on 8 April 2024, where the eclipse is over before the Sun could show it; a place near Bengaluru on 21 August 2017,
where the axis of the shadow leaves the Earth at midnight and the rules give an annular eclipse; and Salem, Oregon, on the
same day, whose first contact lies before the window that the example of 2017 once had. The almanac makes the texts from
its catalogue. What the program prints is compared with tests/reference and python/clock.py to the byte, and then with
what it must say.

It needs the program (`tools/build times`), the library for the almanac (`tools/build library && python/build`), and
cargo, which builds tests/reference.
"""

import struct
import subprocess
import sys
from pathlib import Path

TOP = Path(__file__).resolve().parent.parent
sys.path[:0] = [str(TOP / "tests"), str(TOP / "python")]
import clock  # noqa: E402
import request  # noqa: E402
import times  # noqa: E402

DOWN = "note the Sun is below the horizon at every contact\n"
# arguments of the almanac, what must be said, and what must not
PLACES = [
    (
        ["2024-04-08", "51.5074", "-0.1278", "11", "--title", "London"],
        [" 808795 ET 19:48:02.0 UT 19:46:52.9 UTC 19:46:52.8 alt -9.8 below the horizon\n", DOWN],
        ["before the window", "after the window"],
    ),
    (
        ["2017-08-21", "13.3", "77.8", "900", "--title", "north of Bengaluru"],
        ["enter central ", " UTC 18:25:", " alt -64.1 below the horizon\n", DOWN],
        ["before the window", "after the window"],
    ),
    (
        ["2017-08-21", "44.9429", "-123.0351", "50", "--title", "Salem"],
        ["enter penumbra -3204 -3203 ", " UTC 16:05:26.8 16:05:27.9 alt 27.7\n", "enter central ", " alt 39.9\n"],
        ["below the horizon", "note"],
    ),
]


def wanted(text):
    """What the program is to print, by code that shares nothing with it."""
    encoded, wrong = request.answer(text)
    assert not wrong, wrong
    (delta_t,) = struct.unpack(">i", encoded[-11:-7])
    return times.with_times(times.observed(encoded), clock.instant_in(text), delta_t)


def main():
    subprocess.run(
        ["cargo", "build", "--offline", "--release", "--quiet"], cwd=TOP / "tests/reference", check=True
    )
    for arguments, said, unsaid in PLACES:
        made = subprocess.run([sys.executable, TOP / "almanac/almanac.py", *arguments], capture_output=True, check=True)
        ran = subprocess.run([TOP / "target/bin/times"], input=made.stdout, capture_output=True, check=True)
        printed = ran.stdout.decode()
        if printed != wanted(made.stdout):
            sys.exit(f"{arguments}\ntimes\n{printed}\nwanted\n{wanted(made.stdout)}")
        for words in said:
            assert words in printed, (words, printed)
        for words in unsaid:
            assert words not in printed, (words, printed)
    # Salem in the window that begins at 0: first contact is lost, and a note says so
    text = made.stdout.replace(b"first -10800", b"first 0")
    printed = subprocess.run([TOP / "target/bin/times"], input=text, capture_output=True, check=True).stdout.decode()
    assert printed == wanted(text) and printed.endswith("note the eclipse began before the window\n"), printed
    print(f"{len(PLACES)} places read right")


if __name__ == "__main__":
    main()
