#!/usr/bin/env python3
"""Reads a typed list of stations, for the program `network`, a second way; the answers are those of tests/reference.

    python3 tests/network.py units < TEXT        whole units: a line of 25 for the eclipse, then a line of six a station
    tools/build network && python3 tests/network.py [TEXTS] [SEED]    compares the program with it

The second needs `cargo build --offline --release` in tests/reference.

A text has the lines of a typed request but for those of its station, and a line `station NUMBER LATITUDE LONGITUDE HEIGHT DELTA_T
CLOCK` for each station, in their order, before, after or between the others. The program prints `station NUMBER steps N` for each, then
`first NUMBER to SECOND sun up` (or `sun down`), or `first 0` if none enters; or `refused NUMBER PLACE`. The first line with a fault goes to standard error, and
nothing is printed.
"""

import random
import re
import subprocess
import sys
from pathlib import Path

from request import FIELDS, LEFT_OUT, STATION, UNSIGNED2, compare, typed, units

TOP = Path(__file__).resolve().parent.parent
PROGRAM = TOP / "target/bin/network"
REFERENCE = TOP / "tests/reference/target/release/reference"
EXAMPLE = TOP / "examples/eleven1954.network.txt"

ECLIPSE = [field for field in FIELDS if field not in STATION]
NODE = STATION + [("clock", 0, UNSIGNED2)]
BLANKS = b" \t\r"
LONGEST = 65536


class Fault(Exception):
    """What is wrong with a text."""


def said_in(line):
    """The words of a line, its comment left out."""
    return [word for word in re.split(rb"[ \t\r]+", line.split(b"#")[0]) if word]


def number(name, word, places, bounds):
    value, wrong = units(word, places, bounds)
    if wrong:
        raise Fault(f"{name} {wrong}".encode())
    return value


def node(words):
    """The six numbers of a station. A missing word is no number; the last must be a station's number and end the
    line."""
    numbers = [
        number(name, word, places, bounds) for word,
        (name, places, bounds) in zip(words + [b""] * len(STATION), STATION)
    ]
    clock, wrong = units(b" ".join(words[len(STATION) :]), 0, UNSIGNED2)
    if wrong:
        raise Fault(b"clock is not a station's number")
    return [*numbers, clock]


def named(line):
    """The field of a line and its value, as a request has them."""
    said = line.split(b"#")[0].strip(BLANKS)
    for name, places, bounds in ECLIPSE:
        rest = said[len(name) :]
        if said.startswith(name.encode()) and (not rest or rest[0] in BLANKS):
            return name, number(name, rest.strip(BLANKS), places, bounds)
    raise Fault(b"unknown name " + said_in(line)[0])


def read(text):
    """The numbers of the eclipse and of each station in whole units."""
    if len(text) > LONGEST:
        raise Fault(b"the text has more than 65,536 bytes\n")
    lines = text.split(b"\n")
    if lines[-1] == b"":
        lines.pop()
    given, stations = {}, []
    count = 0
    try:
        for count, line in enumerate(lines, 1):
            words = said_in(line)
            if words[:1] == [b"station"]:
                stations.append(node(words[1:]))
            elif words:
                name, value = named(line)
                if name in given:
                    raise Fault(f"{name} is given twice".encode())
                given[name] = value
        count = len(lines) + 1
        given = {**LEFT_OUT, **given}
        for name, _, _ in ECLIPSE:
            if name not in given:
                raise Fault(f"{name} is missing".encode())
    except Fault as fault:
        raise Fault(f"line {count}: ".encode() + fault.args[0] + b"\n") from None
    return [given[name] for name, _, _ in ECLIPSE], stations


def listed(eclipse, stations):
    """The numbers as the reference takes them."""
    return "".join(" ".join(map(str, numbers)) + "\n" for numbers in [eclipse, *stations])


def answer(text):
    """What the program writes to its two outputs."""
    try:
        numbers = listed(*read(text))
    except Fault as fault:
        return b"", fault.args[0]
    return subprocess.run([REFERENCE, "network"], input=numbers.encode(), capture_output=True, check=True).stdout, b""


# ---- texts to try

def decimal(value, places):
    digits = str(abs(value)).rjust(places + 1, "0")
    whole, part = digits[: len(digits) - places], digits[len(digits) - places :].rstrip("0")
    return ("-" if value < 0 else "") + whole + ("." + part if part else "")


def station_line(draw, numbers, wrong):
    words = [decimal(value, places) for value, (_, places, _) in zip(numbers, NODE)]
    if wrong and draw.random() < 0.7:
        others = [
            "", "x", "-", "1e3", "0.0000001", "0.001", "1.5", "99999999999", "-1", "65536", "2147.483648",
            "+7", "007."
        ]
        words[draw.randrange(6)] = draw.choice(others)
    elif wrong:
        words = words[: draw.randrange(6)] + words[: draw.randrange(6)]
    space = draw.choice([" ", " ", "  ", "\t"])
    return draw.choice(["", "", " ", "\t"]) + space.join(["station", *words]) + draw.choice(
        ["", "", " ", "\r", " # a comment", "#x0 1"]
    )


def network(draw):
    """The example's eclipse in a short window, and stations at its places with numbers and clocks of any kind."""
    eclipse, places = read(EXAMPLE.read_bytes())
    count = draw.choice([0, 1, 2, 3, 5, 11, 11, 11, 30, 63, 64, 65, 70])
    numbers = draw.sample(range(1, 1000), count)
    stations = []
    for place, number in enumerate(numbers):
        clock = draw.choice([0, *numbers[:place]])
        moved = [value + draw.choice([0, 0, draw.randint(-200000, 200000)]) for value in draw.choice(places)[1:3]]
        stations.append(
            [
                number, *moved, draw.choice([0, 0, draw.randint(-500, 9000)]),
                draw.choice([0, 0, draw.randint(-10000, 20000)]), clock
            ]
        )
    if draw.random() < 0.5:
        draw.shuffle(stations)
    for _ in range(draw.choice([0, 0, 0, 1, 1, 2]) if stations else 0):
        station = draw.choice(stations)
        field = draw.choice([0, 1, 2, 3, 4, 5, 5, 5])
        station[field] = draw.choice(
            [0, 1000, 90_000_001, -90_000_001, 180_000_001, 9001, -501, -10001, 20001, *(numbers * 2)]
        )
    first = draw.randint(-2000, 1000)
    eclipse[22:] = [first, first + draw.choice([0, 10, 300, 300, 2000]), draw.choice([16, 16, 16, 100, 1000])]
    if draw.random() < 0.1:
        field = draw.randrange(25)
        eclipse[field] = draw.choice([0, 1, 15, 1001, 10801, -10801, 500001])
    return eclipse, stations


def text(draw):
    eclipse, stations = network(draw)
    lines = [f"{name} {decimal(value, places)}" for value, (name, places, _) in zip(eclipse, ECLIPSE)]
    if draw.random() < 0.1:
        field = draw.randrange(25)
        lines[field] = typed(draw, *ECLIPSE[field])
    if draw.random() < 0.3:
        lines.pop()  # no guard
    if draw.random() < 0.3:
        draw.shuffle(lines)
    at = sorted(draw.randint(0, len(lines)) for _ in stations) if draw.random() < 0.3 else [len(lines)] * len(stations)
    wrong = draw.choice(stations) if stations and draw.random() < 0.15 else None
    for place, station in reversed(list(zip(at, stations))):
        lines.insert(place, station_line(draw, station, station is wrong))
    for _ in range(draw.choice([0, 0, 1, 4])):
        lines.insert(draw.randint(0, len(lines)), draw.choice(["", "# a comment", "   ", "#station 1 0 0 0 0 0"]))
    fault = draw.random()
    if fault < 0.05:
        lines.pop(draw.randrange(len(lines)))
    elif fault < 0.1:
        lines.insert(draw.randint(0, len(lines)), draw.choice(lines))
    elif fault < 0.15:
        others = [
            "station", "stations 1 0 0 0 0 0", "station1 0 0 0 0 0", "Station 1 0 0 0 0 0", "latitude 5",
            "delta t 0", "clock 0", "x4 0", "x0", "last 1 2"
        ]
        lines.insert(draw.randint(0, len(lines)), draw.choice(others))
    made = bytearray("\n".join(lines).encode() + draw.choice([b"\n", b"\n", b"", b"\n\n"]))
    if fault > 0.85:
        for _ in range(draw.choice([1, 1, 2, 5])):
            at = draw.randrange(len(made))
            change = draw.random()
            if change < 0.4:
                made[at] = draw.choice(b" \t\n\r#+-.0123456789xyzdlmutanf\x00\xff")
            elif change < 0.7:
                del made[at]
            else:
                made.insert(at, draw.choice(b" \n#-.059x\x80"))
    return bytes(made)


def texts(count, seed):
    draw = random.Random(seed)
    example = EXAMPLE.read_bytes()
    yield example
    yield b""
    yield b"\n" * (LONGEST + 1)
    yield example + b"#" * (LONGEST - len(example))
    yield example + b"#" * (LONGEST - len(example) + 1)
    yield re.sub(rb"(?m)^station.*\n", b"", example)
    for line in example.split(b"\n"):
        yield example.replace(line + b"\n", b"", 1)
        yield example + line
    for words in range(9):
        yield example + b"station" + b" 7" * words
    for place, (name, places, (low, high)) in enumerate(NODE):
        for value in [low - 1, low, high, high + 1, 2**64 + 1]:
            words = ["7"] * 6
            words[place] = decimal(value, places)
            yield example + ("station " + " ".join(words)).encode()
        for value in ["", "-", ".", "1e3", "1,5", "1.2.3", "--1", "0." + "0" * places + "1", "0." + "0" * places + "0"]:
            words = ["7"] * 6
            words[place] = value
            yield example + ("station " + " ".join(words)).encode()
    for _ in range(count):
        yield text(draw)


def kind_of(printed):
    """What the last line says, but for the station and the place."""
    last = printed.decode().split("\n")[-2:][0]
    return re.sub(r"(?<=first )[1-9].*", "a station", re.sub(r"(?<=refused) (\d+) .*", r" \1", last))


if __name__ == "__main__":
    if sys.argv[1:] == ["units"]:
        try:
            print(listed(*read(sys.stdin.buffer.read())), end="")
        except Fault as fault:
            sys.exit(fault.args[0].decode(errors="replace").rstrip())
    else:
        compare(PROGRAM, texts, answer, kind_of, 1000)
