#!/usr/bin/env python3
"""Compares the clock times of Python with those of the page, and both with the rules of docs/CLOCK.md in exact fractions.

    python3 tests/clock_times.py [QUESTIONS] [SEED]         wants node; the library's listings too, if it is built
    python3 tests/clock_times.py program [TEXTS] [SEED]     the program `times` compared with tests/reference and python/clock.py
                                                            (`tools/build times`; cargo built tests/reference)
"""

import json
import random
import re
import struct
import subprocess
import sys
from dataclasses import replace
from fractions import Fraction
from pathlib import Path

TOP = Path(__file__).resolve().parent.parent
sys.path.append(str(TOP / "python"))
import clock  # noqa: E402
import times  # noqa: E402
from request import answer, instant_line, is_instant, typed_instant  # noqa: E402


def typed_text(draw):
    """A text with lines of an instant, and of other names."""
    others = [
        "x0 1", "", "# instant 2017-08-21 18:00:00 ET", "instants 1", "station 7", "  \t", "Instant 1",
        "instant# 1", "\r"
    ]
    lines = [draw.choice(others) for _ in range(draw.randrange(6))]
    for _ in range(draw.choice([0, 1, 1, 1, 2, 3])):
        lines.insert(draw.randint(0, len(lines)), instant_line(draw))
    if draw.random() < 0.3:
        lines.insert(draw.randint(0, len(lines)), f"tai-utc {draw.randint(10, 99)}")
    return "\n".join(lines) + draw.choice(["", "\n"])


def in_python(question):
    name, *given = question
    if name == "instant":
        read = clock.Instant.read(given[0].encode())
        assert (read is not None) == is_instant(given[0].encode())
        return None if read is None else str(read)
    if name == "text":
        read = clock.instant_in(given[0].encode())
        return None if read is None else f"{read} {read.offset}"
    instant = replace(clock.Instant.read(given[0].encode()), offset=given[1])
    if name == "times":
        return {scale.value: list(pair) for scale, pair in clock.times(instant, *given[2:]).items()}
    return {scale.value: time for scale, time in clock.nearest(instant, *given[2:]).items()}


def seconds_of(printed):
    """Seconds from 0h of the instant's day."""
    hours, minutes, seconds, tenth, day = re.fullmatch(
        r"([01]\d|2[0-3]):([0-5]\d):([0-5]\d)\.(\d)([+-]1d)?", printed
    ).groups()
    days = int(day[:-1]) if day else 0
    return days * 86400 + int(hours) * 3600 + int(minutes) * 60 + int(seconds) + Fraction(int(tenth), 10)


def judge(question, answer):
    """The rules: a time of each known scale, a contact between its two times, and these no farther off than a tenth."""
    name, words, offset, delta_t, *seconds = question
    instant = clock.Instant.read(words.encode())
    own = instant.scale.value
    known = [own] if delta_t == 0 else ["ET", "UT"]
    assert list(answer) == known + (["UTC"] if offset and "ET" in known else [])
    ahead = {"ET": Fraction(delta_t, 100), "UT": 0}  # of universal time
    for scale, given in answer.items():
        # UTC is ephemeris time less 32.184 s less TAI - UTC
        less = ahead[own] - (ahead["ET"] - Fraction(32184, 1000) - offset if scale == "UTC" else ahead[scale])
        exact = [Fraction(instant.hundredths, 100) + second - less for second in seconds]
        if name == "times":
            earlier, later = map(seconds_of, given)
            assert exact[0] - Fraction(1, 10) < earlier <= exact[0] and exact[1] <= later < exact[1] + Fraction(1, 10)
        else:
            off = seconds_of(given) - exact[0]
            assert -Fraction(1, 20) < off <= Fraction(1, 20)


def asked_of_page(questions):
    lines = "".join(json.dumps(question) + "\n" for question in questions)
    ran = subprocess.run(["node", TOP / "web/test/clock.mjs"], input=lines.encode(), stdout=subprocess.PIPE, check=True)
    return [json.loads(line) for line in ran.stdout.decode().splitlines()]


def listings():
    """The listing with clock times of each example, by Python and by the page."""
    import ukhtvaresh

    questions, wanted = [], []
    for line in (TOP / "examples/instants.txt").read_text().splitlines():
        if line.startswith("#"):
            continue
        name, words = line.split(" ", 1)
        request = (TOP / f"examples/{name}.bin").read_bytes()
        star = request[0] == 5
        kind = ukhtvaresh.StarRequest if star else ukhtvaresh.Request
        delta_t = kind.from_bytes(request).station.delta_t
        sheet = (ukhtvaresh.star if star else ukhtvaresh.sheet_and_share)(request)
        entries = []
        for entry in ukhtvaresh.read(sheet):
            fields = {key.rstrip("_"): value for key, value in vars(entry).items() if key != "phase"}
            entries.append({"name": type(entry).__name__.lower(), **fields})
        questions.append(["listing", words, delta_t, ukhtvaresh.listing(sheet), entries])
        wanted.append(clock.listing(sheet, clock.Instant.read(words.encode()), delta_t))
    for given, want in zip(asked_of_page(questions), wanted):
        if given != want:
            sys.exit(f"page\n{given}\npython\n{want}")
    return len(wanted)


# ---- the program `times`

PROGRAM = TOP / "target/bin/times"
EXAMPLES = ["hopkinsville2017", "moscow1954", "kiev1954", "potsdam1956", "kansas1949"]


def typed_request(draw):
    """An example's text with another ΔT and window, most with one instant among its lines, some with a fault or a
    refusal."""
    values = {
        "delta t": draw.choice(["0", "68.8", "-100", "200", f"{draw.randint(-10000, 20000) / 100:.2f}", "200.01"])
    }
    first = draw.choice([-10800, draw.randint(-10800, 10800), -5400])
    values["first"], values["last"] = str(first), str(min(10800, first + draw.choice([0, 1, 600, 7200, 21600])))
    if draw.random() < 0.05:
        values["latitude"] = draw.choice(["90.000001", "north"])
    lines = []
    for line in (TOP / f"examples/{draw.choice(EXAMPLES)}.txt").read_text().splitlines():
        name = next((name for name in values if re.match(rf"{name}\s", line)), None)
        lines.append(f"{name} {values[name]}" if name else line)
    for _ in range(draw.choice([0, 1, 1, 1, 1, 1, 1, 1, 2])):
        lines.insert(draw.randint(0, len(lines)), "instant " + typed_instant(draw))
    if draw.random() < 0.3:
        lines.insert(draw.randint(0, len(lines)), f"tai-utc {draw.choice([37, draw.randint(9, 100)])}")
    return ("\n".join(lines) + "\n").encode()


def by_python(text):
    """What `times` is to write: standard output and standard error."""
    request, wrong = answer(text)
    if wrong:
        return "", wrong.decode()
    (delta_t,) = struct.unpack(">i", request[-11:-7])
    return times.with_times(times.observed(request), clock.instant_in(text), delta_t), ""


def program(count, draw):
    timed = 0
    for _ in range(count):
        text = typed_request(draw)
        ran = subprocess.run([PROGRAM], input=text, capture_output=True, check=False)
        given, wanted = (ran.stdout.decode(), ran.stderr.decode()), by_python(text)
        if given != wanted:
            sys.exit(f"{text.decode()}\ntimes  {given}\npython {wanted}")
        timed += "\ninstant " in wanted[0]
    print(f"{count} texts, {timed} listings with times, no difference")


def main():
    if sys.argv[1:2] == ["program"]:
        program(
            int(sys.argv[2]) if len(sys.argv) > 2 else 500,
            random.Random(int(sys.argv[3]) if len(sys.argv) > 3 else 1954)
        )
        return
    count = int(sys.argv[1]) if len(sys.argv) > 1 else 20000
    draw = random.Random(int(sys.argv[2]) if len(sys.argv) > 2 else 1954)
    questions = []
    while len(questions) < count:
        words = typed_instant(draw)
        kind = draw.choice(["instant", "text", "times", "nearest"])
        if kind == "text":
            questions.append([kind, typed_text(draw)])
        elif kind == "instant":
            questions.append([kind, words])
        elif clock.Instant.read(words.encode()) is not None:
            delta_t = draw.choice([0, draw.randint(-10000, 20000), 6880, draw.choice([-10000, 20000])])
            second = draw.choice([draw.randint(-10800, 10800), -10800, 10800, 0])
            later = [] if kind == "nearest" else [min(10800, second + draw.choice([1, 1, 2, 100]))]
            questions.append([kind, words, draw.choice([0, 0, 37, draw.randint(10, 99)]), delta_t, second, *later])
    for question, given in zip(questions, asked_of_page(questions)):
        wanted = in_python(question)
        if given != wanted:
            sys.exit(f"{question}\npage   {given}\npython {wanted}")
        if question[0] in ("times", "nearest"):
            judge(question, given)
    print(f"{len(questions)} questions, no difference")
    if (TOP / "target/staticlib/libukhtvaresh.so").is_file():
        print(f"{listings()} listings, no difference")


if __name__ == "__main__":
    main()
