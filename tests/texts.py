#!/usr/bin/env python3
"""Typed texts, valid and damaged, through the exports `typed` and `times`: byte for byte what the programs `request`
and `times` write, and for `typed` what the reading of tests/request.py gives, which shares no code with the library.

    tools/build library request times && python/build && python3 tests/texts.py [TEXTS] [SEED]
"""

import ctypes
import random
import re
import subprocess
import sys
from dataclasses import replace
from pathlib import Path

TOP = Path(__file__).resolve().parent.parent
sys.path.append(str(TOP / "python"))
sys.path.append(str(TOP / "tests"))
import request as reading  # noqa: E402
import ukhtvaresh  # noqa: E402

NAMES = "hopkinsville2017 kansas1949 kiev1954 moscow1954 potsdam1956".split()


def program(name, text):
    ran = subprocess.run([TOP / "target/bin" / name], input=text, capture_output=True)
    return ran.stdout, ran.stderr


def exported(text):
    """What the export gives, as the program's two outputs, and the line of a fault."""
    try:
        return (ukhtvaresh.typed(text)[0], b""), None
    except ukhtvaresh.Fault as fault:
        return (b"", fault.message), fault.place


def instant_of(text):
    """The instant of a valid text, by the regular expressions of tests/request.py."""
    found = {}
    for line in text.split(b"\n"):
        for name in b"instant", b"tai-utc":
            words = reading.clock_words(reading.said_in(line), name)
            if words is not None:
                found[name] = words
    if b"instant" not in found:
        return None
    form = reading.INSTANT.fullmatch(found[b"instant"])
    year, month, day, hour, minute, second = (int(form[k]) for k in range(1, 7))
    part = (form[7] or b".0")[1:].ljust(2, b"0")
    hundredths = ((hour * 60 + minute) * 60 + second) * 100 + int(part)
    scale = {b"ET": 1, b"UT": 2}[form[8]]
    return ukhtvaresh.Instant(scale, year, month, day, hundredths, int(found.get(b"tai-utc", b"0")))


def listed(text):
    """The listing of a valid text by the export `times`, or the line of its refusal."""
    request, instant = ukhtvaresh.typed(text)
    try:
        return ukhtvaresh.times(request, instant).encode()
    except ukhtvaresh.Refused as refused:
        return f"refused {refused.number} {refused.place}\n".encode()


def examples(draw, count):
    """The typed requests of examples/, with and without an instant and TAI-UTC, and with one byte changed."""
    for _ in range(count):
        text = (TOP / f"examples/{draw.choice(NAMES)}.txt").read_bytes()
        if draw.random() < 0.8:
            year, scale = draw.choice([1583, 1954, 1972, 2017, 9999]), draw.choice(["ET", "UT"])
            date = f"{year}-{draw.randint(1, 12):02}-{draw.randint(1, 28):02}"
            hour, minute, second, part = (draw.randint(0, most) for most in (23, 59, 59, 99))
            time = f"{hour:02}:{minute:02}:{second:02}.{part:02}"
            text += f"instant {date} {time} {scale}\n".encode()
            if year >= 1972 and draw.random() < 0.5:
                text += f"tai-utc {draw.randint(10, 99)}\n".encode()
        if draw.random() < 0.4:
            at = draw.randrange(len(text))
            text = text[:at] + bytes([draw.choice(b"0123456789.-+ #\nx")]) + text[at + 1 :]
        yield text


def check(condition, text, *words):
    if not condition:
        sys.exit(f"{text!r}\n" + "\n".join(repr(word) for word in words))


def wrong_instants():
    """Each number of an instant outside its range, and the place that refusal 23 has to give."""
    good = ukhtvaresh.Instant(1, 1972, 2, 29, 8_639_999, 99)
    for place, changes in {
        0: [{"scale": 3}, {"scale": 2**64 - 1}, {"scale": 3, "year": 0}],
        1: [{"year": 1582}, {"year": 10_000}, {"month": 0}, {"month": 13}, {"day": 0}, {"day": 30}, {"year": 1900}],
        4: [{"hundredths": 8_640_000}, {"hundredths": 8_640_000, "tai_utc": 9}],
        5: [{"tai_utc": 9}, {"tai_utc": 100}, {"tai_utc": 1}, {"year": 1968}],
    }.items():
        for change in changes:
            yield replace(good, **change), place


def raw(request, instant, sheet, text, sines=901):
    """The export `times` itself: number, value, and the three buffers afterwards, which hold 170s before."""
    numbers = (ctypes.c_uint64 * (len(instant) + 1))(*instant)
    table = (ctypes.c_uint32 * (sines + 1))(*[170] * (sines + 1))
    buffers = [(ctypes.c_uint8 * (size + 1))(*[170] * (size + 1)) for size in (sheet, text)]
    value = ctypes.c_uint64()
    export = ukhtvaresh._library.ukhtvaresh_times
    into = (table, sines, buffers[0], sheet, buffers[1], text, ctypes.byref(value))
    number = export(request, len(request), numbers, len(instant), *into)
    return number, value.value, bytes(buffers[0]), bytes(buffers[1]), list(table)


def buffers_afterwards():
    """The refusals of `times` in their order, and what each leaves in the buffers; how many calls."""
    request = (TOP / "examples/moscow1954.bin").read_bytes()
    sheet, instant = ukhtvaresh.sheet(request), [1, 1954, 6, 30, 4_320_000, 0]
    text = ukhtvaresh.times(request, ukhtvaresh.Instant(*instant)).encode()
    n, k, old = len(sheet), len(text), [170] * 902
    # a request that is refused as 10, for each row whose instant is refused before it
    rows = [(10, 0, b"", instant[:5]), (10, 0, b"", instant + [0]), (10, 0, b"", [])]
    rows += [(23, 4, b"", [*instant[:4], 8_640_000, 0])]
    rows += [(10, 0, b"", instant), (10, 0, request[:78], instant), (10, 0, request + b" ", [0] * 6)]
    for number, place, given, numbers in rows:
        wanted = (number, place, b"\xaa" * (n + 1), b"\xaa" * (k + 1), old)
        check(raw(given, numbers, n, k) == wanted, numbers, number, place)
    untouched = (b"\xaa" * (n + 1), b"\xaa" * (k + 1), [170] * 901)
    check(raw(request, instant, n, k, 900) == (4, 901, *untouched), "sines")
    number, value, left, written, table = raw(request, instant, n - 1, k)
    wanted = (4, n, b"\xaa" * n, b"\xaa" * (k + 1))
    check((number, value, left, written) == wanted and table[900] == 10**8, "sheet", value)
    number, value, left, written, table = raw(request, instant, n, k - 1)
    check((number, value, left, written) == (4, k, sheet + b"\xaa", b"\xaa" * k) and table[900] == 10**8, "text", value)
    number, value, left, written, table = raw(request, instant, n, k)
    wanted = (0, k, sheet + b"\xaa", text + b"\xaa")
    check((number, value, left, written) == wanted and table[901] == 170, "whole", value)
    return len(rows) + 4


def main():
    count = int(sys.argv[1]) if len(sys.argv) > 1 else 300
    seed = int(sys.argv[2]) if len(sys.argv) > 2 else 1954
    draw = random.Random(seed)
    tally = {"valid": 0, "with an instant": 0, "faults": 0, "refused": 0}
    for text in [*reading.texts(count, seed), *examples(draw, count)]:
        (got, line), wanted = exported(text), reading.answer(text)
        check(got == wanted, text, "typed", got, wanted)
        check(got == program("request", text), text, "request", got)
        if line is not None:
            told = re.match(rb"line (\d+): ", wanted[1])
            check(line == (int(told[1]) if told else 0), text, "line", line, wanted)
            tally["faults"] += 1
            continue
        instant = ukhtvaresh.typed(text)[1]
        check(instant == instant_of(text), text, "instant", instant)
        got, printed = listed(text), program("times", text)
        check((got, b"") == printed, text, "times", got, printed)
        tally["valid"] += 1
        tally["with an instant"] += instant is not None
        tally["refused"] += got.startswith(b"refused")
    moscow = (TOP / "examples/moscow1954.bin").read_bytes()
    for instant, place in wrong_instants():
        try:
            check(False, instant, ukhtvaresh.times(moscow, instant))
        except ukhtvaresh.Refused as refused:
            check((refused.number, refused.place) == (23, place), instant, refused.number, refused.place)
    calls = buffers_afterwards()
    print(f"{calls} calls of times with their buffers; ", end="")
    print(", ".join(f"{number} {kind}" for kind, number in tally.items()) + ": no difference")


if __name__ == "__main__":
    main()
