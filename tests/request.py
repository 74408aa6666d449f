#!/usr/bin/env python3
"""Compares the program `request` with a reading of typed requests that shares no code with it.

    tools/build request && python3 tests/request.py [TEXTS] [SEED]
"""

import datetime
import random
import re
import struct
import subprocess
import sys
from decimal import Decimal, localcontext
from pathlib import Path

PROGRAM = Path(__file__).resolve().parent.parent / "target/bin/request"

SIGNED4 = (-(2**31), 2**31 - 1)
SIGNED2 = (-(2**15), 2**15 - 1)
UNSIGNED2 = (0, 2**16 - 1)

# name, decimals of a unit, what its bytes hold: of an eclipse, of a star
LENGTHS = [(name, 8, SIGNED4) for name in "x0 x1 x2 x3 y0 y1 y2 y3".split()]
STATION = [
    ("station", 0, UNSIGNED2), ("latitude", 6, SIGNED4), ("longitude", 6, SIGNED4), ("height", 0, SIGNED4),
    ("delta t", 2, SIGNED4)
]
WINDOW = [("first", 0, SIGNED2), ("last", 0, SIGNED2), ("guard", 0, UNSIGNED2)]
FIELDS = (
    LENGTHS
    + [(name, 6, SIGNED4) for name in "d0 d1 d2".split()]
    + [(name, 8, SIGNED4) for name in "l10 l11 l12 l20 l21 l22".split()]
    + [(name, 6, SIGNED4) for name in "mu0 mu1 mu2".split()]
    + [("tan f1", 8, SIGNED4), ("tan f2", 8, SIGNED4)]
    + STATION
    + WINDOW
)
STAR_FIELDS = LENGTHS + [
    (name, 6, SIGNED4) for name in "d0 mu0 mu1 mu2".split()
] + [("radius", 8, SIGNED4)] + STATION + WINDOW
FORMS = {len(FIELDS): (2, ">B22iBHiiiiBhhH"), len(STAR_FIELDS): (5, ">B13iBHiiiiBhhH")}
LEFT_OUT = {"guard": 16}  # what stands for a name that need not be typed
NUMBER = re.compile(rb"[+-]?([0-9]+\.?[0-9]*|\.[0-9]+)")
INSTANT = re.compile(rb"(\d{4})-(\d\d)-(\d\d)[ \t\r]+(\d\d):(\d\d):(\d\d)(\.\d\d?)?[ \t\r]+(ET|UT)")


def units(word, places, bounds):
    """The number of units that a word is, or what is wrong with it."""
    if not NUMBER.fullmatch(word):
        return None, "is not a number"
    with localcontext() as exact:
        exact.prec = len(word) + 20
        value = Decimal(word.decode()).scaleb(places)
        if value != value.to_integral_value():
            return None, "has too many decimals for a whole number of units"
        value = int(value)
    if not bounds[0] <= value <= bounds[1]:
        return None, "is too large for its bytes"
    return value, None


def is_instant(words):
    """Whether the words are a date and time, by Python's own calendar."""
    form = INSTANT.fullmatch(words)
    if not form:
        return False
    try:
        return datetime.datetime(*(int(form[k]) for k in range(1, 7))).year >= 1583
    except ValueError:
        return False


def year_of(words):
    return int(words[:4])


def said_in(line):
    """What a line says without its comment and the blanks around it."""
    return line.split(b"#")[0].strip(b" \t\r")


def clock_words(said, name):
    """The words after the name, where the line has it; else None."""
    return said[len(name) :].strip(b" \t\r") if re.match(re.escape(name) + rb"(?![^ \t\r])", said) else None


def of_name(lines, name, good, wrong):
    """The first line of that name and its words, if all is well; and the first fault among the lines of the name, each (line, ..)."""
    taken = None
    for count, line in enumerate(lines, 1):
        words = clock_words(said_in(line), name)
        if words is None:
            continue
        if not good(words):
            return None, (count, name + b" is not " + wrong)
        if taken:
            return None, (count, name + b" is given twice")
        taken = (count, words)
    return taken, None


def clock_fault(lines):
    """The first fault of the lines that tell the instant and TAI-UTC, (line, message), or None."""
    instant, wrong = of_name(lines, b"instant", is_instant, b"a date and time")
    offset, other = of_name(lines, b"tai-utc", lambda w: re.fullmatch(rb"[1-9][0-9]", w), b"a whole number of seconds from 10 to 99")
    if wrong or other:
        return min(fault for fault in (wrong, other) if fault)
    if offset and (instant is None or year_of(instant[1]) < 1972):
        return offset[0], b"tai-utc needs an instant in 1972 or later"
    return None


def packed(n):
    kind, form = FORMS[len(n)]
    return struct.pack(form, kind, *n[:-8], 3, *n[-8:-3], 4, *n[-3:])


def fields_of(text):
    """A star's, if a line has the name `radius`."""
    return STAR_FIELDS if re.search(rb"(?m)^[ \t\r]*radius(?![^ \t\r\n#])", text) else FIELDS


def answer(text):
    """What the program writes to its two outputs."""
    if len(text) > 65536:
        return b"", b"the text has more than 65,536 bytes\n"
    fields = fields_of(text)
    lines = text.split(b"\n")
    if lines[-1] == b"":
        lines.pop()
    given = {}
    fault = clock_fault(lines)
    for count, line in enumerate(lines, 1):

        def refused(message):
            return b"", f"line {count}: ".encode() + message + b"\n"

        if fault and fault[0] == count:
            return refused(fault[1])
        said = said_in(line)
        if not said or any(clock_words(said, name) is not None for name in (b"instant", b"tai-utc")):
            continue
        for name, places, bounds in fields:
            rest = said[len(name) :]
            if said.startswith(name.encode()) and (not rest or rest[0] in b" \t\r"):
                break
        else:
            return refused(b"unknown name " + re.split(rb"[ \t\r]", said)[0])
        value, wrong = units(rest.strip(b" \t\r"), places, bounds)
        if wrong:
            return refused(f"{name} {wrong}".encode())
        if name in given:
            return refused(f"{name} is given twice".encode())
        given[name] = value
    given = {**LEFT_OUT, **given}
    for name, _, _ in fields:
        if name not in given:
            return b"", f"line {len(lines) + 1}: {name} is missing\n".encode()
    return packed([given[name] for name, _, _ in fields]), b""


def typed(draw, name, places, bounds):
    """A line for a field: mostly a value that fits, often at an end of what does."""
    low, high = bounds
    value = draw.choice([draw.randint(low, high), draw.randint(-1000, 1000), low, high, 0])
    if draw.random() < 0.01:
        value = draw.choice([low - 1, high + 1, 10**12, -(10**30), 2**32, 2**63, 2**64])
    if bounds == UNSIGNED2 and value < 0 and draw.random() < 0.9:
        value = -value % 65536
    sign = "-" if value < 0 else draw.choice(["", "", "", "+"])
    digits = str(abs(value)).rjust(places + 1, "0")
    whole, decimals = (digits[: len(digits) - places], digits[len(digits) - places :]) if places else (digits, "")
    if draw.random() < 0.3:
        decimals = decimals.rstrip("0")
    decimals += "0" * draw.choice([0, 0, 0, 1, 30])
    if draw.random() < 0.005:
        decimals += draw.choice("123456789x")
    point = "." if decimals or draw.random() < 0.05 else ""
    if whole == "0" and decimals and draw.random() < 0.2:
        whole = ""
    whole = "0" * draw.choice([0, 0, 0, 1, 40]) + whole
    space = draw.choice([" ", " ", "  ", "\t", " \t "])
    before = draw.choice(["", "", "", " ", "\t"])
    after = draw.choice(["", "", "", " ", "\r", " # a comment", "#", "\t#x0 1"])
    return f"{before}{name}{space}{sign}{whole}{point}{decimals}{after}"


def typed_instant(draw):
    """Words of an instant, most of them good."""
    date = datetime.date.fromordinal(
        draw.randint(datetime.date(1583, 1, 1).toordinal(), datetime.date(9999, 12, 31).toordinal())
    )
    day = f"{date.year:04}-{date.month:02}-{date.day:02}"
    time = draw.choice(
        [f"{draw.randrange(24):02}:{draw.randrange(60):02}:{draw.randrange(60):02}", "00:00:00", "23:59:59", "12:00:00"]
    )
    time += draw.choice(["", "", ".0", f".{draw.randrange(10)}", f".{draw.randrange(100):02}"])
    words = f"{day}{draw.choice([' ', ' ', '  ', chr(9), ' ' + chr(13)])}{time} {draw.choice(['ET', 'UT'])}"
    if draw.random() < 0.3:
        words = draw.choice(ODD_INSTANTS)
    if draw.random() < 0.1:
        at = draw.randrange(len(words) + 1)
        words = words[:at] + draw.choice("0123456789-:. ETU#x") + words[at + draw.randrange(2) :]
    return words


# ends of the calendar and of the day, leap days, and forms that are not quite it
ODD_INSTANTS = [
    *(
        "1582-12-31 00:00:00 ET", "1583-01-01 00:00:00 ET", "2017-02-29 00:00:00 ET",
        "2000-02-29 00:00:00 UT", "1900-02-29 00:00:00 UT"
    ),
    *(
        "2017-8-21 18:00:00 ET", "2017-08-21 24:00:00 ET", "2017-08-21 18:60:00 ET",
        "2017-08-21 18:00:60 UT", "2017-00-10 18:00:00 UT"
    ),
    *(
        "2017-13-10 18:00:00 UT", "2017-04-31 18:00:00 UT", "2017-04-00 18:00:00 UT", "2017-08-21 18:00 ET",
        "2017-08-21 18:00:00", ""
    ),
    *(
        "2017-08-21T18:00:00 ET", "2017-08-21 18:00:00ET", "2017-08-21 18:00:00. ET",
        "2017-08-21 18:00:00.123 ET", "2017-08-21 18:00:00 TT"
    ),
    *(
        "2017-08-21 18:00:00 et", "２017-08-21 18:00:00 ET", "2017-08-21 18:00:00 ET x",
        "-2017-08-21 18:00:00 ET", "2017-08-21 18:00:00 UTC"
    ),
    *(
        "9999-12-31 23:59:59.99 UT", "2024-02-29 00:00:00 UT", "2100-02-29 00:00:00 UT",
        "0000-01-01 00:00:00 ET", "2017-08-21 18:00:00.5x UT"
    ),
]


def instant_line(draw):
    words = draw.choice([" ", " ", "\t", "  ", ""]) + typed_instant(draw)
    return draw.choice(["", "", " ", "\t"]) + "instant" + words + draw.choice(
        ["", "", "", "\r", " ", " # a comment", "#"]
    )


def offset_line(draw):
    """A line of TAI-UTC, most of them good."""
    words = draw.choice(["37", "37", "10", "99", str(draw.randint(10, 99)), "09", "9", "100", "37.0", "+37", "-37", "3 7", "", "x"])
    return draw.choice(["", "", " ", "\t"]) + "tai-utc" + draw.choice([" ", " ", "\t", ""]) + words + draw.choice(["", "", "\r", " # x", "#"])


def text(draw):
    fields = draw.choice([FIELDS, STAR_FIELDS])
    lines = [typed(draw, *field) for field in fields]
    if draw.random() < 0.3:
        lines.pop()  # no guard
    if draw.random() < 0.5:
        draw.shuffle(lines)
    for extra in range(draw.choice([0, 0, 1, 5])):
        lines.insert(draw.randint(0, len(lines)), draw.choice(["", "# a comment", "   ", "\t# x0 1", "#"]))
    for _ in range(draw.choice([0, 0, 0, 1, 1, 1, 1, 2])):
        lines.insert(draw.randint(0, len(lines)), instant_line(draw))
    for _ in range(draw.choice([0, 0, 0, 1, 1, 2])):
        lines.insert(draw.randint(0, len(lines)), offset_line(draw))
    fault = draw.random()
    if fault < 0.1:
        lines.pop(draw.randrange(len(lines)))
    elif fault < 0.2:
        lines.insert(draw.randint(0, len(lines)), draw.choice(lines))
    elif fault < 0.25:
        others = [
            "x4 0", "tanf1 0", "X0 1", "x0", "tan  f1 1", "latitude55", "last 1 2", "-", "=", "d1 0",
            "radius 0", "radius", "radius#", "instants 1", "Instant", "TAI-UTC 37"
        ]
        lines.insert(draw.randint(0, len(lines)), draw.choice(others))
    made = bytearray("\n".join(lines).encode() + draw.choice([b"\n", b"\n", b"", b"\n\n"]))
    if fault > 0.8:
        for _ in range(draw.choice([1, 1, 2, 5])):
            at = draw.randrange(len(made))
            change = draw.random()
            if change < 0.4:
                made[at] = draw.choice(b" \t\n\r#+-.0123456789xyzdlmutanf\x00\xff")
            elif change < 0.7:
                del made[at]
            else:
                made.insert(at, draw.choice(b" \n#-.059x\x80"))
    return bytes(made)


def faults(fields):
    """Each field missing, twice, no number, a fraction, too large; and the guard left out, in other spellings,
    without its number."""
    plain = ["%s %s" % (name, 1) for name, _, _ in fields]
    yield "\n".join(plain)
    for line in [
        "# guard 17", "Guard 17", "guards 17", "guard17", "guard",
        *(f"guard {value}" for value in [-1, 15, 16, 1001, "16.0", 65536])
    ]:
        yield "\n".join(plain[:-1] + [line])
    for k in range(len(fields)):
        name, places, (low, high) = fields[k]
        yield "\n".join(plain[:k] + plain[k + 1 :])
        yield "\n".join(plain + [plain[k]])
        for value in ["", "-", ".", "1e3", "1,5", "1.2.3", "--1", "0." + "0" * places + "1", "0." + "0" * places + "0"]:
            yield "\n".join(plain[:k] + [f"{name} {value}"] + plain[k + 1 :])
        for value in [low - 1, low, high, high + 1, -0, 2**64 + 1]:
            exact = Decimal(value).scaleb(-places)
            yield "\n".join(plain[:k] + [f"{name} {exact:f}"] + plain[k + 1 :])


def shapes():
    """Texts of the one request with a line of the other: an eclipse with a radius, a star with each name that only an
    eclipse has."""
    eclipse = ["%s %s" % (name, 1) for name, _, _ in FIELDS]
    star = ["%s %s" % (name, 1) for name, _, _ in STAR_FIELDS]
    named = ["radius 1", "\tradius 1", "radius", "radius# 1", "radius\t", "radius\r"]
    for line in named + ["#radius 1", "radius1 1", "Radius 1", "x0 1 # radius 1"]:
        for lines in eclipse, [name for name in star if name != "radius 1"]:
            for place in 0, 12, len(lines):
                yield "\n".join(lines[:place] + [line] + lines[place:])
    for line in sorted(set(eclipse) - set(star)):
        yield "\n".join(star + [line])


def instants():
    """An eclipse and a star with an instant at every kind of place: good, each odd one, doubled; and with another
    fault before or behind it."""
    good = "instant 2017-08-21 18:00:00 ET"
    for fields in FIELDS, STAR_FIELDS:
        plain = ["%s %s" % (name, 1) for name, _, _ in fields]
        for place in 0, 12, len(plain):
            for line in [
                good, good + "#", "\t" + good + "\r", "instant", "instant#", "# " + good, "instants 1",
                "Instant 1", "instant\t" + good[8:]
            ]:
                yield "\n".join(plain[:place] + [line] + plain[place:])
            for odd in ODD_INSTANTS:
                yield "\n".join(plain[:place] + [f"instant {odd}"] + plain[place:])
            for second in good, "instant", "instant x", good + " x":
                yield "\n".join(plain[:place] + [good, second] + plain[place:])
                yield "\n".join([second] + plain[:place] + [good] + plain[place:])
            for fault in "bogus 1", "x0", "x0 1":
                for first, then in (fault, "instant"), ("instant", fault), (good, fault), (fault, good):
                    yield "\n".join(plain[:place] + [first, then] + plain[place:])
        # a missing name is reported last
        yield "\n".join(plain[1:] + [good])
        yield "\n".join(plain[1:] + ["instant"])


def texts(count, seed):
    draw = random.Random(seed)
    yield b""
    yield b"\n" * 65537
    yield b"#" * 65536
    # the words of an unknown name: of the whole text, with a comment at once, of a last line without its end
    yield b"=" * 65536
    yield b"\n\n \t bogus# 5\nx0 1\n"
    yield b"x0 1\r\n\r\nbogus\r\n"
    yield b"x0 1\n\x00\xff 1"
    # nothing but the guard
    yield b"guard 17\n"
    for made in *faults(FIELDS), *faults(STAR_FIELDS), *shapes(), *instants():
        yield made.encode()
    for _ in range(count):
        yield text(draw)


def compare(program, texts, answer, kind_of, most):
    """Compares a program with `answer`, text by text, and prints how many there were of each kind. `most` texts unless
    one is typed."""
    count = int(sys.argv[1]) if len(sys.argv) > 1 else most
    seed = int(sys.argv[2]) if len(sys.argv) > 2 else 1954
    kinds = {}
    for tried, given in enumerate(texts(count, seed), 1):
        ran = subprocess.run([program], input=given, capture_output=True)
        wanted = answer(given)
        if (ran.stdout, ran.stderr) != wanted:
            sys.exit(
                f"text {tried}: {given!r}\nwrote  {ran.stdout!r} {ran.stderr!r}\nwanted {wanted[0]!r} {wanted[1]!r}"
            )
        kind = re.sub(rb"line \d+: ((tan f\d|delta t|[a-z0-9]+) (?=is|has))?", b"", wanted[1])
        kind = re.sub(rb"(?s)(?<=unknown name) .*", b"", kind).decode().strip() or kind_of(wanted[0])
        kinds[kind] = kinds.get(kind, 0) + 1
    print(f"{tried} texts, no difference")
    for kind, number in sorted(kinds.items(), key=lambda pair: -pair[1]):
        print(f"  {number:6} {kind}")


if __name__ == "__main__":
    compare(PROGRAM, texts, answer, lambda written: f"{len(written)} bytes", 2000)
