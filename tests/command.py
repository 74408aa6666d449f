#!/usr/bin/env python3
"""Runs the command `ukhtvaresh` and compares its exit status and both outputs with what they must be.

    cd rust/command && cargo build --offline --release
    tests/command.py [NAME ..]                  the named parts, or all; ends with `N passed, N failed`

Every row of the table of subcommands is tried on the examples, on refused and damaged input, files of 0 bytes,
directories, full disks, closed pipes and a gigabyte. The answers come from the proved programs in target/bin, from the
library for Python and from the almanac, not from the command. UKHTVARESH_COMMAND may name another binary.
"""

import csv
import io
import json
import os
import pty
import random
import re
import struct
import subprocess
import sys
import tempfile
import time
from pathlib import Path

TOP = Path(__file__).resolve().parent.parent
sys.path.insert(0, str(TOP / "python"))
import ukhtvaresh  # noqa: E402

COMMAND = os.environ.get("UKHTVARESH_COMMAND") or str(TOP / "rust/command/target/release/ukhtvaresh")
EXAMPLES = TOP / "examples"
NAMES = ["moscow1954", "kiev1954", "hopkinsville2017", "potsdam1956", "kansas1949"]
STARS = ["potsdam1956", "kansas1949"]
INSTANTS = dict(
    line.split(" ", 1) for line in (EXAMPLES / "instants.txt").read_text().splitlines() if not line.startswith("#")
)
GIGABYTE = 1 << 30
SUBCOMMANDS = "sheet list stream mend contacts network seconds eclipses eclipse completions manual".split()

counts = {"passed": 0, "failed": 0}


def check(label, wrong):
    """Counts one fact; `wrong` is empty where it is as it must be."""
    counts["failed" if wrong else "passed"] += 1
    if wrong:
        print(f"  FAILED {label}: {str(wrong)[:600]}")


def run(*words, data=b"", **more):
    """Status and both outputs."""
    ran = subprocess.run([COMMAND, *map(str, words)], input=data, capture_output=True, timeout=300, **more)
    return ran.returncode, ran.stdout, ran.stderr


def answers(label, got, status, output=None, error=None):
    """Checks a run: its status, standard output to the byte, and standard error to the byte or by a pattern."""
    wrong = []
    if got[0] != status:
        wrong.append(f"status {got[0]}, not {status}")
    if output is not None and got[1] != output:
        wrong.append(f"standard output is {got[1][:300]!r}, not {output[:300]!r}")
    if isinstance(error, bytes) and got[2] != error:
        wrong.append(f"standard error is {got[2][:300]!r}, not {error[:300]!r}")
    if isinstance(error, str) and not re.search(error, got[2].decode()):
        wrong.append(f"standard error is {got[2][:300]!r} without {error!r}")
    check(label, "; ".join(wrong))


def program(name, data):
    """What a proved program writes to its outputs."""
    ran = subprocess.run([TOP / "target/bin" / name], input=data, capture_output=True, check=True)
    return ran.stdout, ran.stderr


def example(name):
    return (EXAMPLES / name).read_bytes()


def year_file():
    return program("stream", b"".join(example(f"{name}.bin") for name in NAMES))[0]


def sparse(folder, size=GIGABYTE):
    """A file of zeros that takes no room on the disk."""
    path = Path(folder, "sparse")
    with open(path, "wb") as file:
        file.truncate(size)
    return path


def everywhere(name, good, folder):
    """What every subcommand that reads a file must do: with directories, missing files, full disks, closed pipes."""
    binary = name in ("stream", "mend")
    words = [name, good]
    status, output, _ = run(*words)
    check(f"{name}: done", f"status {status}" if status else not output)
    answers(f"{name}: a directory", run(name, folder), 2, b"", r"is a directory")
    answers(f"{name}: no such file", run(name, Path(folder, "nothing")), 2, b"", r"cannot be read: No such file")
    answers(f"{name}: an unknown option", run(name, "--nothing"), 2, b"", r"--nothing")
    with open("/dev/full", "wb") as full:
        ran = subprocess.run([COMMAND, *map(str, words)], stdout=full, stderr=subprocess.PIPE, timeout=60)
    answers(f"{name}: a full disk", (ran.returncode, b"", ran.stderr), 2, b"", r"cannot be written: No space left")
    answers(f"{name}: --out on a full disk", run(*words, "--out", "/dev/full"), 2, b"", r"No space left")
    answers(f"{name}: --out of a directory", run(*words, "--out", folder), 2, b"", r"is a directory")
    answers(f"{name}: --out without a folder", run(*words, "--out", Path(folder, "no/x")), 2, b"", r"No such file")
    reading, writing = os.pipe()
    os.close(reading)
    ran = subprocess.run([COMMAND, *map(str, words)], stdout=writing, stderr=subprocess.PIPE, timeout=60)
    os.close(writing)
    said = ran.stderr if not binary else b""
    check(f"{name}: a closed pipe", f"status {ran.returncode}, {said!r}" if ran.returncode != 2 or said else "")
    made = Path(folder, "made")
    made.write_bytes(b"old")
    status, nothing, _ = run(*words, "--out", made)
    same = status == 0 and nothing == b"" and made.read_bytes() == output
    check(f"{name}: --out writes what standard output has", "" if same else f"status {status}")
    answers(f"{name}: standard input", run(name, data=Path(good).read_bytes())[:2] + (b"",), 0, output)
    answers(f"{name}: -", run(name, "-", data=Path(good).read_bytes())[:2] + (b"",), 0, output)
    left = [path.name for path in Path(folder).iterdir() if path.name.endswith(".part")]
    check(f"{name}: no temporary file is left", left)


def test_sheet(folder):
    everywhere("sheet", EXAMPLES / "moscow1954.txt", folder)
    for name in NAMES:
        text = example(f"{name}.txt")
        timed = text + f"\ninstant {INSTANTS[name]}\n".encode()
        listing = program("times", text)[0]
        answers(f"sheet {name}.txt", run("sheet", EXAMPLES / f"{name}.txt"), 0, listing, b"")
        answers(f"sheet {name}.bin", run("sheet", EXAMPLES / f"{name}.bin"), 0, listing, b"")
        times = program("times", timed)[0]
        for form in ("txt", "bin"):
            got = run("sheet", EXAMPLES / f"{name}.{form}", "--instant", INSTANTS[name])
            answers(f"sheet {name}.{form} --instant", got, 0, times, b"")
        stored = program("star_sheet" if name in STARS else "sheet_bytes", example(f"{name}.bin"))[0]
        if name in STARS:
            stored = ukhtvaresh.star(example(f"{name}.bin"))
        answers(f"sheet --stored {name}", run("sheet", "--stored", EXAMPLES / f"{name}.txt"), 0, stored, b"")
        status, output, _ = run("sheet", "--json", data=timed)
        forms(f"sheet {name}", json.loads(output), run("sheet", "--csv", data=timed)[1], times.decode(), stored)
        if name not in STARS:
            shared = ukhtvaresh.sheet_and_share(example(f"{name}.bin"))
            got = run("sheet", "--stored", "--share", EXAMPLES / f"{name}.txt")
            answers(f"sheet --stored --share {name}", got, 0, shared, b"")
    both = [EXAMPLES / "moscow1954.txt", EXAMPLES / "potsdam1956.bin"]
    listings = [example("moscow1954.listing"), example("potsdam1956.listing")]
    got = run("sheet", *both)
    check("sheet: two files", "" if program("times", example("moscow1954.txt"))[0] in got[1] else got)
    check("sheet: two files, an empty line between", "" if got[1].count(b"\n\n") == 1 else got[1])
    check("sheet: both listings are there", [each for each in listings if each.split(b"\n")[0] not in got[1]])
    bad = Path(folder, "bad.txt")
    bad.write_bytes(b"x0 1\n")
    answers("sheet: one of two is refused", run("sheet", bad, both[0]), 1, None, r"bad.txt: x1 is missing")


def forms(label, made, table, listing, stored):
    """JSON and CSV say what the listing and the stored sheet say."""
    entries = ukhtvaresh.read(stored)[1:-1]
    lines = [line for line in listing.splitlines()[1:] if not line.startswith(("instant", "note"))]
    rows = list(csv.DictReader(io.StringIO(table.decode())))
    check(f"{label}: as many entries", not len(made["entries"]) == len(entries) == len(rows) == len(lines))
    for entry, value, row, line in zip(entries, made["entries"], rows, lines):
        words = line.split(" ")
        kind = type(entry).__name__.lower()
        wrong = [] if value["kind"] == row["kind"] == kind == words[0] else [kind]
        if kind == "closest":
            magnitude = entry.magnitude / 10**6
            if (value["second"], value["magnitude"]) != (entry.second, magnitude) or float(
                row["magnitude"]
            ) != magnitude:
                wrong.append("closest")
        else:
            if not value["phase"] == row["phase"] == entry.phase.value:
                wrong.append("phase")
            if not (value["from"], value["to"]) == (int(row["from"]), int(row["to"])) == (entry.from_, entry.to):
                wrong.append("seconds")
            if hasattr(entry, "direction"):
                direction = entry.direction / 10
                if not value["direction"] == float(row["direction"]) == direction:
                    wrong.append("direction")
        for scale, times in value["times"].items():
            at = words.index(scale)
            if words[at + 1 : at + 1 + len(times)] != times or row[f"{scale} from"] != times[0]:
                wrong.append(scale)
        if "alt" in words and not value["altitude"] == float(row["altitude"]) == float(words[words.index("alt") + 1]):
            wrong.append("altitude")
        check(f"{label}: {line}", wrong)


def changed(name, field, value):
    """An example's text with another value, and its line."""
    lines = example(f"{name}.txt").decode().splitlines()
    at = next(k for k, line in enumerate(lines) if re.match(rf"{field}\s", line))
    lines[at] = f"{field} {value}" if value is not None else ""
    return ("\n".join(lines) + "\n").encode(), at + 1


def test_typed(folder):
    text = example("moscow1954.txt")
    listing = program("times", text)[0]
    answers("a byte-order mark", run("sheet", data=b"\xef\xbb\xbf" + text), 0, listing, b"")
    answers("CRLF", run("sheet", data=text.replace(b"\n", b"\r\n")), 0, listing, b"")
    answers("minus signs U+2212", run("sheet", data=text.replace(b"-", "−".encode())), 0, listing, b"")
    answers(
        "all of them",
        run("sheet", data=b"\xef\xbb\xbf" + text.replace(b"-", "−".encode()).replace(b"\n", b"\r\n")),
        0,
        listing,
    )
    answers("UTF-16", run("sheet", data=text.decode().encode("utf-16")), 1, b"", r"UTF-16: save it as UTF-8")
    answers("no bytes", run("sheet"), 1, b"", r"the input is empty: .*\[refusal 20 1\]")
    answers("a stored sheet", run("sheet", data=year_file()), 1, b"", r"ukhtvaresh list shows it")
    answers(
        "114 bytes",
        run("sheet", data=example("moscow1954.bin")[:-1]),
        1,
        b"",
        r"115 bytes, and here are 114 bytes \[refusal 10 0\]",
    )
    answers("80 bytes", run("sheet", data=example("potsdam1956.bin") + b"\0"), 1, b"", r"79 bytes, and here are 80")
    got = run("sheet", sparse(folder))
    answers("a gigabyte", got, 1, b"", r"more than 1048576 bytes")
    refusals = [
        ("latitude", "95.75", "latitude 95.75 is outside -90 to 90 (line {}) [refusal 3 1]"),
        ("latitude", "-90.000001", "latitude -90.000001 is outside -90 to 90 (line {}) [refusal 3 1]"),
        ("longitude", "181", "longitude 181 is outside -180 to 180 (line {}) [refusal 3 2]"),
        ("height", "9001", "height 9001 is outside -500 to 9000 (line {}) [refusal 3 3]"),
        ("delta t", "201", "delta t 201 is outside -100 to 200 (line {}) [refusal 3 4]"),
        ("station", "0", "station 0 is outside 1 to 999 (line {}) [refusal 3 0]"),
        ("x0", "2.5", "x0 2.5 is outside -2 to 2 (line {}) [refusal 2 0]"),
        ("tan f2", "0.01", "tan f2 0.01 is outside 0.004 to 0.005 (line {}) [refusal 2 21]"),
        ("mu0", "-1", "mu0 -1 is outside 0 to 359.999999 (line {}) [refusal 2 17]"),
        ("first", "-10801", "first -10801 is outside -10800 to 10800 (line {}) [refusal 1 0]"),
        ("first", "10800", None),
        ("x0", "99999999999", "x0 99999999999 is outside -2 to 2 (line {}) [refusal 20 {}]"),
        (
            "latitude",
            "55,755",
            "is not a number (line {}): write it in digits with a point, for example 55.755 [refusal 20 {}]",
        ),
        ("latitude", "", "latitude has no value (line {}): write, for example, latitude 55.755 [refusal 20 {}]"),
        (
            "latitude",
            "55.7550001",
            "latitude 55.7550001 may have 6 decimals and has 7 (line {}): write 55.755, or add --round [refusal 20 {}]",
        ),
        ("station", "7.5", "station 7.5 must be a whole number (line {}): write 8, or add --round [refusal 20 {}]"),
    ]
    for field, value, words in refusals:
        made, line = changed("moscow1954", field, value)
        status = 0 if words is None else 1
        error = b"" if words is None else re.escape(words).replace(r"\{\}", str(line))
        answers(f"{field} {value}", run("sheet", data=made), status, None if words is None else b"", error)
    made, line = changed("moscow1954", "first", "10800")
    made = made.replace(b"last 10800", b"last 10799")
    answers(
        "first after last",
        run("sheet", data=made),
        1,
        b"",
        r"first 10800 is after last 10799 \(line \d+\) \[refusal 1 0\]",
    )
    made, line = (
        changed("moscow1954", "guard", "15") if b"\nguard" in text else (text + b"guard 15\n", text.count(b"\n") + 1)
    )
    answers(
        "a guard", run("sheet", data=made), 1, b"", rf"guard 15 is outside 16 to 1000 \(line {line}\) \[refusal 1 1\]"
    )
    made, line = changed("potsdam1956", "radius", "0.5")
    answers(
        "a radius",
        run("sheet", data=made),
        1,
        b"",
        rf"radius 0.5 is outside 0.272 to 0.273 \(line {line}\) \[refusal 13 0\]",
    )
    made, line = changed("moscow1954", "y3", None)
    answers("a missing field", run("sheet", data=made), 1, b"", r"y3 is missing: add a line such as y3 0\.0")
    twice = text + b"latitude 1\n"
    answers(
        "given twice",
        run("sheet", data=twice),
        1,
        b"",
        rf"latitude is given twice, on lines \d+ and {len(text.splitlines()) + 1}",
    )
    answers(
        "an unknown name",
        run("sheet", data=b"latitide 5\n" + text),
        1,
        b"",
        r"latitide is not a name of a request \(line 1\); do you mean latitude\?",
    )
    answers(
        "no date",
        run("sheet", data=text + b"instant 2017-8-21 18:00:00 ET\n"),
        1,
        b"",
        r"instant 2017-8-21 18:00:00 ET is not a date and time \(line \d+\): write, for example, instant 2017-08-21",
    )
    answers(
        "two instants",
        run("sheet", "--instant", "2017-08-21 18:00:00 ET", data=text + b"instant 2017-08-21 18:00:00 ET\n"),
        1,
        b"",
        r"given twice",
    )
    rounded, line = changed("moscow1954", "latitude", "55.75500000000001")
    answers(
        "--round",
        run("sheet", "--round", data=rounded),
        0,
        listing,
        rf"note: latitude 55.75500000000001 is rounded to 55.755 \(line {line}\)\n",
    )
    rounded, line = changed("moscow1954", "latitude", "55.755000000000001")
    answers(
        "--round of 15 decimals",
        run("sheet", "--round", data=rounded),
        1,
        b"",
        r"has 15 \(line \d+\): write 55.755, --round takes 14 at most",
    )
    number = changed("moscow1954", "longitude", "37.5699996")
    answers(
        "--round carries",
        run("sheet", "--round", "--stored", data=number[0]),
        0,
        ukhtvaresh.sheet(example("moscow1954.bin")),
    )
    kept = Path(folder, "kept")
    kept.write_bytes(b"old")
    answers("a refusal", run("sheet", "--out", kept, data=twice), 1, b"", r"given twice")
    check("a refusal leaves the file of --out as it was", kept.read_bytes() != b"old")


def test_list(folder):
    year = Path(folder, "year.bin")
    year.write_bytes(year_file())
    everywhere("list", year, folder)
    listings = [program("listing", sheet)[0] for sheet in sheets_of(year.read_bytes())]
    answers("list a year file", run("list", year), 0, b"\n".join(listings), b"")
    status, output, _ = run("list", "--json", year)
    made = [json.loads(line) for line in output.splitlines()]
    check(
        "list --json",
        [m["station"] for m in made] != [ukhtvaresh.read(sheet)[0].station for sheet in sheets_of(year.read_bytes())],
    )
    rows = list(csv.DictReader(io.StringIO(run("list", "--csv", year)[1].decode())))
    check("list --csv", len(rows) != sum(len(ukhtvaresh.read(sheet)) - 2 for sheet in sheets_of(year.read_bytes())))
    answers("list of no bytes", run("list"), 1, b"", r"the input is empty: .* \[refusal 6 0\]")
    cut = year.read_bytes()[:-3]
    before = b"\n".join(listings[:-1])
    answers(
        "list of a cut file",
        run("list", data=cut),
        1,
        before,
        r"byte \d+: the bytes end inside a record .*\[refusal 6 \d+\]; 4 sheets before it are well-formed",
    )
    first = sheets_of(year.read_bytes())[0]
    damaged = first + b"\xff" + first
    error = rf"byte {len(first)}: the kind of a record is not in the table \[refusal 5 0\]; 1 sheet before it is"
    answers("list of a damaged file", run("list", data=damaged), 1, listings[0], error)
    answers("list of a gigabyte", run("list", sparse(folder)), 1, b"", r"byte 0: the kind of a record")
    many = Path(folder, "many.bin")
    many.write_bytes(year.read_bytes() * 20_000)
    process = subprocess.Popen([COMMAND, "list", many], stdout=subprocess.PIPE, stderr=subprocess.PIPE)
    process.stdout.readline()
    process.stdout.close()
    error = process.stderr.read()
    check("list | head -1", f"{process.wait()} {error!r}" if (process.wait(), error) != (2, b"") else "")
    status, output, _ = run("list", many)
    check("list of 100,000 sheets", status or output != b"\n".join(listings * 20_000))
    many.unlink()


def sheets_of(year):
    """The sheets of a year file, by its records."""
    lengths = {1: 9, 0x30: 7, 0x31: 5, 0x7F: 1}
    for base in (0x10, 0x20, 0x40):
        lengths.update({base: 7, base + 1: 7, base + 2: 5, base + 3: 5})
    made, start, at = [], 0, 0
    while at < len(year):
        kind = year[at]
        at += lengths[kind]
        if kind == 0x7F:
            made.append(year[start:at])
            start = at
    return made


def test_stream(folder):
    good = Path(folder, "requests.bin")
    requests = [example(f"{name}.bin") for name in NAMES]
    good.write_bytes(b"".join(requests))
    everywhere("stream", good, folder)
    answers("stream", run("stream", good), 0, year_file(), b"5 requests: 5 sheets (183 bytes), 0 refused\n")
    answers("stream --quiet", run("stream", "--quiet", good), 0, year_file(), b"")
    answers("stream of nothing", run("stream"), 0, b"", b"0 requests: 0 sheets (0 bytes), 0 refused\n")
    answers("stream of two files", run("stream", good, good), 0, year_file() * 2, r"^10 requests: 10 sheets")
    latitude = bytearray(requests[0])
    latitude[92:96] = struct.pack(">i", 95_750_000)
    refused = requests[0] + bytes(latitude) + requests[3]
    sheets, _ = program("stream", refused)
    error = r"request 2 at byte 115: latitude 95.75 is outside -90 to 90 \[refusal 3 1\]\n"
    error += r"3 requests: 2 sheets \(\d+ bytes\), 1 refused\n$"
    answers("stream with a refused request", run("stream", data=refused), 1, sheets, error)
    error = r"request 3 at byte 194: a request begins with byte 02 \(an eclipse\) or 05 \(a star\), "
    error += r"and this byte is 00 \[refusal 10 0\]; stopped here"
    stopped = requests[0] + requests[3] + b"\0" + requests[1]
    sheets, _ = program("stream", stopped)
    answers("stream stops", run("stream", data=stopped), 1, sheets, error)
    error = r"request 2 at byte 115: a request for an eclipse has 115 bytes, and here are 114 bytes"
    answers("stream that is cut", run("stream", data=requests[0] + requests[1][:-1]), 1, None, error)
    answers("stream of a gigabyte", run("stream", sparse(folder)), 1, b"", r"request 1 at byte 0: .* this byte is 00")
    for jobs in ("0", "x", "1025"):
        answers(f"stream --jobs {jobs}", run("stream", "--jobs", jobs, good), 2, b"", r"jobs")
    draw = random.Random(45)
    drawn = []
    for _ in range(12_000):
        request = bytearray(draw.choice(requests))
        at = len(request) - 6
        request[at : at + 4] = struct.pack(">hh", *sorted(draw.randrange(-10_900, 10_900) for _ in range(2)))
        drawn.append(bytes(request))
    data = b"".join(drawn)
    sheets, _ = program("stream", data)
    one = run("stream", "--jobs", "1", data=data)
    check("stream of 12,000 drawn requests, as the program", one[1] != sheets)
    for jobs in (2, 3, 8):
        got = run("stream", "--jobs", jobs, data=data)
        check(f"stream --jobs {jobs} as one", "" if got == one else "it differs")
    process = subprocess.Popen(
        [COMMAND, "stream"], stdin=subprocess.PIPE, stdout=subprocess.PIPE, stderr=subprocess.PIPE
    )
    for request in requests:
        process.stdin.write(request)
        process.stdin.flush()
        expected = program("stream", request)[0]
        check("a pipe that pauses gets its sheets", process.stdout.read(len(expected)) != expected)
    process.stdin.close()
    check("and the stream ends", process.wait())
    process.stdout.close()
    process.stderr.close()


def test_mend(folder):
    year = Path(folder, "year.bin")
    year.write_bytes(year_file())
    everywhere("mend", year, folder)
    whole = year.read_bytes()
    answers("mend of a good file", run("mend", year), 0, whole, b"kept 183 bytes, dropped 0 bytes in 0 stretches\n")
    answers("mend of nothing", run("mend"), 0, b"", b"kept 0 bytes, dropped 0 bytes in 0 stretches\n")
    damaged = whole + whole[:20] + whole
    answers("mend", run("mend", "--quiet", data=damaged), 0, whole * 2, b"dropped 183 20\n")
    check("mend as the program", program("mend", damaged) != (whole * 2, b"dropped 183 20\n"))
    notes = Path(folder, "notes")
    answers("mend --notes", run("mend", "-q", "--notes", notes, data=damaged), 0, whole * 2, b"")
    check("the notes in a file", notes.read_bytes() != b"dropped 183 20\n")
    answers("mend --notes-bytes", run("mend", "-q", "--notes", notes, "--notes-bytes", data=damaged), 0, whole * 2, b"")
    check("the notes in bytes", notes.read_bytes() != struct.pack(">QQ", 183, 20))
    answers("--notes-bytes alone", run("mend", "--notes-bytes", year), 2, b"", r"--notes")
    draw = random.Random(11)
    for size in (0, 1, 5):
        data = draw.randbytes(40_000 + size)
        mended = ukhtvaresh.mend(data)
        stretches = "".join(f"dropped {s.start} {s.length}\n" for s in mended.stretches).encode()
        answers(f"mend of random bytes {size}", run("mend", "-q", data=data), 0, mended.sheets, stretches)
    # Larger than one piece, with damage everywhere: as the library mends it at once.
    pieces = []
    while sum(map(len, pieces)) < 40 << 20:
        block = bytearray(whole * draw.randrange(1, 4_000))
        for _ in range(draw.randrange(0, 4)):
            at = draw.randrange(len(block))
            way = draw.randrange(3)
            block[at : at + draw.randrange(1, 40)] = b"" if way == 0 else draw.randbytes(draw.randrange(1, 40))
        pieces.append(bytes(block))
    big = b"".join(pieces)
    large = Path(folder, "large.bin")
    large.write_bytes(big)
    mended = ukhtvaresh.mend(big)
    stretches = "".join(f"dropped {s.start} {s.length}\n" for s in mended.stretches).encode()
    answers("mend of 40 MB", run("mend", "-q", large), 0, mended.sheets, stretches)
    large.unlink()
    error = rf"^dropped 0 {GIGABYTE}\nkept 0 bytes, dropped {GIGABYTE} bytes in 1 stretch\n$"
    answers("mend of a gigabyte", run("mend", sparse(folder)), 0, b"", error)


def test_contacts(folder):
    everywhere("contacts", EXAMPLES / "moscow1954.txt", folder)
    for name in NAMES:
        data = example(f"{name}.txt") + f"\ninstant {INSTANTS[name]}\n".encode()
        request = example(f"{name}.bin")
        star = name in STARS
        status, output, error = run("contacts", "--json", data=data)
        check(f"contacts {name}", status or error)
        made = json.loads(output)
        entries = ukhtvaresh.read(ukhtvaresh.star(request) if star else ukhtvaresh.sheet(request))[1:-1]
        rows = list(csv.DictReader(io.StringIO(run("contacts", "--csv", data=data)[1].decode())))
        text = run("contacts", data=data)[1].decode()
        check(f"contacts {name}: as many", not len(entries) == len(made["contacts"]) == len(rows))
        for entry, value, row in zip(entries, made["contacts"], rows):
            closest = isinstance(entry, ukhtvaresh.Closest)
            second = entry.second if closest else entry.to if isinstance(entry, ukhtvaresh.Enter) else entry.from_
            horizon = (ukhtvaresh.star_horizon if star else ukhtvaresh.horizon)(request, second)
            wrong = []
            if value["altitude"] != horizon.altitude / 10 or value["azimuth"] != horizon.azimuth / 10:
                wrong.append("horizon")
            if float(row["altitude"]) != value["altitude"] or float(row["azimuth"]) != value["azimuth"]:
                wrong.append("csv")
            if not closest:
                low, high = value["bracket"]
                if not entry.from_ <= low < high <= entry.to or [
                    float(row["bracket from"]),
                    float(row["bracket to"]),
                ] != [low, high]:
                    wrong.append("bracket")
                total = (
                    not star and entry.phase is ukhtvaresh.Phase.CENTRAL and ukhtvaresh.second(request, second).l2 < 0
                )
                point = (entry.direction + (1800 if total or star else 0)) % 3600
                if value["direction"] != entry.direction / 10 or value["point"] != point / 10:
                    wrong.append("direction")
                if value["point from zenith"] != (point - horizon.zenith) % 3600 / 10:
                    wrong.append("zenith")
                for scale, times in value["times"].items():
                    if times[0] not in text or row[f"{scale} to"] != times[1]:
                        wrong.append(scale)
            check(f"contacts {name}: {entry}", wrong)
    got = run("contacts", data=b"x0 1\n")
    answers("contacts of a bad text", got, 1, b"", r"x1 is missing")
    answers("contacts of no bytes", run("contacts"), 1, b"", r"the input is empty")
    answers("contacts of a gigabyte", run("contacts", sparse(folder)), 1, b"", r"more than 1048576 bytes")


def test_network(folder):
    path = EXAMPLES / "eleven1954.network.txt"
    everywhere("network", path, folder)
    text = path.read_bytes()
    status, output, error = run("network", path)
    check("network as the program", "" if output.startswith(program("network", text)[0]) and status == 0 else output)
    made = json.loads(run("network", "--json", path)[1])
    steps = "".join(f"station {s['station']} steps {s['steps']}\n" for s in made["stations"])
    check(
        "network --json",
        not output.decode().startswith(steps + f"first {made['first']['station']} to {made['first']['to']} sun "),
    )
    line = next(k for k, each in enumerate(text.split(b"\n"), 1) if each.startswith(b"station 103"))
    for new, error in [
        (b"station 103 95.75 30.3 75 0 0", rf"latitude 95.75 is outside -90 to 90 \(line {line}\) \[refusal 3 21\]"),
        (b"station 102 59.7 30.3 75 0 0", rf"station 102 is already in the list \(line {line}\).*\[refusal 14 2\]"),
        (
            b"station 103 59.7 30.3 75 0 999",
            rf"station 103 follows the clock of 999, which is not in the list \(line {line}\) \[refusal 15 2\]",
        ),
        (b"station 103 59.7 30.3 75 0 104", rf"never reach the antenna, 0 \(line {line}\) \[refusal 16 2\]"),
        (b"station 103 59.7 30.3 75 0", rf"station takes 6 values, .*, and 5 are typed \(line {line}\)"),
        (b"station 103 59.7x 30.3 75 0 0", rf"latitude 59.7x is not a number \(line {line}\).*\[refusal 20 {line}\]"),
        (b"station 103 59.7 30.3 75 0 x", rf"clock x is not a whole number \(line {line}\)"),
    ]:
        changed_text = re.sub(rb"station 103 [^\n]*", new, text)
        answers(new.decode(), run("network", data=changed_text), 1, b"", error)
    alone = re.sub(rb"station \d[^\n]*", b"", text)
    answers("network without stations", run("network", data=alone), 1, b"", r"there is no station.*\[refusal 19 0\]")
    many = alone + b"".join(b"station %d 50 30 0 0 0\n" % k for k in range(1, 66))
    answers(
        "network of 65",
        run("network", data=many),
        1,
        b"",
        r"there are 65 stations, and a network has 64 at most \[refusal 19 0\]",
    )
    far = re.sub(rb"first -10800", b"first 10000", text)
    status, output, error = run("network", data=far)
    check("a network that nothing reaches", "" if output.startswith(program("network", far)[0]) else output)
    element = re.sub(rb"x0 \S+", b"x0 3", text)
    answers(
        "network with a bad element",
        run("network", data=element),
        1,
        b"",
        r"x0 3 is outside -2 to 2 \(line \d+\) \[refusal 2 0\]",
    )
    answers("network of no bytes", run("network"), 1, b"", r"the input is empty|x0 is missing")
    answers("network of a gigabyte", run("network", sparse(folder)), 1, b"", r"more than 1048576 bytes")


def test_seconds(folder):
    everywhere("seconds", EXAMPLES / "moscow1954.txt", folder)
    request = example("moscow1954.bin")
    rows = list(csv.DictReader(io.StringIO(run("seconds", "--every", "7", EXAMPLES / "moscow1954.txt")[1].decode())))
    window = ukhtvaresh.Request.from_bytes(request).window
    check("seconds: the window", [int(row["second"]) for row in rows] != list(range(window.first, window.last + 1, 7)))
    wrong = []
    for row in rows:
        second = int(row["second"])
        at, horizon = ukhtvaresh.second(request, second), ukhtvaresh.horizon(request, second)
        values = [
            at.magnitude / 10**6,
            ukhtvaresh.share(request, second) / 10**6,
            horizon.altitude / 10,
            horizon.azimuth / 10,
        ]
        if [float(row[name]) for name in "magnitude share altitude azimuth".split()] != values:
            wrong.append(second)
        if (row["penumbra"], row["central"]) != (at.penumbra.name.lower(), at.central.name.lower()):
            wrong.append(second)
    check("seconds as the library", wrong)
    lines = run("seconds", "--json", "--every", "1", "--from", "-3", "--to", "3", EXAMPLES / "potsdam1956.txt")[
        1
    ].splitlines()
    check("seconds --json of a star", [json.loads(line)["second"] for line in lines] != list(range(-3, 4)))
    status, output, _ = run(
        "seconds",
        "--every",
        "1",
        "--from",
        "0",
        "--to",
        "0",
        "--instant",
        "1954-06-30 23:59:30 UT",
        EXAMPLES / "moscow1954.txt",
    )
    check("seconds with times", b"1954-06-30T23:59:30.00" not in output)
    status, output, _ = run(
        "seconds",
        "--every",
        "1",
        "--from",
        "30",
        "--to",
        "30",
        "--instant",
        "1954-06-30 23:59:30 UT",
        EXAMPLES / "moscow1954.txt",
    )
    check("seconds over midnight", b"1954-07-01T00:00:00.00" not in output)
    for words, status, error in [
        (["--every", "0"], 2, "every"),
        (["--from", "-10801"], 1, r"--from -10801 is outside -10800 to 10800"),
        (["--from", "5", "--to", "4"], 1, r"--from 5 is after --to 4"),
    ]:
        answers(f"seconds {words}", run("seconds", *words, EXAMPLES / "moscow1954.txt"), status, b"", error)
    answers("seconds of no bytes", run("seconds"), 1, b"", r"the input is empty")
    answers("seconds of a gigabyte", run("seconds", sparse(folder)), 1, b"", r"more than 1048576 bytes")


PLACES = [("43.37", "-8.40"), ("55.755", "37.57"), ("-33.87", "151.21"), ("78.2", "15.6"), ("32.7767", "-96.7970")]


def test_eclipses(folder):
    environment = {**os.environ, "PYTHONPATH": ""}
    for place in PLACES:
        words = [str(TOP / "almanac/next"), *place, "--from", "2020-01-01", "--count", "12"]
        theirs = subprocess.run(words, capture_output=True, text=True, env=environment, check=True).stdout.splitlines()[
            1:
        ]
        status, output, _ = run("eclipses", *place, "--from", "2020-01-01", "--visible")
        ours = output.decode().splitlines()[1:]
        wrong = []
        for their, our in zip(theirs, ours):
            a, b = their.split(), our.split()
            # Date, kind here, three times to a second, magnitude to 0.001. Where the Sun is down at greatest eclipse,
            # the almanac looks at each fifth second and has the Sun up from -0.83 degrees on.
            same = a[0] == b[0] and a[1] == b[2]
            steps = [abs(clock(x) - clock(y)) for x, y in zip([a[2], a[4], a[6]], [b[4], b[6], b[8]])]
            near = steps[0] <= 1 and steps[2] <= 1 and steps[1] <= (1 if b[3] == "up" else 60)
            if not same or not near or abs(float(a[8]) - float(b[10])) > (0.0011 if b[3] == "up" else 0.02):
                wrong.append((their, our))
        check(f"eclipses at {place} as almanac/next", wrong or len(ours) < len(theirs))
    times = []
    for _ in range(5):
        start = time.monotonic()
        status, output, error = run("eclipses", "55.755", "37.57")
        times.append(time.monotonic() - start)
    check("200 years in a tenth of a second, the best of five", f"{min(times):.3f} s" if min(times) > 0.1 else "")
    check("eclipses of Moscow", [d for d in ("1954-06-30", "2061-04-20") if d.encode() not in output])
    check("all of them", len(run("eclipses", "0", "0", "--all")[1].splitlines()) != 455)
    made = [json.loads(line) for line in run("eclipses", "55.755", "37.57", "--json")[1].splitlines()]
    rows = list(csv.DictReader(io.StringIO(run("eclipses", "55.755", "37.57", "--csv")[1].decode())))
    check("eclipses --json and --csv", not len(made) == len(rows) == len(output.splitlines()) - 1)
    check("the same dates", [m["date"] for m in made] != [r["date"] for r in rows])
    check("the Sun is up, down, rises or sets", {m["sun"] for m in made} - {"up", "down", "rises", "sets", "partly"})
    for words, status, pattern in [
        (["95.75", "0"], 1, r"latitude 95.75 is outside -90 to 90 \[refusal 3 1\]"),
        (["0", "181"], 1, r"longitude 181 is outside -180 to 180"),
        (["x", "0"], 1, r"latitude x is not a number: write, for example, 55.755"),
        (["1,5", "0"], 1, r"write, for example, 1.5"),
        (["1.23456789", "0"], 1, r"may have 6 decimals and has 8: write 1.234568, or add --round"),
        (["0", "0", "--from", "2024-02-30"], 1, r"--from 2024-02-30 is not a day: this month has the days 01 to 29"),
        (["0", "0", "--from", "2030", "--to", "2029"], 1, r"is after"),
        (["0", "0", "--height", "9001"], 1, r"height 9001 is outside -500 to 9000"),
        (["0", "0", "--radii", "mine"], 2, r"document02"),
        (["0"], 2, r"LONGITUDE"),
    ]:
        answers(f"eclipses {words}", run("eclipses", *words), status, b"", pattern)
    got = run("eclipses", "−33.87", "151.21", "--from", "2028", "--to", "2028")
    check("a minus sign U+2212", got[0] or b"2028-07-22" not in got[1])
    answers(
        "--round",
        run("eclipses", "1.23456789", "0", "--round", "--to", "1901"),
        0,
        None,
        r"note: latitude 1.23456789 is rounded to 1.234568",
    )
    answers("eclipses on a full disk", run("eclipses", "0", "0", "--out", "/dev/full"), 2, b"", r"No space left")
    answers("eclipses to a directory", run("eclipses", "0", "0", "--out", folder), 2, b"", r"is a directory")


def clock(text):
    hours, minutes, seconds = text[:8].split(":")
    days = int(text[8:-1]) if len(text) > 8 else 0
    return ((24 * days + int(hours)) * 60 + int(minutes)) * 60 + int(seconds)


def test_eclipse(folder):
    for date, *place in [
        ("2024-04-08", "32.7767", "-96.7970"),
        ("1954-06-30", "55.755", "37.57"),
        ("2026-08-12", "43.37", "-8.40"),
        ("2019-07-02", "-29.9", "-71.25"),
    ]:
        for radii in ("document02", "iau"):
            words = [sys.executable, str(TOP / "almanac/almanac.py"), date, *place, "--radii", radii]
            theirs = subprocess.run(words, capture_output=True, text=True, check=True).stdout
            status, output, _ = run("eclipse", date, *place, "--radii", radii, "--request")
            check(f"eclipse {date} {radii}", different(theirs, output.decode()) if status == 0 else status)
        status, listing, _ = run("eclipse", date, *place)
        answers(f"eclipse {date}", run("sheet", data=run("eclipse", date, *place, "--request")[1]), 0, listing)
        stored = run("eclipse", date, *place, "--stored")[1]
        requested = run("eclipse", date, *place, "--bytes")[1]
        check(f"eclipse {date} --stored", stored != ukhtvaresh.sheet(requested))
        check(f"eclipse {date} --json", json.loads(run("eclipse", date, *place, "--json")[1])["station"] != 1)
        check(f"eclipse {date} --csv", not run("eclipse", date, *place, "--csv")[1].startswith(b"station,kind"))
    start = time.monotonic()
    run("eclipse", "2024-04-08", "32.7767", "-96.7970")
    check("Dallas in one command", time.monotonic() - start > 1)
    for words, status, pattern in [
        (["2024-02-30", "0", "0"], 1, r"date 2024-02-30 is not a day: this month has the days 01 to 29"),
        (["2024-05-01", "0", "0"], 1, r"no solar eclipse on 2024-05-01: the nearest are on 2024-04-08 and 2024-10-02"),
        (["1850-01-01", "0", "0"], 1, r"outside the catalogue's years, 1900 to 2100"),
        (["tomorrow", "0", "0"], 1, r"date tomorrow is not written as YYYY-MM-DD, for example 2024-04-08"),
        (["2024-04-08", "95.75", "0"], 1, r"latitude 95.75 is outside -90 to 90"),
        (["2024-04-08", "0", "0", "--guard", "15"], 1, r"guard 15 is outside 16 to 1000"),
        (["2024-04-08", "0", "0", "--delta-t", "-101"], 1, r"delta t -101 is outside -100 to 200"),
        (["2024-04-08", "0", "0", "--station", "0"], 1, r"station 0 is outside 1 to 999"),
        (["2024-04-08"], 2, r"LATITUDE"),
        (["2024-04-08", "0", "0", "--json", "--csv"], 2, r"cannot be used with"),
    ]:
        answers(f"eclipse {words}", run("eclipse", *words), status, b"", pattern)
    for words, pattern in [
        (["2024-04-08", "51.5", "-0.12"], r"not visible from this place: the Sun is below the horizon throughout"),
        (["2024-04-08", "-30", "25"], r"not visible from this place: no contact, the Moon's penumbra passes \d+ km"),
        (
            ["2024-04-09", "32.7767", "-96.797"],
            r"is greatest on 2024-04-08 at 18:42:39 UT, and 2024-04-09 was asked for",
        ),
        (["2028-01-26", "43.37", "-8.40"], r"the Sun is below the horizon at last contact \(altitude -5\.\d\)"),
        (["2044-08-23", "50", "-110"], r"delta t [0-9.]+ is a forecast"),
    ]:
        answers(f"eclipse {words}", run("eclipse", *words), 0, None, pattern)
    answers(
        "eclipse on a full disk", run("eclipse", "2024-04-08", "0", "0", "--out", "/dev/full"), 2, b"", r"No space left"
    )


def different(theirs, ours):
    """The lines in which two typed requests differ by more than two units of their last decimal."""

    def numbers(text):
        lines = [
            line.rsplit(" ", 1)
            for line in text.splitlines()
            if line and not line.startswith(("#", "instant", "tai-utc"))
        ]
        return {name: float(value) for name, value in lines}

    one, other = numbers(theirs), numbers(ours)
    instants = [[line for line in text.splitlines() if line.startswith("instant")] for text in (theirs, ours)]
    wrong = [
        name
        for name in one
        if abs(one[name] - other.get(name, 9e9)) > (2.5e-6 if name.startswith(("d", "mu")) else 2.5e-8)
    ]
    wrong = [name for name in wrong if name != "guard" or abs(one[name] - other[name]) > 4]
    return wrong + (instants if instants[0] != instants[1] else [])


def test_help(folder):
    status, output, error = run("--help")
    check(
        "--help",
        status or [name for name in SUBCOMMANDS if name.encode() not in output] or b"Exit status" not in output,
    )
    answers("--version", run("--version"), 0, f"ukhtvaresh {version()}\n".encode(), b"")
    answers("no subcommand", run(), 2, b"", r"Usage: ukhtvaresh")
    answers("a misspelt one", run("shet"), 2, b"", r"Did you mean 'sheet'\?")
    for name in SUBCOMMANDS:
        status, output, error = run(name, "--help")
        check(
            f"{name} --help has examples",
            status or error or b"Examples:\n  ukhtvaresh" not in output and b"| ukhtvaresh" not in output,
        )
        long = [line for line in output.decode().splitlines() if len(line) > 160]
        check(f"{name} --help fits", long)
    pages = [("ukhtvaresh.1", run("manual")[1])] + [(f"ukhtvaresh-{n}.1", run("manual", n)[1]) for n in SUBCOMMANDS]
    for name, page in pages:
        path = Path(folder, name)
        path.write_bytes(page)
        ran = subprocess.run(
            ["man", "--warnings", "-l", path],
            capture_output=True,
            env={**os.environ, "MANWIDTH": "100", "LC_ALL": "C.UTF-8"},
        )
        text = re.sub(b".\x08", b"", ran.stdout)
        sections = [
            each for each in (b"NAME", b"SYNOPSIS", b"DESCRIPTION", b"EXIT STATUS", b"EXAMPLES") if each not in text
        ]
        check(f"manual page {name}", ran.returncode or ran.stderr or sections)
    answers("manual of nothing", run("manual", "nothing"), 2, b"", r"there is no subcommand nothing")
    for shell in ("bash", "zsh"):
        status, output, error = run("completions", shell)
        missing = [name for name in SUBCOMMANDS if name.encode() not in output]
        path = Path(folder, shell)
        path.write_bytes(output)
        known = subprocess.run(["which", shell], capture_output=True).returncode == 0
        syntax = known and subprocess.run([shell, "-n", path], capture_output=True).returncode
        check(f"completions {shell}", status or error or missing or syntax)
    answers("completions of fish", run("completions", "fish"), 2, b"", r"bash, zsh")


def version():
    return re.search(r'^version = "(.*)"', (TOP / "rust/command/Cargo.toml").read_text(), re.M)[1]


def on_terminal(words, feed=None):
    """What standard error of a run shows on a terminal; `feed` writes its input."""
    ours, theirs = pty.openpty()
    process = subprocess.Popen([COMMAND, *words], stdin=subprocess.PIPE, stdout=subprocess.DEVNULL, stderr=theirs)
    os.close(theirs)
    if feed:
        feed(process.stdin)
    process.stdin.close()
    shown = b""
    while True:
        try:
            part = os.read(ours, 4096)
        except OSError:
            break
        if not part:
            break
        shown += part
    os.close(ours)
    process.wait()
    return shown


def test_terminal(folder):
    check("colour on a terminal", b"\x1b[" not in on_terminal(["sheet", str(Path(folder, "nothing"))]))
    check("no colour elsewhere", b"\x1b[" in run("sheet", Path(folder, "nothing"))[2])
    year = year_file()

    def slowly(pipe):
        for _ in range(30):
            pipe.write(year * 300)
            pipe.flush()
            time.sleep(0.1)

    check("progress after two seconds on a terminal", b"read" not in on_terminal(["list"], slowly))
    check("none before", b"read" in on_terminal(["list"], lambda pipe: pipe.write(year * 300)))
    process = subprocess.Popen(
        [COMMAND, "list"], stdin=subprocess.PIPE, stdout=subprocess.DEVNULL, stderr=subprocess.PIPE
    )
    slowly(process.stdin)
    process.stdin.close()
    check("none elsewhere", process.stderr.read())
    process.wait()
    process.stderr.close()
    ours, theirs = pty.openpty()
    ran = subprocess.run(
        [COMMAND, "sheet", "--stored", EXAMPLES / "moscow1954.txt"], stdout=theirs, stderr=subprocess.PIPE
    )
    os.close(theirs)
    os.close(ours)
    answers(
        "no bytes to a terminal",
        (ran.returncode, b"", ran.stderr),
        2,
        b"",
        r"a stored sheet is bytes, which a terminal cannot show",
    )


def test_files(folder):
    target, link = Path(folder, "target.txt"), Path(folder, "link.txt")
    target.write_bytes(b"old")
    target.chmod(0o640)
    link.symlink_to(target)
    run("sheet", EXAMPLES / "moscow1954.txt", "--out", link)
    check("--out of a link writes the file that it names", not link.is_symlink() or target.read_bytes() == b"old")
    check(
        "--out keeps the file's permissions",
        oct(target.stat().st_mode & 0o777) if target.stat().st_mode & 0o777 != 0o640 else "",
    )
    run("sheet", EXAMPLES / "moscow1954.txt", "--out", "/dev/null")
    check("/dev/null stays a device", not Path("/dev/null").is_char_device())
    answers(
        "--out -",
        run("sheet", EXAMPLES / "moscow1954.txt", "--out", "-"),
        0,
        program("times", example("moscow1954.txt"))[0],
    )


def main():
    if not Path(COMMAND).is_file():
        sys.exit(f"There is no {COMMAND}. Run `cargo build --offline --release` in rust/command.")
    tests = {name[5:]: each for name, each in globals().items() if name.startswith("test_")}
    for name in sys.argv[1:] or tests:
        before = dict(counts)
        with tempfile.TemporaryDirectory() as folder:
            tests[name](folder)
        print(
            f"{name}: {counts['passed'] - before['passed']} passed, {counts['failed'] - before['failed']} failed",
            flush=True,
        )
    print(f"{counts['passed']} passed, {counts['failed']} failed")
    sys.exit(1 if counts["failed"] else 0)


if __name__ == "__main__":
    main()
