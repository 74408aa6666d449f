#!/usr/bin/env python3
"""Streams of requests for the program `stream`; the answers are those of tests/reference, which finds the requests'
ends itself.

    python3 tests/stream.py FOLDER                          makes FOLDER/stdin and stdout, those of crates/stream
    tools/build stream && python3 tests/stream.py [STREAMS] [SEED]   compares the program with it, standard error too

Both need `cargo build --offline --release` in tests/reference. With programs `sheet_bytes` and `star_sheet` built,
each fiftieth stream is also answered by them, request by request.
"""

import random
import subprocess
import sys
import threading
from pathlib import Path

TOP = Path(__file__).resolve().parent.parent
PROGRAM = TOP / "target/bin/stream"
REFERENCE = TOP / "tests/reference/target/release/reference"
ECLIPSES = ["moscow1954", "kiev1954", "hopkinsville2017"]
STARS = ["potsdam1956", "kansas1949"]
SIZES = {2: 115, 5: 79}


def example(name):
    return (TOP / f"examples/{name}.bin").read_bytes()


def with_number(request, at, value, width=4):
    return request[:at] + value.to_bytes(width, "big", signed=width == 4) + request[at + width :]


def gate():
    """The stream of the gate: good requests, one refused by each of 1, 2 and 3, and one that the input's end cuts
    short."""
    moscow, kiev, potsdam, kansas = map(example, ["moscow1954", "kiev1954", "potsdam1956", "kansas1949"])
    element = with_number(moscow, 1 + 4 * 5, 100_000_001)  # y1
    latitude = with_number(potsdam, 54 + 2, 90_000_001)
    guard = with_number(kiev, 113, 15, 2)
    return [moscow, potsdam, element, kiev, latitude, guard, kansas, moscow[:114]]


def drawn(rng):
    """A request: an example, one with another window, one with bytes changed, or bytes of no shape."""
    request = example(rng.choice(ECLIPSES + STARS))
    way = rng.randrange(12)
    if way < 6:
        last = len(request) - 4
        first = rng.randrange(-10800, 10801)
        end = min(10800, first + rng.choice([0, 1, 60, 600, 21600]))
        window = (first % 65536).to_bytes(2, "big") + (end % 65536).to_bytes(2, "big")
        request = request[: last - 2] + window + request[last + 2 :]
    if 4 <= way < 10:
        for _ in range(rng.choice([1, 1, 2, 8])):
            at = rng.randrange(1, len(request))
            if rng.randrange(8) or at not in (len(request) - 26, len(request) - 7):
                request = request[:at] + bytes([rng.randrange(256)]) + request[at + 1 :]
    return request


def stream(rng):
    """Some requests, at times with a byte lost or added, a wrong kind inside, or an end cut off."""
    requests = [drawn(rng) for _ in range(rng.choice([0, 1, 2, 5, 20, 60]))]
    way = rng.randrange(8)
    whole = b"".join(requests)
    at = rng.randrange(len(whole) + 1)
    if way == 0:
        return whole[:at]
    if way == 1:
        return whole[:at] + bytes([rng.randrange(256)]) + whole[at:]
    if way == 2:
        return whole[:at] + whole[at + 1 :]
    if way == 3 and requests:
        k = rng.randrange(len(requests))
        kinds = [len(requests[k]) - 26, len(requests[k]) - 7]
        for kind in rng.sample(kinds, 1):
            requests[k] = requests[k][:kind] + bytes([rng.randrange(256)]) + requests[k][kind + 1 :]
        return b"".join(requests)
    return whole


def run(program, *words, data, piecewise=None):
    """What a program writes to both streams; its input at once, or in pieces of some sizes."""
    process = subprocess.Popen([program, *words], stdin=subprocess.PIPE, stdout=subprocess.PIPE, stderr=subprocess.PIPE)
    if piecewise is None:
        return process.communicate(data)

    def feed():
        at = 0
        try:
            while at < len(data):
                size = piecewise.choice([1, 7, 79, 115, 200])
                process.stdin.write(data[at : at + size])
                process.stdin.flush()
                at += size
            process.stdin.close()
        except BrokenPipeError:  # it stopped before
            pass

    feeder = threading.Thread(target=feed)
    feeder.start()
    output, error = process.stdout.read(), process.stderr.read()
    process.wait()
    feeder.join()
    return output, error


def one_by_one(data):
    """The same by programs `sheet_bytes` and `star_sheet`: the stored sheets of eclipses, and the refusals of both."""
    sheets, told, at, count = [], "", 0, 0
    while at < len(data):
        count += 1
        size = SIZES.get(data[at], 1)
        request = data[at : at + size]
        if data[at] == 5:
            printed = run(TOP / "target/bin/star_sheet", data=request)[0]
            line = printed.decode() if printed.startswith(b"refused") else ""
            listing = "" if line else printed.decode()
            sheets.append(listing)
        else:
            stored, error = run(TOP / "target/bin/sheet_bytes", data=request)
            line = error.decode()
            sheets.append(run(TOP / "target/bin/listing", data=stored)[0].decode() if stored else "")
        if line:
            told += f"request {count}: {line}"
            if line == "refused 10 0\n":
                return sheets, told + f"stopped at byte {at}\n"
        at += size
    return sheets, told


def listings(year):
    """The listings of a year file's sheets, each by program `listing`; its ends are found by the kinds' lengths."""
    bodies = {
        0x01: 8, 0x10: 6, 0x11: 6, 0x12: 4, 0x13: 4, 0x20: 6, 0x21: 6, 0x22: 4, 0x23: 4, 0x30: 6, 0x40: 6,
        0x41: 6, 0x42: 4, 0x43: 4, 0x7F: 0
    }
    found, start, at = [], 0, 0
    while at < len(year):
        kind = year[at]
        at += 1 + bodies[kind]
        if kind == 0x7F:
            found.append(run(TOP / "target/bin/listing", data=year[start:at])[0].decode())
            start = at
    return found


def main():
    if len(sys.argv) == 2 and not sys.argv[1].isdigit():
        folder = Path(sys.argv[1])
        data = b"".join(gate())
        (folder / "stdin").write_bytes(data)
        (folder / "stdout").write_bytes(run(REFERENCE, "stream", data=data)[0])
        return
    count, seed = (int(word) for word in (sys.argv[1:] + ["2000", "1954"][len(sys.argv) - 1 :]))
    rng = random.Random(seed)
    built = all((TOP / f"target/bin/{name}").exists() for name in ("sheet_bytes", "star_sheet", "listing"))
    bytes_out, refused, stopped, alone = 0, 0, 0, 0
    streams = [b"".join(gate()), b""] + [stream(rng) for _ in range(count)]
    for number, data in enumerate(streams):
        output, error = run(PROGRAM, data=data, piecewise=rng if number % 5 == 1 else None)
        if (output, error) != run(REFERENCE, "stream", data=data):
            sys.exit(f"stream {number} of seed {seed} differs")
        if built and number % 50 == 0:
            alone += 1
            sheets, told = one_by_one(data)
            if [sheet for sheet in sheets if sheet] != listings(output) or told != error.decode():
                sys.exit(f"stream {number} differs from its requests answered one by one")
        bytes_out += len(output)
        refused += error.count(b"refused")
        stopped += error.count(b"stopped")
    print(
        f"{len(streams)} streams of {sum(map(len, streams))} bytes alike, {bytes_out} bytes of sheets; "
        f"{refused} refusals, {stopped} stops; {alone} one by one"
    )


if __name__ == "__main__":
    main()
