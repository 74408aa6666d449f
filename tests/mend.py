#!/usr/bin/env python3
"""The year file mended, by the words of document 02, wish 11, over the reader of stored_sheets.py.

    python3 tests/mend.py FOLDER                         makes FOLDER/stdin and stdout, those of crates/mend
    tools/build mend && python3 tests/mend.py [FILES] [SEED]   compares the program with it, standard error too
"""

import random
import subprocess
import sys
from pathlib import Path

from stored_sheets import Refused, encode, parse

PROGRAM = Path(__file__).resolve().parent.parent / "target/bin/mend"
ROOM = 196608  # bytes; the program takes shorter files


def mend(file):
    """The kept sheets, and the start and the length of each unbroken dropped stretch."""
    kept, places, at = b"", [], 0
    while at < len(file):
        try:
            length = parse(file[at : at + 65536])[1]
        except Refused:
            places.append(at)
            at += 1
        else:
            kept += file[at : at + length]
            at += length
    dropped = set(places)
    starts = [place for place in places if place - 1 not in dropped]
    ends = [place + 1 for place in places if place + 1 not in dropped]
    return kept, [(start, end - start) for start, end in zip(starts, ends)]


def sheets():
    """Three short sheets: with nothing but a head, closest and end; with opens and a graze; with a star's contact."""
    last = [(0x30, (300, 77)), (0x7F, ())]
    return [
        encode([(0x01, (7, 200, 400, 16))] + last),
        encode([(0x01, (257, 256, 400, 256)), (0x13, (256, 260)), (0x22, (300, 301))] + last),
        encode([(0x01, (999, 1, 21600, 1000)), (0x40, (16, 19, 256)), (0x30, (300, 0)), (0x7F, ())]),
    ]


def repeated(count, end=b"", kind=0x13):
    """An open entry of one second again and again, with a head in each two of them: from each of those a read goes on
    to the end."""
    return bytes([kind, 0x01, 0x00, 0x01, 0x00]) * count + end


def cases():
    """A file of three sheets with holes of every length at every place, one such file behind the other; then others."""
    three = b"".join(sheets())
    holes = [three[:start] + three[end:] for start in range(len(three)) for end in range(start + 1, len(three) + 1)]
    closing = [encode([(0x30, (256, magnitude)), (0x7F, ())]) for magnitude in (0, 1)]
    old = sheets()[2][:7] + sheets()[2][9:]  # a head without its guard
    again = [repeated(40, end, kind) for kind in (0x13, 0x43) for end in [b"", b"\xff"] + closing]
    return b"".join(holes + [three, old, three] + again + [three])


def check(count, seed):
    draw = random.Random(seed)
    tried = [cases(), b"", bytes(ROOM - 1), b"\x01" * (ROOM - 1)]
    for _ in range(count):
        pieces = [draw.choice(sheets()) for _ in range(draw.randrange(8))]
        for _ in range(draw.randrange(4)):
            pieces.insert(draw.randrange(len(pieces) + 1), draw.randbytes(draw.randrange(30)))
        file = bytearray(b"".join(pieces))
        for _ in range(draw.randrange(3)):
            start = draw.randrange(len(file) + 1)
            del file[start : start + draw.randrange(12)]
        tried.append(bytes(file))
    for file in tried:
        kept, stretches = mend(file)
        assert len(kept) + sum(length for _, length in stretches) == len(file)
        told = "".join(f"dropped {start} {length}\n" for start, length in stretches)
        got = subprocess.run([PROGRAM], input=file, capture_output=True)
        assert (got.stdout, got.stderr.decode()) == (kept, told), file[:200].hex()
    # nothing is kept of this, and the reader above would be long about it
    for kind in (0x13, 0x43):
        long = repeated(ROOM // 5 - 1, kind=kind)
        got = subprocess.run([PROGRAM], input=long, capture_output=True, timeout=10)
        assert (got.stdout, got.stderr.decode()) == (b"", f"dropped 0 {len(long)}\n")
    for length in (ROOM, ROOM + 1, 10 * ROOM):
        file = (sheets()[0] * (length // 17 + 1))[:length]
        got = subprocess.run([PROGRAM], input=file, capture_output=True)
        assert (got.stdout, got.stderr.decode()) == (b"", f"file of {ROOM} bytes or more\n")
    print(f"tests/mend.py: the program and the words agree on {len(tried) + 5} files")


if __name__ == "__main__":
    if len(sys.argv) > 1 and not sys.argv[1].isdigit():
        folder = Path(sys.argv[1])
        folder.joinpath("stdin").write_bytes(cases())
        folder.joinpath("stdout").write_bytes(mend(cases())[0])
    else:
        count, seed = (list(map(int, sys.argv[1:3])) + [300, 1][len(sys.argv) - 1 :])[:2]
        check(count, seed)
