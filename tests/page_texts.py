#!/usr/bin/env python3
"""Holds the program `request` as the page runs it, in WebAssembly, against the program itself and against the reading
of tests/request.py.

    web/build && python3 tests/page_texts.py [TEXTS] [SEED]         needs node
"""

import struct
import subprocess
import sys
from pathlib import Path

import request

TOP = Path(__file__).resolve().parent.parent


def parts(stream):
    """The byte strings of a stream, each behind its length."""
    at = 0
    while at < len(stream):
        (length,) = struct.unpack_from("<I", stream, at)
        yield stream[at + 4 : at + 4 + length]
        at += 4 + length


def main():
    count = int(sys.argv[1]) if len(sys.argv) > 1 else 2000
    seed = int(sys.argv[2]) if len(sys.argv) > 2 else 1954
    texts = list(request.texts(count, seed))
    stream = b"".join(struct.pack("<I", len(text)) + text for text in texts)
    ran = subprocess.run(["node", TOP / "web/test/texts.mjs"], input=stream, stdout=subprocess.PIPE, check=True)
    said = list(parts(ran.stdout))
    if len(said) != 2 * len(texts):
        sys.exit(f"{len(said)} answers to {len(texts)} texts")
    for text, output, error in zip(texts, said[::2], said[1::2]):
        native = subprocess.run([request.PROGRAM], input=text, capture_output=True, check=False)
        wanted = request.answer(text)
        if not (output, error) == (native.stdout, native.stderr) == wanted:
            sys.exit(
                f"{text!r}\npage    {output!r} {error!r}\nprogram {native.stdout!r} {native.stderr!r}\n"
                f"reading {wanted!r}"
            )
    print(f"{len(texts)} texts, no difference between page, program and reading")


if __name__ == "__main__":
    main()
