#!/usr/bin/env python3
"""The input and the expected output of the programs `rule_vectors` and `sheet_vectors`, by code that shares nothing
with the crates.

    python3 tests/vectors.py RELEASE FOLDER     makes stdin and stdout in FOLDER/rule_vectors and FOLDER/sheet_vectors

RELEASE is the folder of the compiled tests/reference, which gives the places, the shadows, and the sheets of requests.
All else is worked out by the modules named below, each from the words of documents 01 and 02.

A record of the input is a letter, the number of its bytes in two bytes, and the bytes; a record of the letter # is a
heading, which the program prints as a line.
"""
import struct
import subprocess
import sys
from functools import partial
from pathlib import Path

sys.path.insert(0, str(Path(__file__).resolve().parent))
import cases  # noqa: E402
import fits  # noqa: E402
import handed_entries  # noqa: E402
import places  # noqa: E402
import readings  # noqa: E402
import shadows  # noqa: E402
import shares  # noqa: E402
import sines  # noqa: E402
import stored_sheets  # noqa: E402
import walks  # noqa: E402


def record(letter, body):
    """A record of the programs' input."""
    return letter.encode() + struct.pack(">H", len(body)) + body


def group(letter, heading, vectors):
    """The records and the printed text of a heading and some vectors, each the bytes of a record and its text."""
    vectors = list(vectors)
    given = [record("#", heading.encode())] + [record(letter, body) for body, _ in vectors]
    return b"".join(given), heading + "\n" + "".join(text for _, text in vectors)


def run(release, program, *words, given=b""):
    done = subprocess.run([f"{release}/{program}", *words], input=given, capture_output=True, check=True)
    return done.stdout.decode()


def rule_vectors(release):
    return [
        group("a", "sines: angle, sine and cosine by quadrants, sine and cosine by turns", sines.vectors()),
        group("p", "places: latitude, height, R, P", places.vectors(run(release, "vectors", "places"))),
        group(
            "s",
            "shadows: u, v, L1, L2, penumbra, central, direction, magnitude",
            shadows.vectors(run(release, "vectors", "shadows")),
        ),
        group("o", "shares: L1, L2, M, covered share", shares.vectors()),
        group("c", "contacts: states of a window, then its entries", walks.vectors()),
        group("f", "fits: accepted, or the refusal", fits.vectors()),
        group("d", "doubles: units as degrees, as hours, as a length", readings.vectors()),
    ]


def sheet_vectors(release):
    return [
        group("q", "requests: the listing of the sheet, or the refusal", cases.vectors(partial(run, release))),
        group("r", "reader: three answers, entries, and the sheet written back", stored_sheets.vectors()),
        group("w", "writer: two answers, and both buffers", handed_entries.vectors()),
    ]


if __name__ == "__main__":
    release, folder = sys.argv[1:]
    for name, groups in (("rule_vectors", rule_vectors(release)), ("sheet_vectors", sheet_vectors(release))):
        given = b"".join(given for given, _ in groups)
        assert len(given) <= 262_144, (name, len(given))
        Path(folder, name, "stdin").write_bytes(given)
        Path(folder, name, "stdout").write_text("".join(printed for _, printed in groups))
