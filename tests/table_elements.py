"""What program `table_elements` reads and prints, made another way: python3 tests/table_elements.py FOLDER writes
stdin and stdout there; python3 tests/table_elements.py --faults PROGRAM runs a compiled program on bad input and
compares what it tells.

The tables: the books' rows; distances and the sine of d at their limits and a unit off, each in every row; the ends
of 64 bits; random rows. The values follow the rule of the crate `besselian` (`Rounded`) in Python's whole numbers,
and each is compared with its exact value by squares. No quotient met here is half a unit from two whole numbers, so it
does not matter which way halves go.
"""

import random
import subprocess
import sys
from math import isqrt
from pathlib import Path

from rows1954 import rows as books

UNIT = 10**8
S1, S2, K = 10_932_074_400, 10_877_619_600, 27_227_400


def near(n, k):
    assert (2 * n + k) % (2 * k), "half a unit"
    return (2 * n + k) // (2 * k)


def distance(place):
    return sum(c * c for c in place)


def accepted(row):
    sun, moon = row[:3], row[3:]
    g = [s - m for s, m in zip(sun, moon)]
    return (
        (55 * UNIT) ** 2 <= distance(moon) <= (65 * UNIT) ** 2
        and (23_000 * UNIT) ** 2 <= distance(sun) <= (24_000 * UNIT) ** 2
        and 100**2 * g[2] ** 2 <= 43**2 * distance(g)
    )


def values(row):
    """x, y, sin d, cos d, tan f1, tan f2, l1, l2 of an accepted row."""
    sun, (x, y, z) = row[:3], row[3:]
    gx, gy, gz = (near(s - m, 1000) for s, m in zip(sun, (x, y, z)))
    flat = gx * gx + gy * gy
    whole = flat + gz * gz
    r, n = isqrt(flat), isqrt(whole)
    cos_a, sin_a, sin_d, cos_d = near(gx * UNIT, r), near(gy * UNIT, r), near(gz * UNIT, n), near(r * UNIT, n)
    q = near(x * cos_a + y * sin_a, UNIT)
    along = near(z * sin_d + q * cos_d, UNIT)
    tangents, terms = [], []
    for radii in (S1, S2):
        t = isqrt(whole - near(radii * radii, 10**6))
        tangents.append(near(radii * 10**5, t))
        terms.append((near(along * tangents[-1], UNIT), near(K * n, t)))
    return [
        near(y * cos_a - x * sin_a, UNIT),
        near(z * cos_d - q * sin_d, UNIT),
        sin_d,
        cos_d,
        *tangents,
        terms[0][0] + terms[0][1],
        terms[1][0] - terms[1][1],
    ]


def judge(row, eight):
    """Each value against its exact one, a over the root of b, squares compared."""
    sun, moon = row[:3], row[3:]
    g = [s - m for s, m in zip(sun, moon)]
    n, p = distance(g), g[0] ** 2 + g[1] ** 2
    q = moon[0] * g[0] + moon[1] * g[1]
    c = q + moon[2] * g[2]
    exact = (
        (1000, moon[1] * g[0] - moon[0] * g[1], p),
        (1000, moon[2] * p - g[2] * q, p * n),
        (4, UNIT * g[2], n),
        (4, UNIT * p, p * n),
        (4, UNIT * S1, n - S1 * S1),
        (4, UNIT * S2, n - S2 * S2),
        (1000, c * S1 + K * n, n * (n - S1 * S1)),
        (1000, c * S2 - K * n, n * (n - S2 * S2)),
    )
    for value, (e, a, b) in zip(eight, exact):
        low, high = value - e, value + e
        assert low * abs(low) * b <= a * abs(a) <= high * abs(high) * b, (row, value)


# ---- tables


def edges():
    """Rows at a limit and a unit off it, on both sides."""
    sun, moon = (2_345_678_901_235, 0, 0), (0, 5_912_345_679, 0)
    # exactly 55 and 65, 23,000 and 24,000 radii: 9² + 6² + 2² = 11², 12² + 4² + 3² = 13², 22² + 6² + 3² = 23², 16² +
    # 16² + 8² = 24²
    for (a, b, c), unit in (((9, 6, 2), 500_000_000), ((12, 4, 3), 500_000_000)):
        for off in (-1, 0, 1):
            yield [*sun, a * unit, -b * unit, c * unit + off]
    for (a, b, c), unit in (((22, 6, 3), 100_000_000_000), ((16, 16, 8), 100_000_000_000)):
        for off in (-1, 0, 1):
            yield [-a * unit, b * unit, c * unit + off, *moon]
    for limit in (5_500_000_000, 6_500_000_000):
        for off in (-1, 0, 1):
            yield [*sun, 0, 0, -limit + off]
    for limit in (2_300_000_000_000, 2_400_000_000_000):
        for off in (-1, 0, 1):
            yield [0, limit + off, 0, *moon]
    # 8151 Gz² at most 1849 (Gx² + Gy²)
    for gx, gy in ((2_107_000_000_123, 0), (1_500_000_000_771, -1_480_000_000_023)):
        last = isqrt((gx * gx + gy * gy) * 1849 // 8151)
        for gz in (last, last + 1, -last, -last - 1):
            yield [gx + moon[0], gy + moon[1], gz + moon[2], *moon]
    for end in (-(2**63) + 1, 2**63 - 1, 0):
        for place in range(6):
            yield [end if k == place else c for k, c in enumerate((*sun, *moon))]


def drawn(rng):
    """A row that is accepted."""
    while True:
        sun = [rng.randint(-2_400_000_000_000, 2_400_000_000_000) for _ in range(3)]
        if rng.random() < 0.5:
            moon = [rng.randint(-6_500_000_000, 6_500_000_000) for _ in range(3)]
        else:
            share = rng.uniform(0.0023, 0.0028)
            moon = [round(s * share) + rng.randint(-150_000_000, 150_000_000) for s in sun]
        if accepted(sun + moon):
            return sun + moon


def tables():
    yield list(books())
    rng = random.Random(1954)
    for k, edge in enumerate(edges()):
        rows = [drawn(rng) for _ in range(7)]
        rows[k % 7] = edge
        yield rows
    for _ in range(20):
        yield [drawn(rng) for _ in range(7)]


def expected(rows):
    for k, row in enumerate(rows):
        if not accepted(row):
            return f"refused 11 {k}\n"
    lines = []
    for row in rows:
        eight = values(row)
        judge(row, eight)
        lines.append(" ".join(map(str, eight)))
    return "\n".join(lines) + "\n"


def write(folder):
    folder = Path(folder)
    text, listing = ["# the books' rows, limits, random rows\n"], []
    for k, rows in enumerate(tables()):
        for j, row in enumerate(rows):
            # blanks of all kinds, empty lines and comments
            blank = " " if k % 3 else "\t"
            end = "\r\n" if k % 5 == 4 else " # table %d\n" % k if j == 3 else "\n"
            text.append(("  " if j == 5 else "") + blank.join(map(str, row)) + end)
        text.append("\n")
        listing.append(expected(rows))
    (folder / "stdin").write_bytes("".join(text).encode())
    (folder / "stdout").write_text("".join(listing))


def faults(program):
    row = "2300000000000 0 0 5500000000 0 0\n"
    cases = {
        "": "",
        "# nothing\n\n": "",
        row * 6: "line 8: the last table has fewer than seven rows\n",
        row + "1 2 3 4 5\n": "line 2: fewer than six numbers\n",
        row * 2 + "1 2 3 4 5 6 7\n": "line 3: more than six numbers\n",
        "1 2 3.5 4 5 6\n": "line 1: not a whole number\n",
        "1 2 - 4 5 6\n": "line 1: not a whole number\n",
        "1 2 4-4 4 5 6\n": "line 1: not a whole number\n",
        "\n1 2 9223372036854775808 4 5 6\n": "line 2: a number is too large for 64 bits\n",
        "1 2 -99999999999999999999999 4 5 6\n": "line 1: a number is too large for 64 bits\n",
        " " * 65_537: "the text has more than 65,536 bytes\n",
    }
    for text, told in cases.items():
        run = subprocess.run([program], input=text.encode(), capture_output=True)
        assert run.stderr.decode() == told and run.stdout == b"", (text[:80], run.stderr, run.stdout)
    print(f"{len(cases)} bad inputs reported as they should be")


if __name__ == "__main__":
    if sys.argv[1:2] == ["--faults"]:
        faults(sys.argv[2])
    else:
        write(sys.argv[1])
