#!/usr/bin/env python3
"""A coarse outline of the world's coasts, outline.txt, from Natural Earth (public domain) as Debian's
r-cran-rnaturalearthdata has it.

    apt-get download r-cran-rnaturalearthdata && dpkg-deb -x r-cran-rnaturalearthdata*.deb FOLDER
    python3 web/data/make_outline.py FOLDER coastline50 2 > web/data/outline.txt
    python3 web/data/make_outline.py --draw web/data/outline.txt outline.png

A line of the outline is a polyline: longitude and latitude of its first point in tenths of a degree, then differences
from point to point. Points nearer than TOLERANCE tenths to the line between their neighbours are left out (Douglas and
Peucker), and so are rings smaller than that. R is not needed: its lazy-load files are read here.
"""

import gzip
import lzma
import struct
import sys
import zlib
from pathlib import Path
from typing import List, Tuple

Point = Tuple[int, int]
HEAD = """\
# Coasts of the world from Natural Earth, {layer}, public domain (naturalearthdata.com), by make_outline.py.
# Tolerance {tolerance} tenths of a degree.
# A polyline a line: longitude and latitude in tenths of a degree, then differences from point to point.
"""


# ---- R's files


class Serialized:
    """Reads R's serialized form (XDR, versions 2 and 3) into lists, bytes and (values, attributes)."""

    def __init__(self, data: bytes):
        self.data, self.at, self.seen = data, 2, []
        if data[:2] != b"X\n":
            raise ValueError("not R's XDR form")
        version, _, _ = self.ints(3)
        if version == 3:  # the encoding's name
            (size,) = self.ints(1)
            self.at += size

    def ints(self, count: int) -> List[int]:
        self.at += 4 * count
        return list(struct.unpack_from(f">{count}i", self.data, self.at - 4 * count))

    def item(self):
        (flags,) = self.ints(1)
        kind = flags & 255
        if kind in (254, 253, 251, 242, 241):  # NULL, environments and markers that have nothing in them
            return None
        if kind == 255:
            return self.seen[(flags >> 8 or self.ints(1)[0]) - 1]
        if kind == 1:  # symbol
            self.seen.append(self.item())
            return self.seen[-1]
        if kind == 9:  # string
            (size,) = self.ints(1)
            self.at += max(size, 0)
            return self.data[self.at - size : self.at] if size >= 0 else None
        if kind == 2:  # pairs
            pairs = []
            if flags & 512:
                self.item()
            tag = self.item() if flags & 1024 else None
            pairs.append((tag, self.item()))
            rest = self.item()
            return pairs + (rest or [])
        if kind == 25:  # S4 object: attributes only
            return None, dict(self.item())
        (count,) = self.ints(1)
        if kind in (10, 13):
            values = self.ints(count)
        elif kind == 14:
            values = list(struct.unpack_from(f">{count}d", self.data, self.at))
            self.at += 8 * count
        elif kind in (16, 19):
            values = [self.item() for _ in range(count)]
        else:
            raise ValueError(f"kind {kind} of R's values is not read here")
        return values, dict(self.item()) if flags & 512 else {}


def loaded(folder: Path, name: str):
    """An object of a package's lazy-load data."""
    index = _named(Serialized(gzip.decompress((folder / "Rdata.rdx").read_bytes())).item())[b"variables"]
    offset, size = _named(index)[name.encode()][0]
    block = (folder / "Rdata.rdb").read_bytes()[offset : offset + size]
    kind, body = block[4:5], block[5:]
    if kind == b"Z":
        filters = [{"id": lzma.FILTER_LZMA2, "preset": 6 | lzma.PRESET_EXTREME}]
        data = lzma.decompress(body, lzma.FORMAT_RAW, filters=filters)
    else:
        data = zlib.decompress(block[4:])
    return Serialized(data).item()


def _named(value):
    """The values of one of R's lists by their names."""
    values, attributes = value
    return dict(zip(attributes[b"names"][0], values))


def polylines(value) -> List[List[Tuple[float, float]]]:
    """All matrices of two columns named coords in an object: the lines of a layer."""
    made = []

    def walk(each):
        if isinstance(each, tuple):
            values, attributes = each
            if b"coords" in attributes and isinstance(attributes[b"coords"], tuple):
                numbers, shape = attributes[b"coords"]
                rows = shape[b"dim"][0][0]
                made.append(list(zip(numbers[:rows], numbers[rows:])))
            for inside in attributes.values():
                walk(inside)
            walk(values)
        elif isinstance(each, list):
            for inside in each:
                walk(inside)

    walk(value[1][b"lines"])
    return made


# ---- fewer points


def simplified(line: List[Tuple[float, float]], tolerance: float) -> List[Tuple[float, float]]:
    """Douglas and Peucker's: ends, and what lies farther than the tolerance from the line between kept points."""
    keep = {0, len(line) - 1}
    work = [(0, len(line) - 1)]
    while work:
        first, last = work.pop()
        (ax, ay), (bx, by) = line[first], line[last]
        dx, dy = bx - ax, by - ay
        farthest, where = tolerance, None
        for k in range(first + 1, last):
            x, y = line[k][0] - ax, line[k][1] - ay
            along = min(1.0, max(0.0, (x * dx + y * dy) / (dx * dx + dy * dy))) if dx or dy else 0.0
            apart = ((x - along * dx) ** 2 + (y - along * dy) ** 2) ** 0.5
            if apart > farthest:
                farthest, where = apart, k
        if where is not None:
            keep.add(where)
            work += [(first, where), (where, last)]
    return [line[k] for k in sorted(keep)]


def outline(layer, tolerance: float) -> List[List[Point]]:
    made = []
    for line in polylines(layer):
        points = [(round(x), round(y)) for x, y in simplified([(10 * x, 10 * y) for x, y in line], tolerance)]
        points = [p for k, p in enumerate(points) if k == 0 or p != points[k - 1]]
        if len(points) > 2 or (len(points) == 2 and line[0] != line[-1]):
            made.append(points)
    return made


def encoded(line: List[Point]) -> str:
    steps = [line[0]] + [(b[0] - a[0], b[1] - a[1]) for a, b in zip(line, line[1:])]
    return " ".join(f"{x} {y}" for x, y in steps)


def read(text: str) -> List[List[Point]]:
    made = []
    for words in (line.split() for line in text.splitlines() if not line.startswith("#")):
        x = y = 0
        made.append([(x := x + int(a), y := y + int(b)) for a, b in zip(words[::2], words[1::2])])
    return made


# ---- a picture


def draw(lines: List[List[Point]], path: str, scale: float = 0.5):
    """A grey picture, longitude to the right, latitude up, so many pixels a tenth of a degree."""
    width, height = int(3600 * scale) + 1, int(1800 * scale) + 1
    pixels = [bytearray(b"\xff" * width) for _ in range(height)]
    for line in lines:
        for (ax, ay), (bx, by) in zip(line, line[1:]):
            steps = max(1, int(max(abs(bx - ax), abs(by - ay)) * scale * 2))
            for k in range(steps + 1):
                x, y = ax + (bx - ax) * k / steps, ay + (by - ay) * k / steps
                pixels[int((900 - y) * scale)][int((1800 + x) * scale)] = 0

    def chunk(name: bytes, data: bytes) -> bytes:
        return struct.pack(">I", len(data)) + name + data + struct.pack(">I", zlib.crc32(name + data))

    body = zlib.compress(b"".join(b"\0" + row for row in pixels), 9)
    head = struct.pack(">IIBBBBB", width, height, 8, 0, 0, 0, 0)
    Path(path).write_bytes(b"\x89PNG\r\n\x1a\n" + chunk(b"IHDR", head) + chunk(b"IDAT", body) + chunk(b"IEND", b""))


def main():
    if sys.argv[1] == "--draw":
        draw(read(Path(sys.argv[2]).read_text("ascii")), sys.argv[3])
        return
    layer = sys.argv[2] if len(sys.argv) > 2 else "coastline110"
    tolerance = float(sys.argv[3]) if len(sys.argv) > 3 else 1.0
    folder = Path(sys.argv[1]) / "usr/lib/R/site-library/rnaturalearthdata/data"
    lines = outline(loaded(folder, layer), tolerance)
    text = HEAD.format(layer=layer, tolerance=tolerance) + "".join(encoded(line) + "\n" for line in lines)
    assert read(text) == lines
    print(text, end="")
    print(f"{len(lines)} polylines, {sum(map(len, lines))} points, {len(text)} bytes", file=sys.stderr)


if __name__ == "__main__":
    main()
