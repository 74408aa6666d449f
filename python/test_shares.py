"""How much of the Sun is gone (document 02, wish 4), through the module: in a sheet, at a second, read, written and
listed.

python3 python/test_shares.py
"""

import struct
import unittest
from dataclasses import replace
from pathlib import Path

from ukhtvaresh import (
    Closest,
    End,
    Head,
    Refused,
    Request,
    Share,
    State,
    Window,
    listing,
    mirror,
    read,
    second,
    share,
    sheet,
    sheet_and_share,
    sheet_and_share_into,
    write,
    write_into,
)

EXAMPLES = Path(__file__).resolve().parent.parent / "examples"
MOSCOW, KIEV, HOPKINSVILLE = (
    (EXAMPLES / f"{name}.bin").read_bytes() for name in ("moscow1954", "kiev1954", "hopkinsville2017")
)

ENTRIES = [Head(7, 0, 0, 16), Closest(0, 512_345), Share(405_728), End()]
RECORDS = [0, 9, 16, 21]  # the first byte of each record


class Shares(unittest.TestCase):
    def refuses(self, number, place, call, *arguments):
        with self.assertRaises(Refused) as caught:
            call(*arguments)
        self.assertEqual((caught.exception.number, caught.exception.place), (number, place))

    def refuses_into(self, number, place, call, given, length=64):
        """The refusal, and the buffer as it was."""
        buffer = bytearray(b"\xa5" * length)
        self.refuses(number, place, call, given, buffer)
        self.assertEqual(buffer, b"\xa5" * length)

    def test_the_share_stands_after_the_closest(self):
        for request, expected in ((MOSCOW, 843_499), (KIEV, 1_000_000), (HOPKINSVILLE, 1_000_000)):
            plain, shared = sheet(request), sheet_and_share(request)
            entries = read(plain)
            self.assertEqual(share(request, entries[-2].second), expected)
            self.assertEqual(read(shared), entries[:-1] + [Share(expected), End()])
            self.assertEqual(write(read(shared)), shared)
            self.assertEqual(listing(shared), listing(plain) + f"share {expected}\n")

    def test_room_for_the_sheet(self):
        shared = sheet_and_share(MOSCOW)
        buffer = bytearray(b"\xa5" * 64)
        self.assertEqual(sheet_and_share_into(MOSCOW, buffer), len(shared))
        self.assertEqual(buffer, shared.ljust(64, b"\xa5"))
        for length in (len(shared) - 1, 0):
            self.refuses_into(4, len(shared), sheet_and_share_into, MOSCOW, length)

    def test_shares_of_seconds(self):
        self.assertEqual([share(MOSCOW, at) for at in (-10_800, 0, 8_000, 10_800)], [0] * 4)
        growing = [share(MOSCOW, at) for at in range(36, 4_116, 100)]
        self.assertTrue(all(a < b for a, b in zip(growing, growing[1:])))
        whole = set()
        for at in range(-10_800, 10_801, 20):
            covered, shadow = share(KIEV, at), second(KIEV, at)
            self.assertLessEqual(covered, 1_000_000)
            if shadow.central is State.INSIDE:
                whole.add(covered)
            if shadow.penumbra is State.OUTSIDE:
                self.assertEqual(covered, 0)
        self.assertEqual(whole, {1_000_000})

    def test_an_annular_eclipse_leaves_a_ring(self):
        # Kiev under a central cone that ends above the ground: near the square of the radii's ratio
        request = Request.from_bytes(KIEV)
        request = replace(request, elements=replace(request.elements, l2_0=2_000_000)).to_bytes()
        closest, covered = read(sheet_and_share(request))[-3:-1]
        self.assertIs(second(request, closest.second).central, State.INSIDE)
        self.assertLess(abs(covered.share - closest.magnitude**2 / 1e6), 50)

    def test_requests_refused(self):
        request = Request.from_bytes(MOSCOW)
        for number, place, changed in (
            (1, 0, replace(request, window=Window(1, 0)).to_bytes()),
            (1, 1, replace(request, guard=15).to_bytes()),
            (2, 21, replace(request, elements=replace(request.elements, tan_f2=0)).to_bytes()),
            (3, 3, replace(request, station=replace(request.station, height=9_001)).to_bytes()),
            (10, 0, MOSCOW[1:]),
        ):
            self.refuses_into(number, place, sheet_and_share_into, changed)
            self.refuses(number, place, sheet_and_share, changed)
            self.refuses(number, place, share, changed, 0)
        for far in (-10_801, 10_801, 2**64, -(2**64)):
            self.refuses(1, 0, share, MOSCOW, far)
            self.refuses(1, 0, share, replace(request, guard=15).to_bytes(), far)
            self.refuses(10, 0, share, MOSCOW[1:], far)

    def test_sheets_refused(self):
        stored = write(ENTRIES)
        self.assertEqual(stored[16:], bytes([0x31, 0, 6, 0x30, 0xE0, 0x7F]))
        for length in range(len(stored)):
            self.refuses(6, max(at for at in RECORDS if at <= length), read, stored[:length])
        for millionths in (0, 1, 1_000_000):
            self.assertEqual(read(stored[:17] + struct.pack(">I", millionths) + stored[21:])[2], Share(millionths))
        for millionths in (1_000_001, 2**24, 2**32 - 1):
            changed = stored[:17] + struct.pack(">I", millionths) + stored[21:]
            self.refuses(7, 16, read, changed)
            self.refuses(7, 16, listing, changed)
        record = stored[16:21]
        self.refuses(8, 0, read, record + stored)
        self.refuses(8, 9, read, stored[:9] + record + stored[9:])
        self.refuses(8, 21, read, stored[:21] + record + stored[21:])
        self.refuses(9, 22, read, stored + record)

    def test_entries_refused(self):
        head, closest, covered, end = ENTRIES
        for millionths in (-1, 1_000_001, 2**32, 2**64):
            self.refuses_into(7, 16, write_into, [head, closest, Share(millionths), end])
        self.refuses_into(8, 9, write_into, [head, covered, closest, end])
        self.refuses_into(8, 21, write_into, [head, closest, covered, covered, end])
        self.refuses_into(9, 17, write_into, [head, closest, end, covered])
        self.refuses_into(6, 21, write_into, [head, closest, covered])

    def test_mirrors(self):
        for north in (MOSCOW, KIEV):
            south = mirror(north)
            self.assertEqual(read(sheet_and_share(north))[-3:], read(sheet_and_share(south))[-3:])
            for at in range(-10_800, 10_801, 900):
                self.assertEqual(share(north, at), share(south, at))


if __name__ == "__main__":
    unittest.main()
