"""A file of sheets mended. Run: python3 -m unittest discover python"""

import random
import sys
import time
import unittest
from pathlib import Path

import ukhtvaresh
from ukhtvaresh import Mended, Refused, Stretch, mend, mend_into

TOP = Path(__file__).resolve().parent.parent
sys.path.append(str(TOP / "tests"))
import mend as words  # noqa: E402  document 02's words, over a reader of their own

SHEETS = b"".join(words.sheets())


class Mending(unittest.TestCase):
    def agree(self, file):
        kept, stretches = words.mend(file)
        mended = mend(file)
        self.assertEqual(mended, Mended(kept, [Stretch(*stretch) for stretch in stretches]))
        self.assertEqual(mend(mended.sheets), Mended(mended.sheets, []))

    def test_holes(self):
        """Of every length at every place of a file of three sheets: bytes that are missing, and bytes that are 1."""
        for start in range(len(SHEETS)):
            for end in range(start + 1, len(SHEETS) + 1):
                self.agree(SHEETS[:start] + SHEETS[end:])
                self.agree(SHEETS[:start] + bytes([1]) * (end - start) + SHEETS[end:])

    def test_any_bytes(self):
        draw = random.Random(1)
        for _ in range(300):
            file = bytearray(SHEETS * draw.randrange(4) + draw.randbytes(draw.randrange(40)) + SHEETS)
            for _ in range(draw.randrange(20)):
                file[draw.randrange(len(file))] = draw.choice([0, 1, 0x13, 0x7F, draw.randrange(256)])
            self.agree(bytes(file))

    def test_shortest_sheet(self):
        sheet = words.sheets()[0]
        self.assertEqual(mend(b"?" + sheet + b"?"), Mended(sheet, [Stretch(0, 1), Stretch(18, 1)]))

    def test_year_file(self):
        """100,000 sheets, and the same with a hole in it."""
        year = ukhtvaresh.sheet(TOP.joinpath("examples/moscow1954.bin").read_bytes()) * 100_000
        self.assertEqual(mend(year), Mended(year, []))
        length = len(year) // 100_000
        mended = mend(year[:1_000_000] + year[1_000_001:])
        hole = 1_000_000 // length * length
        self.assertEqual(mended, Mended(year[length:], [Stretch(hole, length - 1)]))

    def test_nested_beginnings(self):
        file = words.repeated(1_000_000)
        started = time.monotonic()
        self.assertEqual(mend(file), Mended(b"", [Stretch(0, len(file))]))
        self.assertLess(time.monotonic() - started, 10)

    def test_rooms(self):
        file = SHEETS + b"?"
        for room, notes, needed in ((len(SHEETS) - 1, 0, len(SHEETS)), (len(SHEETS), 15, 16), (len(SHEETS), 0, 16)):
            sheets, dropped = bytearray(b"7" * room), bytearray(b"7" * notes)
            with self.assertRaises(Refused) as refused:
                mend_into(file, sheets, dropped)
            self.assertEqual((refused.exception.number, refused.exception.place), (4, needed))
            self.assertEqual((sheets, dropped), (b"7" * room, b"7" * notes))
        sheets, dropped = bytearray(b"7" * 200), bytearray(b"7" * 20)
        self.assertEqual(mend_into(file, sheets, dropped), (len(SHEETS), 16))
        self.assertEqual(sheets, SHEETS + b"7" * (200 - len(SHEETS)))
        self.assertEqual(dropped, len(SHEETS).to_bytes(8, "big") + (1).to_bytes(8, "big") + b"7" * 4)


if __name__ == "__main__":
    unittest.main()
