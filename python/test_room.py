"""The buffer for the sine table that a caller of the library provides (document 02, wish 8), and the module's own.

python3 python/test_room.py
"""

import ctypes
import threading
import unittest
from dataclasses import replace
from pathlib import Path

import ukhtvaresh
from ukhtvaresh import Request, second, share, sheet, sheet_and_share, star

EXAMPLES = Path(__file__).resolve().parent.parent / "examples"
MOSCOW = (EXAMPLES / "moscow1954.bin").read_bytes()
POTSDAM = (EXAMPLES / "potsdam1956.bin").read_bytes()  # a star
PAST = 64  # numbers past the buffer, which nobody may write
LENGTHS = (0, 900, 901, 902)


def old(lent):
    return [(at * 0x9E37_79B9) % 2**32 ^ 0xA5A5_5A5A for at in range(lent + PAST)]


def called(name, request, between, lent, *room):
    """Number, value, and what the buffer of so many numbers holds, with those past its end."""
    sines = (ctypes.c_uint32 * (lent + PAST))(*old(lent))
    value = ctypes.c_uint64()
    function = getattr(ukhtvaresh._library, "ukhtvaresh_" + name)
    number = function(request, len(request), *between, sines, lent, *room, ctypes.byref(value))
    return number, value.value, list(sines)


SHEETS = ("sheet", "sheet_and_share")


def sheet_of(name, request, lent, length):
    return called(name, request, (), lent, ctypes.create_string_buffer(length + 1), length)


def share_of(request, at, lent):
    return called("share", request, (at,), lent)


def second_of(request, at, lent, length):
    return called("second", request, (at,), lent, (ctypes.c_int64 * (length + 1))(), length)


class Room(unittest.TestCase):
    def filled(self, sines):
        """Document 01's entries 0, 300 and 900, that each is more than the one before it, and what lies past the
        table."""
        self.assertEqual((sines[0], sines[300], sines[900]), (0, 50_000_000, 100_000_000))
        self.assertTrue(all(a < b for a, b in zip(sines[:900], sines[1:901])))
        self.assertEqual(sines[901:], old(len(sines) - PAST)[901:])

    def test_only_the_last_4_leaves_it_filled(self):
        needed = {name: sheet_of(name, MOSCOW, 901, 1000)[1] for name in SHEETS}
        self.assertEqual(needed["sheet_and_share"], needed["sheet"] + 5)
        for lent in LENGTHS:
            calls = [
                (sheet_of(name, MOSCOW, lent, length), length, whole)
                for name, whole in needed.items()
                for length in (0, whole - 1, whole, whole + 1)
            ]
            calls += [(sheet_of("star", POTSDAM, lent, length), length, 31) for length in (0, 30, 31, 32)]
            calls.append((share_of(MOSCOW, 4_115, lent), 843_499, 843_499))
            calls += [(second_of(MOSCOW, 0, lent, length), length, 8) for length in (0, 7, 8, 9)]
            for (number, value, sines), length, whole in calls:
                if lent < 901:
                    self.assertEqual((number, value, sines), (4, 901, old(lent)))
                else:
                    self.assertEqual((number, value), (4 if length < whole else 0, whole))
                    self.filled(sines)

    def test_other_refusals_leave_it(self):
        request = Request.from_bytes(MOSCOW)
        refused = [
            (1, 0, replace(request, window=replace(request.window, last=10_801)).to_bytes()),
            (2, 0, replace(request, elements=replace(request.elements, x0=200_000_001)).to_bytes()),
            (3, 3, replace(request, station=replace(request.station, height=9_001)).to_bytes()),
            (10, 0, MOSCOW[1:]),
        ]
        for lent in LENGTHS:
            for number, place, changed in refused:
                for name in SHEETS:
                    self.assertEqual(sheet_of(name, changed, lent, 0), (number, place, old(lent)))
                self.assertEqual(second_of(changed, 0, lent, 0), (number, place, old(lent)))
                self.assertEqual(share_of(changed, 0, lent), (number, place, old(lent)))
            self.assertEqual(sheet_of("star", POTSDAM[1:], lent, 0), (10, 0, old(lent)))
            self.assertEqual(sheet_of("star", POTSDAM[:49] + bytes(4) + POTSDAM[53:], lent, 0), (13, 0, old(lent)))
            self.assertEqual(second_of(MOSCOW, 10_801, lent, 0), (1, 0, old(lent)))
            self.assertEqual(share_of(MOSCOW, 10_801, lent), (1, 0, old(lent)))

    def test_the_modules_own_serves_every_call(self):
        def once():
            return sheet(MOSCOW), second(MOSCOW, 36), sheet_and_share(MOSCOW), share(MOSCOW, 36), star(POTSDAM)

        expected = once()
        answers = []

        def run():
            answers.extend(once() for _ in range(3))

        threads = [threading.Thread(target=run) for _ in range(4)]
        for thread in threads:
            thread.start()
        for thread in threads:
            thread.join()
        self.assertEqual(answers, [expected] * 12)
        self.assertIs(ukhtvaresh._sines()[0], ukhtvaresh._sines()[0])


if __name__ == "__main__":
    unittest.main()
