"""Document 01's run cases through the module: the hand-worked sheet, two real eclipses, every refusal, round trips.

python3 python/test_ukhtvaresh.py
"""

import unittest
from dataclasses import astuple, replace
from pathlib import Path

from ukhtvaresh import (
    REQUEST_LENGTH,
    Closest,
    Elements,
    End,
    Enter,
    Graze,
    Head,
    Leave,
    Open,
    Phase,
    Refused,
    Request,
    State,
    Station,
    Window,
    extent,
    listing,
    mirror,
    read,
    second,
    sheet,
    sheet_into,
    sheets,
    write,
    write_into,
)

PENUMBRA, CENTRAL = Phase.PENUMBRA, Phase.CENTRAL

# Document 01's hand-worked sheet: its request, entries and listing.
HAND_WORKED = Request(
    Elements(
        x1=36_000_000,
        y0=99_664_768,
        l1_0=54_000_000,
        l2_0=-1_000_000,
        mu1=15_000_000,
        tan_f1=460_000,
        tan_f2=458_000,
    ),
    Station(number=7, latitude=90_000_000, longitude=0, height=0, delta_t=0),
    Window(-6000, 6000),
)
ENTRIES = [
    Head(7, -6000, 6000, 16),
    Enter(PENUMBRA, -5401, -5399, 2700),
    Leave(PENUMBRA, 5399, 5401, 900),
    Enter(CENTRAL, -101, -99, 2700),
    Leave(CENTRAL, 99, 101, 900),
    Closest(0, 1_037_735),
    End(),
]
LISTING = """\
station 7 from -6000 to 6000
enter penumbra -5401 -5399 2700
leave penumbra 5399 5401 900
enter central -101 -99 2700
leave central 99 101 900
closest 0 1037735
"""
RECORDS = [0, 9, 16, 23, 30, 37, 44]  # the first byte of each record

X = [(-200_000_000, 200_000_000), (-100_000_000, 100_000_000), (-100_000, 100_000), (-10_000, 10_000)]
RANGES = [
    *X,
    *X,
    *[(-25_000_000, 25_000_000), (-20_000, 20_000), (-100, 100)],
    *[(50_000_000, 60_000_000), (-100_000, 100_000), (-10_000, 10_000)],
    *[(-5_000_000, 5_000_000), (-100_000, 100_000), (-10_000, 10_000)],
    *[(0, 359_999_999), (14_900_000, 15_100_000), (-100, 100)],
    *[(400_000, 500_000), (400_000, 500_000)],
]
STATION_RANGES = [(1, 999), (-90_000_000, 90_000_000), (-180_000_000, 180_000_000), (-500, 9_000), (-10_000, 20_000)]


def example(name):
    return (Path(__file__).resolve().parent.parent / "examples" / name).read_bytes()


def put(numbers, place, number):
    numbers = list(numbers)
    numbers[place] = number
    return numbers


def damaged(*changes):
    """The hand-worked sheet with some bytes changed."""
    stored = bytearray(write(ENTRIES))
    for at, byte in changes:
        stored[at] = byte
    return bytes(stored)


class Case(unittest.TestCase):
    def refuses(self, number, place, call, *arguments):
        with self.assertRaises(Refused) as caught:
            call(*arguments)
        self.assertEqual((caught.exception.number, caught.exception.place), (number, place))

    def refuses_into(self, number, place, call, given, length=64):
        """The refusal, and the buffer as it was."""
        buffer = bytearray(b"\xa5" * length)
        self.refuses(number, place, call, given, buffer)
        self.assertEqual(buffer, b"\xa5" * length)

    def refuses_request(self, number, place, request):
        self.refuses_into(number, place, sheet_into, request)
        self.refuses(number, place, sheet, request)


class Sheets(Case):
    def test_hand_worked_sheet(self):
        self.assertEqual(read(sheet(HAND_WORKED.to_bytes())), ENTRIES)
        self.assertEqual(listing(write(ENTRIES)), LISTING)

    def test_real_eclipses(self):
        for name in ("moscow1954", "kiev1954"):
            found = listing(sheet(example(name + ".bin")))
            self.assertEqual(found, example(name + ".listing").decode())

    def test_sheets_of_a_year_file(self):
        stored = write(ENTRIES)
        self.assertEqual(extent(stored), len(stored))
        self.assertEqual(extent(stored + b"\0"), len(stored))
        self.assertEqual(list(sheets(stored + stored)), [stored, stored])
        self.assertEqual(list(sheets(b"")), [])
        self.refuses(6, 0, extent, b"")
        self.refuses(6, len(stored) - 1, extent, stored[:-1])
        found = sheets(stored + b"\xff")
        self.assertEqual(next(found), stored)
        self.refuses(5, len(stored), next, found)

    def test_listings_and_their_refusals(self):
        stored = write(ENTRIES)
        self.refuses(6, 44, listing, stored[:44])
        self.refuses(9, 45, listing, stored + b"\0")
        unsure = [Head(999, 5400, 5402, 1000), Open(PENUMBRA, 5400, 5401), Closest(5400, 0), End()]
        self.assertEqual(
            listing(write(unsure)), "station 999 from 5400 to 5402\nopen penumbra 5400 5401\nclosest 5400 0\n"
        )

    def test_open_at_the_windows_end(self):
        for last, to in ((5400, 5400), (5402, 5401)):
            request = replace(HAND_WORKED, window=Window(5400, last))
            self.assertEqual(read(sheet(request.to_bytes()))[1], Open(PENUMBRA, 5400, to))

    def test_buffer_of_45_bytes_and_of_44(self):
        request = HAND_WORKED.to_bytes()
        buffer = bytearray(45)
        self.assertEqual(sheet_into(request, buffer), 45)
        self.assertEqual(buffer, sheet(request))
        for length in (44, 0):
            self.refuses_into(4, 45, sheet_into, request, length)

    def test_bytes_past_the_sheet_are_kept(self):
        for call, given in ((sheet_into, HAND_WORKED.to_bytes()), (write_into, ENTRIES)):
            buffer = bytearray(b"\xa5" * 64)
            self.assertEqual(call(given, buffer), 45)
            self.assertEqual(buffer[45:], b"\xa5" * 19)

    def test_request_in_the_buffer_itself(self):
        buffer = bytearray(HAND_WORKED.to_bytes())
        self.assertEqual(sheet_into(buffer, buffer), 45)
        self.assertEqual(read(buffer[:45]), ENTRIES)


class Requests(Case):
    def test_window_refused(self):
        request = replace(HAND_WORKED, window=Window(-6000, 10_800))
        sheet(request.to_bytes())
        bad = replace(HAND_WORKED.station, latitude=90_000_001)
        for window in (Window(-6000, 10_801), Window(-10_801, 0), Window(1, 0), Window(10_801, 10_801)):
            for station in (HAND_WORKED.station, bad):
                self.refuses_request(1, 0, Request(HAND_WORKED.elements, station, window).to_bytes())

    def test_elements_refused(self):
        short = replace(HAND_WORKED, window=Window(0, 10))
        for field, (low, high) in enumerate(RANGES):
            for number in (low, high, low - 1, high + 1):
                elements = Elements(*put(astuple(short.elements), field, number))
                request = replace(short, elements=elements).to_bytes()
                if low <= number <= high:
                    sheet(request)
                else:
                    self.refuses_request(2, field, request)

    def test_stations_refused(self):
        short = replace(HAND_WORKED, window=Window(0, 10))
        for field, (low, high) in enumerate(STATION_RANGES):
            for number in (low, high, low - 1, high + 1):
                station = Station(*put(astuple(short.station), field, number))
                request = replace(short, station=station).to_bytes()
                if low <= number <= high:
                    sheet(request)
                else:
                    self.refuses_request(3, field, request)

    def test_shapes_refused(self):
        request = HAND_WORKED.to_bytes()
        kinds = [bytes(put(request, kind, 5)) for kind in (0, 89, 108)]
        for shape in (b"", request[:108], request + b"\0", *kinds):
            self.refuses_request(10, 0, shape)
            self.refuses(10, 0, Request.from_bytes, shape)

    def test_requests_as_bytes(self):
        for name in ("moscow1954.bin", "kiev1954.bin"):
            stored = example(name)
            self.assertEqual(len(stored), REQUEST_LENGTH)
            self.assertEqual(Request.from_bytes(stored).to_bytes(), stored)
        moscow = Request.from_bytes(example("moscow1954.bin"))
        self.assertEqual((moscow.elements.x1, moscow.elements.tan_f2), (55341229, 457587))
        self.assertEqual((moscow.station.number, moscow.station.height), (101, 166))
        for request in (
            replace(HAND_WORKED, window=Window(0, 32_768)),
            replace(HAND_WORKED, station=replace(HAND_WORKED.station, number=-1)),
            replace(HAND_WORKED, elements=replace(HAND_WORKED.elements, x0=2**31)),
            replace(HAND_WORKED, guard=-1),
            replace(HAND_WORKED, guard=2**16),
        ):
            with self.assertRaises(ValueError):
                request.to_bytes()

    def test_refusals_as_words(self):
        self.assertEqual(str(Refused(4, 45)), "refused 4 45: sheet longer than the buffer")
        self.assertEqual(str(Refused(1, 0)), "refused 1 0: window outside its range")
        self.assertEqual(str(Refused(1, 1)), "refused 1 1: guard outside its range")
        self.assertEqual(Refused(10, 0).words, "request not of its shape")


class Seconds(Case):
    def test_seconds(self):
        request = HAND_WORKED.to_bytes()
        middle = second(request, 0)
        self.assertEqual((middle.u, middle.v, middle.direction), (0, 0, None))
        self.assertEqual((middle.penumbra, middle.central), (State.INSIDE, State.INSIDE))
        self.assertEqual(middle.magnitude, 1_037_735)
        self.assertLess(middle.l2, 0)
        unsure = second(request, -5400)
        self.assertEqual((unsure.penumbra, unsure.central), (State.UNSURE, State.OUTSIDE))
        self.assertEqual((unsure.u, unsure.direction), (-54_000_000, 2700))
        early = second(request, -10_800)  # outside the window, as far as it may reach
        self.assertEqual((early.penumbra, early.magnitude), (State.OUTSIDE, 0))
        second(request, 10_800)

    def test_seconds_refused(self):
        request = HAND_WORKED.to_bytes()
        for far in (-10_801, 10_801, 2**64, -(2**64), 2**63 - 1):
            self.refuses(1, 0, second, request, far)
        self.refuses(10, 0, second, request[1:], 10_801)
        high = replace(HAND_WORKED, station=replace(HAND_WORKED.station, height=9_001))
        self.refuses(3, 3, second, high.to_bytes(), 0)
        high = replace(high, elements=replace(high.elements, tan_f2=0))
        self.refuses(2, 21, second, high.to_bytes(), 0)


class Reader(Case):
    def test_kinds_refused(self):
        for at in RECORDS:
            self.refuses(5, at, read, damaged((at, 0x14)))

    def test_short_sheets_refused(self):
        for length in range(45):
            place = max(at for at in RECORDS if at <= length)
            self.refuses(6, place, read, damaged()[:length])

    def test_fields_refused(self):
        self.refuses(7, 0, read, damaged((1, 0), (2, 0)))  # station 0
        self.refuses(7, 9, read, damaged((14, 0x0E), (15, 0x10)))  # direction 3,600
        self.refuses(7, 37, read, damaged((40, 1)))  # magnitude of over 16 million

    def test_order_refused(self):
        self.refuses(8, 16, read, damaged((16, 0x10)))  # an enter next to an enter
        self.refuses(8, 9, read, damaged((9, 0x01)))  # a second head
        self.refuses(8, 37, read, damaged((37, 0x7F)))  # no closest

    def test_bytes_after_the_end_refused(self):
        self.refuses(9, 45, read, damaged() + b"\0")


class Writer(Case):
    def test_round_trips(self):
        stored = sheet(HAND_WORKED.to_bytes())
        self.assertEqual(write(read(stored)), stored)
        more = [Graze(PENUMBRA, 5401, 5500), Open(PENUMBRA, 5900, 6000), Open(CENTRAL, -6000, -5990)]
        entries = ENTRIES[:3] + more + [ENTRIES[3], Leave(CENTRAL, 99, 101, None)] + ENTRIES[5:]
        self.assertEqual(read(write(entries)), entries)

    def test_long_sheets(self):
        grazes = [Graze(CENTRAL, 2 * k, 2 * k + 2) for k in range(1000)]
        entries = [ENTRIES[0], *grazes, ENTRIES[5], End()]
        stored = write(entries)
        self.assertEqual(len(stored), 17 + 5 * 1000)
        self.assertEqual(read(stored), entries)

    def test_entries_refused(self):
        for count, at in enumerate(RECORDS):
            self.refuses_into(6, at, write_into, ENTRIES[:count])
        self.refuses_into(9, 45, write_into, ENTRIES + [End()])
        self.refuses_into(8, 16, write_into, [ENTRIES[0], ENTRIES[3], ENTRIES[1]])
        self.refuses_into(4, 45, write_into, ENTRIES, 44)

    def test_entries_that_cannot_be_stored_refused(self):
        for time in (-10_801, 10_801, 2**32 - 10_800, 2**64, -(2**64)):
            widest = put(ENTRIES, 0, Head(7, -10_800, 10_800, 16))
            self.refuses_into(7, 37, write_into, put(widest, 5, Closest(time, 0)))
        for magnitude in (-1, 1_300_001, 2**32):
            self.refuses_into(7, 37, write_into, put(ENTRIES, 5, Closest(0, magnitude)))
        for direction in (-1, 3_600, 65_535, 2**32):
            self.refuses_into(7, 9, write_into, put(ENTRIES, 1, Enter(PENUMBRA, -5401, -5399, direction)))
        for station in (-1, 0, 1_000, 2**16 + 7, 2**32 + 7):
            self.refuses_into(7, 0, write_into, put(ENTRIES, 0, Head(station, -6000, 6000, 16)))
        for guard in (-1, 0, 15, 1_001, 2**16 + 16, 2**32 + 16):
            self.refuses_into(7, 0, write_into, put(ENTRIES, 0, Head(7, -6000, 6000, guard)))


class Guards(Case):
    def test_guards_refused(self):
        self.assertEqual(HAND_WORKED.guard, 16)
        for guard in (16, 17, 999, 1_000):
            request = replace(HAND_WORKED, guard=guard).to_bytes()
            self.assertEqual(Request.from_bytes(request).guard, guard)
            self.assertEqual(read(sheet(request))[0], Head(7, -6000, 6000, guard))
        for guard in (0, 15, 1_001, 65_535):
            request = replace(HAND_WORKED, guard=guard)
            self.refuses_request(1, 1, request.to_bytes())
            self.refuses(1, 1, second, request.to_bytes(), 0)
            request = replace(request, elements=replace(request.elements, x0=200_000_001))
            self.refuses_request(1, 1, request.to_bytes())
            self.refuses(1, 0, second, request.to_bytes(), 10_801)
            self.refuses_request(1, 0, replace(request, window=Window(1, 0)).to_bytes())

    def test_larger_guards_withhold(self):
        elements = HAND_WORKED.elements
        # an axis that goes past the penumbra 500 units off its edge, and one that stands 500 units inside the central
        # cone
        beside = replace(
            HAND_WORKED, elements=replace(elements, x0=54_000_500, x1=0, y1=36_000_000),
            window=Window(-60, 60)
        )
        within = replace(HAND_WORKED, elements=replace(elements, x0=999_500, x1=0), window=Window(0, 2))
        for guard in (16, 499):
            self.assertEqual(len(read(sheet(replace(beside, guard=guard).to_bytes()))), 3)
            request = replace(within, guard=guard).to_bytes()
            self.assertEqual(read(sheet(request))[1], Closest(0, 1_037_735))
            self.assertEqual(second(request, 0).central, State.INSIDE)
        for guard, edge in ((500, 1), (1_000, 24)):
            self.assertEqual(read(sheet(replace(beside, guard=guard).to_bytes()))[1], Graze(PENUMBRA, -edge, edge))
            request = replace(within, guard=guard).to_bytes()
            self.assertEqual(read(sheet(request))[1:3], [Open(CENTRAL, 0, 2), Closest(0, 1_000_009)])
            self.assertEqual(second(request, 0).central, State.UNSURE)

    def test_sheets_of_the_old_form_refused(self):
        stored = write(ENTRIES)  # without the head's guard, which came later
        self.assertEqual(len(stored[:7] + stored[9:]), 43)
        self.refuses(7, 0, read, stored[:7] + stored[9:])
        self.refuses(7, 0, listing, stored[:7] + stored[37:])


class EphemerisTime(Case):
    def test_delta_t_turns_the_station_back(self):
        request = Request.from_bytes(example("hopkinsville2017.bin"))
        self.assertEqual(request.station.delta_t, 6_880)
        west = replace(request.station, delta_t=0, longitude=request.station.longitude - 287_451)
        self.assertEqual(sheet(replace(request, station=west).to_bytes()), sheet(request.to_bytes()))
        enter = read(sheet(request.to_bytes()))[1]
        # 16:56:31.2 to 32.2 universal time
        self.assertEqual((enter.phase, enter.from_, enter.to), (PENUMBRA, -3740, -3739))


def undirected(entry):
    return replace(entry, direction=None) if isinstance(entry, (Enter, Leave)) else entry


class Mirror(Case):
    def test_mirrors(self):
        north = HAND_WORKED.to_bytes()
        south = mirror(north)
        self.assertEqual(mirror(south), north)
        self.assertEqual(Request.from_bytes(south).station.latitude, -HAND_WORKED.station.latitude)
        a, b = read(sheet(north)), read(sheet(south))
        self.assertEqual([undirected(entry) for entry in a], [undirected(entry) for entry in b])
        x, y = second(north, 100), second(south, 100)
        self.assertEqual(
            (x.u, x.v, x.penumbra, x.central, x.magnitude), (y.u, -y.v, y.penumbra, y.central, y.magnitude)
        )

    def test_refused(self):
        self.refuses(10, 0, mirror, b"")


if __name__ == "__main__":
    unittest.main()
