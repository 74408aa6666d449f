"""Stars behind the Moon (document 02, wish 7), through the module: sheets made, refused, read, written, listed and
mended.

python3 python/test_stars.py
"""

import sys
import unittest
from dataclasses import astuple, replace
from pathlib import Path

from ukhtvaresh import (
    STAR_REQUEST_LENGTH,
    Closest,
    End,
    Enter,
    Graze,
    Head,
    Leave,
    Mended,
    Open,
    Phase,
    Refused,
    Request,
    Share,
    StarElements,
    StarRequest,
    StarSecond,
    State,
    Station,
    Window,
    listing,
    mend,
    read,
    second,
    sheet,
    star,
    star_into,
    star_second,
    write,
    write_into,
)

TOP = Path(__file__).resolve().parent.parent
sys.path.append(str(TOP / "tests"))
import star_examples  # noqa: E402  the books' occultations in double precision

STAR = Phase.STAR

# Over the north pole, which does not turn, 10,000 units a second: the edge is there at -2725 and 2725.
OVER_THE_POLE = StarRequest(
    StarElements(x1=36_000_000, y0=99_664_768, mu1=15_000_000),
    27_250_000,
    Station(number=7, latitude=90_000_000, longitude=0, height=0, delta_t=0),
    Window(-6000, 6000),
)
ENTRIES = [
    Head(7, -6000, 6000, 16),
    Enter(STAR, -2726, -2724, 2700),
    Leave(STAR, 2724, 2726, 900),
    Closest(0, 0),
    End(),
]
LISTING = "station 7 from -6000 to 6000\nenter star -2726 -2724 2700\nleave star 2724 2726 900\nclosest 0 0\n"
RECORDS = [0, 9, 16, 23, 30]  # the first byte of each record

X = [(-200_000_000, 200_000_000), (-100_000_000, 100_000_000), (-100_000, 100_000), (-10_000, 10_000)]
RANGES = [*X, *X, (-30_000_000, 30_000_000), (0, 359_999_999), (14_900_000, 15_100_000), (-100, 100)]


def example(name):
    return (TOP / "examples" / name).read_bytes()


class Stars(unittest.TestCase):
    def refuses(self, number, place, call, *arguments):
        with self.assertRaises(Refused) as caught:
            call(*arguments)
        self.assertEqual((caught.exception.number, caught.exception.place), (number, place))

    def refuses_into(self, number, place, call, given, length=64):
        """The refusal, and the buffer as it was."""
        buffer = bytearray(b"\xa5" * length)
        self.refuses(number, place, call, given, buffer)
        self.assertEqual(buffer, b"\xa5" * length)

    def refuses_request(self, number, place, request):
        self.refuses_into(number, place, star_into, request)
        self.refuses(number, place, star, request)

    def test_over_the_pole_by_hand(self):
        request = OVER_THE_POLE.to_bytes()
        stored = star(request)
        self.assertEqual(read(stored), ENTRIES)
        self.assertEqual(write(ENTRIES), stored)
        self.assertEqual(listing(stored), LISTING)
        buffer = bytearray(b"\xa5" * 40)
        self.assertEqual(star_into(request, buffer), 31)
        self.assertEqual(buffer, stored.ljust(40, b"\xa5"))
        for length in (30, 0):
            self.refuses_into(4, 31, star_into, request, length)

    def test_the_books_occultations(self):
        made = {"potsdam1956": star_examples.potsdam(), "kansas1949": star_examples.kansas()}
        for name, units, _ in star_examples.requests():
            request = example(name + ".bin")
            self.assertEqual(request, star_examples.packed(units))
            self.assertEqual(StarRequest.from_bytes(request).to_bytes(), request)
            self.assertEqual(listing(star(request)), example(name + ".listing").decode())
            # each contact lies between its two seconds in double precision too
            _, enter, leave, closest, _ = read(star(request))
            vanishes, appears = (made[name].contact(outside, closest.second)[0] for outside in (-5400, 9000))
            self.assertTrue(enter.from_ < vanishes < enter.to and leave.from_ < appears < leave.to)
            self.assertLessEqual(abs(made[name].closest() - closest.second), 1)
        # the book predicts 18:12:47.93 universal time, 19.93 s of ephemeris time from the reference instant
        self.assertLess(abs(made["potsdam1956"].contact(-600, 600)[0] - 19.93), 0.1)

    def test_grazes_and_opens(self):
        grazing = replace(OVER_THE_POLE.elements, x0=27_250_500, x1=0, y1=36_000_000)
        request = replace(OVER_THE_POLE, elements=grazing, window=Window(-60, 60), guard=1_000)
        self.assertEqual(read(star(request.to_bytes()))[1], Graze(STAR, -17, 17))
        request = replace(OVER_THE_POLE, window=Window(2725, 2730))
        self.assertEqual(read(star(request.to_bytes()))[1], Open(STAR, 2725, 2726))

    def test_seconds_over_the_pole(self):
        request = OVER_THE_POLE.to_bytes()
        outside = dict.fromkeys((-10_800, -2726, 2726, 10_800), State.OUTSIDE)
        states = outside | dict.fromkeys((-2724, 2724), State.INSIDE) | dict.fromkeys((-2725, 2725), State.UNSURE)
        for at, state in states.items():
            direction = 2700 if at < 0 else 900
            self.assertEqual(star_second(request, at), StarSecond(10_000 * at, 0, 27_250_000, state, direction))
        self.assertEqual(star_second(request, 0), StarSecond(0, 0, 27_250_000, State.INSIDE, None))
        for at in (-10_801, 10_801, 2**70, -(2**70)):
            self.refuses(1, 0, star_second, request, at)
        refused = replace(OVER_THE_POLE, station=replace(OVER_THE_POLE.station, height=9_001))
        self.refuses(3, 3, star_second, refused.to_bytes(), 0)
        refused = replace(refused, radius=0)
        self.refuses(13, 0, star_second, refused.to_bytes(), 0)
        refused = replace(refused, elements=replace(refused.elements, d0=30_000_001))
        self.refuses(2, 8, star_second, refused.to_bytes(), 0)
        refused = replace(refused, guard=15)
        self.refuses(1, 1, star_second, refused.to_bytes(), 0)
        self.refuses(1, 0, star_second, refused.to_bytes(), 10_801)
        self.refuses(10, 0, star_second, example("moscow1954.bin"), 0)
        self.refuses(10, 0, second, request, 0)

    def test_seconds_as_on_the_sheets(self):
        for name in ("potsdam1956", "kansas1949"):
            request = example(name + ".bin")
            _, enter, leave, _, _ = read(star(request))
            states = [star_second(request, at).state for at in (enter.from_, enter.to, leave.from_, leave.to)]
            self.assertEqual(states, [State.OUTSIDE, State.INSIDE, State.INSIDE, State.OUTSIDE])
            self.assertEqual(star_second(request, enter.to).direction, enter.direction)
            self.assertEqual(star_second(request, leave.from_).direction, leave.direction)

    def test_requests_refused_in_order(self):
        short = replace(OVER_THE_POLE, window=Window(0, 10))
        for field, (low, high) in enumerate(RANGES):
            for number in (low, high, low - 1, high + 1):
                numbers = list(astuple(short.elements))
                numbers[field] = number
                request = replace(short, elements=StarElements(*numbers))
                if low <= number <= high:
                    star(request.to_bytes())
                    continue
                # with all that comes later
                request = replace(request, radius=0, station=replace(request.station, height=9_001))
                self.refuses_request(2, field, request.to_bytes())
                request = replace(request, guard=1_001)
                self.refuses_request(1, 1, request.to_bytes())
                request = replace(request, window=Window(1, 0))
                self.refuses_request(1, 0, request.to_bytes())
        for radius in (27_200_000, 27_300_000):
            star(replace(short, radius=radius).to_bytes())
        for radius in (27_199_999, 27_300_001, 0, -(2**31), 2**31 - 1):
            request = replace(short, radius=radius)
            self.refuses_request(13, 0, request.to_bytes())
            request = replace(request, station=replace(request.station, number=0))
            self.refuses_request(13, 0, request.to_bytes())
        self.refuses_request(3, 4, replace(short, station=replace(short.station, delta_t=20_001)).to_bytes())
        self.assertEqual(str(Refused(13, 0)), "refused 13 0: the radius of a star request outside its range")

    def test_shapes_refused(self):
        request = OVER_THE_POLE.to_bytes()
        self.assertEqual((len(request), request[0], request[53], request[72]), (STAR_REQUEST_LENGTH, 5, 3, 4))
        kinds = [request[:at] + b"\x02" + request[at + 1 :] for at in (0, 53, 72)]
        moscow = example("moscow1954.bin")
        for shape in (b"", request[:78], request + b"\0", moscow, *kinds):
            self.refuses_request(10, 0, shape)
            self.refuses(10, 0, StarRequest.from_bytes, shape)
        self.refuses(10, 0, sheet, request)
        self.refuses(10, 0, Request.from_bytes, request)
        with self.assertRaises(ValueError):
            replace(OVER_THE_POLE, radius=2**31).to_bytes()

    def test_stars_and_eclipses_do_not_mix(self):
        head, enter, leave, closest, end = ENTRIES
        for phase in (Phase.PENUMBRA, Phase.CENTRAL):
            graze = Graze(phase, 2730, 2740)
            self.refuses_into(8, 14, write_into, [head, graze, enter, closest, end])
            self.refuses_into(8, 16, write_into, [head, enter, graze, closest, end])
            self.refuses_into(8, 23, write_into, [head, enter, leave, graze, closest, end])
        self.refuses_into(8, 23, write_into, [head, enter, closest, Share(0), end])
        self.assertEqual(read(write([head, closest, Share(0), end]))[2], Share(0))
        for magnitude in (1, 1_300_000, 2**32):
            self.refuses_into(7, 16, write_into, [head, enter, Closest(0, magnitude), end])
        stored = write(ENTRIES)
        for at, byte, number, place in (
            (16, 0x11, 8, 16), (9, 0x20, 8, 16), (16, 0x40, 8, 16), (16, 0x44, 5, 16), (29, 1, 7, 23)
        ):
            changed = stored[:at] + bytes([byte]) + stored[at + 1 :]
            self.refuses(number, place, read, changed)
            self.refuses(number, place, listing, changed)
        for length in range(31):
            self.refuses(6, max(at for at in RECORDS if at <= length), read, stored[:length])

    def test_a_year_file_with_both(self):
        file = write(ENTRIES) + sheet(example("moscow1954.bin")) + write(ENTRIES)
        self.assertEqual(mend(file), Mended(file, []))


if __name__ == "__main__":
    unittest.main()
