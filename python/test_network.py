"""The whole network in one list (document 02, wish 10), through the module: steps, the first station, every refusal
in its order, and the buffer for the sine table.

python3 python/test_network.py
"""

import ctypes
import sys
import unittest
from dataclasses import astuple, replace
from pathlib import Path

import ukhtvaresh
from ukhtvaresh import (
    STATIONS,
    Enter,
    Network,
    Node,
    Phase,
    Refused,
    Request,
    Station,
    Window,
    horizon,
    network,
    network_into,
    read,
    sheet,
)

TOP = Path(__file__).resolve().parent.parent
EXAMPLES = TOP / "examples"
sys.path.append(str(TOP / "tests"))
import network as typed  # noqa: E402  the reader of typed lists

MOSCOW = Request.from_bytes((EXAMPLES / "moscow1954.bin").read_bytes())
KIEV = Request.from_bytes((EXAMPLES / "kiev1954.bin").read_bytes())
OLD = 0xA5A5_A5A5_A5A5_A5A5  # what a buffer for steps holds before a call


def listed(*clocks):
    """Moscow again and again, with these numbers and clocks."""
    return [Node(replace(MOSCOW.station, number=number), clock) for number, clock in clocks]


def said(stations, request=MOSCOW):
    return network(request.elements, request.window, stations, request.guard)


def numbers(request):
    return [*astuple(request.elements), *astuple(request.window), request.guard]


def enter_alone(node, request=MOSCOW):
    """The "to" of the first enter penumbra in the sheet that the station gets alone."""
    entries = read(sheet(replace(request, station=node.station).to_bytes()))
    return next((entry.to for entry in entries if isinstance(entry, Enter) and entry.phase is Phase.PENUMBRA), None)


class Lists(unittest.TestCase):
    def refuses(self, number, place, stations, request=MOSCOW):
        """The refusal, and the steps as they were."""
        with self.assertRaises(Refused) as caught:
            said(stations, request)
        self.assertEqual((caught.exception.number, caught.exception.place), (number, place))
        self.refuses_into(number, place, numbers(request), stations)

    def refuses_into(self, number, place, eclipse, stations, room=STATIONS):
        steps = (ctypes.c_uint64 * room)(*[OLD] * room)
        with self.assertRaises(Refused) as caught:
            network_into(eclipse, stations, steps)
        self.assertEqual((caught.exception.number, caught.exception.place), (number, place))
        self.assertEqual(list(steps), [OLD] * room)

    def test_steps_from_the_antenna(self):
        self.assertEqual(said(listed((7, 0))), Network([1], 7))
        self.assertEqual(said(listed((9, 8), (8, 7), (7, 0))).steps, [3, 2, 1])
        self.assertEqual(said(listed((1, 0), (2, 1), (3, 1), (4, 2), (5, 0), (999, 4))).steps, [1, 2, 2, 3, 1, 4])
        chain = listed(*((number, number - 1) for number in range(1, 65)))
        self.assertEqual(said(chain).steps, list(range(1, 65)))
        self.assertEqual(said(chain[::-1]).steps, list(range(64, 0, -1)))
        self.assertEqual(said(iter(chain)).steps, list(range(1, 65)))
        steps = (ctypes.c_uint64 * STATIONS)(*[OLD] * STATIONS)
        self.assertEqual(network_into(numbers(MOSCOW), chain[:3], steps), 1)
        self.assertEqual(list(steps), [1, 2, 3] + [0] * 61)

    def test_the_first_station_by_the_sheets(self):
        stations = listed((30, 0), (20, 30), (10, 20), (40, 0))
        self.assertEqual(said(stations).first, 30)  # all at one place: the first in the list
        places = [(0, 0), (0, -10_000_000), (34_000_000, 0), (-105_000_000, 0)]
        for place, (north, east) in enumerate(places):
            station = stations[place].station
            moved = replace(station, latitude=station.latitude + north, longitude=station.longitude + east)
            stations[place] = replace(stations[place], station=moved)
        enters = [enter_alone(node) for node in stations]
        self.assertEqual((enters[0], enters[3]), (36, None))
        earliest = min(to for to in enters if to is not None)
        self.assertEqual(said(stations).first, stations[enters.index(earliest)].station.number)
        self.assertNotEqual(enters.index(earliest), 0)
        # Kiev is a second ahead of Moscow
        two = [Node(MOSCOW.station, 102), Node(KIEV.station, 0)]
        self.assertEqual((said(two), [enter_alone(node) for node in two]), (Network([2, 1], 102), [36, 35]))
        # a window in which nobody enters
        self.assertEqual(said(two, replace(MOSCOW, window=Window(4_000, 10_800))), Network([2, 1], None))

    def test_eleven_clocks_and_one_antenna(self):
        eclipse, stations = typed.read((EXAMPLES / "eleven1954.network.txt").read_bytes())
        nodes = [Node(Station(*numbers[:5]), numbers[5]) for numbers in stations]
        request = replace(MOSCOW, window=Window(*eclipse[22:24]), guard=eclipse[24])
        self.assertEqual((list(astuple(request.elements)), len(nodes)), (eclipse[:22], 11))
        answer = said(nodes, request)
        lines = [f"station {node.station.number} steps {steps}" for node, steps in zip(nodes, answer.steps)]
        enters = {node.station.number: enter_alone(node, request) for node in nodes}
        to = min(enters.values())
        named = next(node.station for node in nodes if node.station.number == answer.first)
        sun = "up" if horizon(replace(request, station=named).to_bytes(), to).altitude >= 0 else "down"
        lines.append(f"first {answer.first} to {to} sun {sun}")
        self.assertEqual(lines, (EXAMPLES / "eleven1954.network.listing").read_text().splitlines())

    def test_refusals_in_their_order(self):
        self.refuses(14, 2, listed((1, 1), (2, 9), (2, 0)))
        self.refuses(15, 1, listed((1, 1), (2, 9), (3, 0)))
        self.refuses(16, 1, listed((1, 0), (4, 3), (3, 5), (5, 3)))
        self.refuses(16, 0, listed((1, 1)))
        for clock in (-1, 1_000, -(2**63), 2**63 - 1, 2**64, -(2**70)):
            self.refuses(15, 1, listed((1, 0), (2, clock)))
        bad = Node(Station(1_000, -(2**70), 2**70, 9_001, 20_001), 1)
        good = Station(2, 0, 0, 0, 0)
        first, last = listed((1, 1), (2, 9))
        for field, name in reversed(list(enumerate("number latitude longitude height delta_t".split()))):
            good = replace(good, **{name: getattr(bad.station, name)})
            self.refuses(3, 10 + field, [first, Node(good, 1), last])
        stations = [Node(replace(MOSCOW.station, number=0), 1), bad]
        self.refuses(3, 0, stations)
        request = replace(MOSCOW, elements=replace(MOSCOW.elements, tan_f2=0))
        self.refuses(2, 21, stations, request)
        request = replace(request, guard=1_001)
        self.refuses(1, 1, stations, request)
        request = replace(request, window=Window(1, 0))
        self.refuses(1, 0, stations, request)
        for count in (0, 65, 1_000):
            self.refuses(19, 0, stations[:1] * count, request)
        for length, room in ((24, 64), (26, 64), (0, 64), (25, 63), (25, 65), (25, 0)):
            self.refuses_into(10, 0, [0] * length, [], room)
        self.assertEqual(str(Refused(19, 0)), "refused 19 0: a list of no station or of more than 64")
        self.assertEqual(str(Refused(16, 3)), "refused 16 3: a station whose chain of clocks never reaches 0")

    def test_the_room_for_the_sine_table(self):
        def called(stations, lent):
            """Number, value, steps, and what the buffer of so many numbers holds, with 64 past its end."""
            sines = (ctypes.c_uint32 * (lent + 64))(*[7] * (lent + 64))
            steps = (ctypes.c_uint64 * STATIONS)(*[OLD] * STATIONS)
            nodes = (ukhtvaresh._Node * len(stations))(
                *(ukhtvaresh._Node(*astuple(node.station), node.clock) for node in stations)
            )
            eclipse = (ctypes.c_int64 * 25)(*numbers(MOSCOW))
            value = ctypes.c_uint64()
            call = ukhtvaresh._library.ukhtvaresh_network
            number = call(eclipse, 25, nodes, len(stations), sines, lent, steps, STATIONS, ctypes.byref(value))
            return number, value.value, list(steps), list(sines)

        for lent in (0, 900):
            self.assertEqual(called(listed((1, 0)), lent), (4, 901, [OLD] * 64, [7] * (lent + 64)))
        for lent in (901, 902):
            number, value, steps, sines = called(listed((1, 0), (2, 1)), lent)
            self.assertEqual((number, value, steps), (0, 1, [1, 2] + [0] * 62))
            self.assertEqual((sines[0], sines[300], sines[900]), (0, 50_000_000, 100_000_000))
            self.assertEqual(sines[901:], [7] * (lent + 64 - 901))
            self.assertEqual(called(listed((1, 1)), lent), (16, 0, [OLD] * 64, [7] * (lent + 64)))


if __name__ == "__main__":
    unittest.main()
