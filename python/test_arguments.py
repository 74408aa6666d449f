"""What the module accepts: whole numbers, floats, bytes and buffers, and the messages for everything else.

python3 python/test_arguments.py
"""

import array
import ctypes
import dataclasses
import math
import mmap
import unittest
from dataclasses import fields, replace
from decimal import Decimal
from fractions import Fraction
from pathlib import Path

import clock
import ukhtvaresh
from ukhtvaresh import (
    Closest,
    Degrees,
    Elements,
    End,
    Enter,
    Graze,
    Head,
    Hours,
    Leave,
    Node,
    NotWhole,
    Open,
    Phase,
    Refused,
    Request,
    Row,
    Share,
    StarRequest,
    Station,
    State,
    Survey,
    Window,
)

try:
    import numpy
except ImportError:
    numpy = None

EXAMPLES = Path(__file__).resolve().parent.parent / "examples"
MOSCOW = (EXAMPLES / "moscow1954.bin").read_bytes()
POTSDAM = (EXAMPLES / "potsdam1956.bin").read_bytes()  # a star
REQUEST, STAR = Request.from_bytes(MOSCOW), StarRequest.from_bytes(POTSDAM)
ROWS = [
    Row(*map(int, line.split()))
    for line in (EXAMPLES / "rows1954.txt").read_text().splitlines()
    if line and not line.startswith("#")
]
FLOATS, LONGITUDE = ukhtvaresh.doubles(REQUEST.elements, REQUEST.station.longitude)
SURVEY = Survey(
    FLOATS,
    LONGITUDE,
    REQUEST.station.number,
    REQUEST.station.latitude,
    REQUEST.station.height,
    REQUEST.station.delta_t,
    REQUEST.window,
    REQUEST.guard,
)
ECLIPSE = [*dataclasses.astuple(REQUEST.elements), *dataclasses.astuple(REQUEST.window), REQUEST.guard]
NODES = [Node(REQUEST.station, 0), Node(replace(REQUEST.station, number=7), REQUEST.station.number)]
UNITS = [*dataclasses.astuple(REQUEST.elements), REQUEST.station.longitude]
NUMBERS = [number for row in ROWS for number in dataclasses.astuple(row)]
SIDEREAL = [98_020_009 + 15_041_069 * hour for hour in range(-3, 4)]  # 30 June 1954, 12h universal time
RADII = dataclasses.astuple(ukhtvaresh.DOCUMENT_02)
SIX = (ctypes.c_int64 * 6)()
SHEET = ukhtvaresh.sheet(MOSCOW)
ENTRIES = [
    Head(7, -6000, 6000, 16),
    Enter(Phase.PENUMBRA, -5401, -5399, 2700),
    Graze(Phase.PENUMBRA, -5000, -4000),
    Leave(Phase.PENUMBRA, 5399, 5401, None),
    Open(Phase.CENTRAL, -6000, -5990),
    Closest(0, 1_037_735),
    Share(1_000_000),
    End(),
]


class Index:
    """A whole number of another type, as numpy's are."""

    def __init__(self, value):
        self.value = value

    def __index__(self):
        return self.value


# Not whole numbers, or not numbers.
WRONG = (55.755, 7.0, math.nan, math.inf, True, False, "7", b"7", None, Decimal(7), Fraction(7), 7j, [7], Window(7, 7))


def with_field(value, name, changed):
    return replace(value, **{name: changed})


def with_item(items, at, changed):
    return [*items[:at], changed, *items[at + 1 :]]


class WholeNumbers(unittest.TestCase):
    def takes_only_whole_numbers(self, name, call, good, unit=""):
        """A call of one value takes whole numbers of any type; all else raises with the field's name and the value."""
        self.assertEqual(call(Index(good)), call(good))
        for wrong in WRONG:
            with self.subTest(field=name, value=wrong), self.assertRaises(NotWhole) as caught:
                call(wrong)
            self.assertIsInstance(caught.exception, TypeError)
            self.assertIsInstance(caught.exception, ValueError)
            said = str(caught.exception)
            self.assertTrue(said.startswith(name), said)
            self.assertIn("must be a whole number (int)", said)
            self.assertIn(repr(wrong), said)
            self.assertIn(unit, said)

    def each_field(self, value, call, of=""):
        """The same for each field of a dataclass."""
        for field in fields(value):
            good = getattr(value, field.name)
            self.takes_only_whole_numbers(
                field.name + of, lambda number: call(with_field(value, field.name, number)), good
            )

    def test_the_messages(self):
        said = [
            (
                "latitude must be a whole number (int) in 10^-6 degree, not 55.755 (float)",
                lambda: ukhtvaresh.sheet_of_doubles(replace(SURVEY, latitude=55.755)),
            ),
            (
                "delta_t must be a whole number (int) in hundredths of a second, not 68.8 (float)",
                lambda: ukhtvaresh.sheet_of_doubles(replace(SURVEY, delta_t=68.8)),
            ),
            (
                "longitude must be a whole number (int) in 10^-6 degree, not 179.999 (float)",
                lambda: ukhtvaresh.doubles(REQUEST.elements, 179.999),
            ),
            (
                "first must be a whole number (int) in seconds, not True (bool)",
                lambda: replace(REQUEST, window=Window(True, 10)).to_bytes(),
            ),
            ("n must be a whole number (int), not 2.5 (float)", lambda: ukhtvaresh.root(2.5)),
            (
                "from_ of entry 1, Enter, must be a whole number (int) in seconds, not -5401.5 (float)",
                lambda: ukhtvaresh.write(with_item(ENTRIES, 1, replace(ENTRIES[1], from_=-5401.5))),
            ),
            (
                "latitude of station 1 in the list must be a whole number (int) in 10^-6 degree, not 55.755 (float)",
                lambda: ukhtvaresh.network(
                    REQUEST.elements, REQUEST.window, [NODES[0], Node(replace(REQUEST.station, latitude=55.755), 0)]
                ),
            ),
        ]
        for words, call in said:
            with self.assertRaises(NotWhole) as caught:
                call()
            self.assertEqual(str(caught.exception), words)

    def test_requests(self):
        self.each_field(REQUEST.elements, lambda elements: replace(REQUEST, elements=elements).to_bytes())
        self.each_field(REQUEST.station, lambda station: replace(REQUEST, station=station).to_bytes())
        self.each_field(REQUEST.window, lambda window: replace(REQUEST, window=window).to_bytes())
        self.takes_only_whole_numbers("guard", lambda guard: replace(REQUEST, guard=guard).to_bytes(), 16)
        self.assertEqual(REQUEST.to_bytes(), MOSCOW)

    def test_star_requests(self):
        self.each_field(STAR.elements, lambda elements: replace(STAR, elements=elements).to_bytes())
        self.each_field(STAR.station, lambda station: replace(STAR, station=station).to_bytes())
        self.each_field(STAR.window, lambda window: replace(STAR, window=window).to_bytes())
        self.takes_only_whole_numbers("radius", lambda radius: replace(STAR, radius=radius).to_bytes(), 27_250_000)
        self.takes_only_whole_numbers("guard", lambda guard: replace(STAR, guard=guard).to_bytes(), 16)
        self.assertEqual(STAR.to_bytes(), POTSDAM)

    def test_numbers_that_do_not_fit_a_requests_bytes(self):
        for request in (REQUEST, STAR):
            for part, name, low, high in (
                ("elements", "x0", -(2**31), 2**31 - 1),
                ("elements", "mu2", -(2**31), 2**31 - 1),
                ("station", "number", 0, 2**16 - 1),
                ("station", "latitude", -(2**31), 2**31 - 1),
                ("station", "delta_t", -(2**31), 2**31 - 1),
                ("window", "first", -(2**15), 2**15 - 1),
                ("window", "last", -(2**15), 2**15 - 1),
            ):
                for value in (low, high):
                    changed = replace(request, **{part: with_field(getattr(request, part), name, value)})
                    self.assertEqual(type(request).from_bytes(changed.to_bytes()), changed)
                for value in (low - 1, high + 1, 2**70, -(2**70)):
                    changed = replace(request, **{part: with_field(getattr(request, part), name, value)})
                    with self.assertRaises(ValueError) as caught:
                        changed.to_bytes()
                    self.assertTrue(str(caught.exception).startswith(f"{name} does not fit"), caught.exception)
                    self.assertIn(str(value), str(caught.exception))

    def test_seconds(self):
        for call in (ukhtvaresh.second, ukhtvaresh.share, ukhtvaresh.horizon):
            self.takes_only_whole_numbers("second", lambda second: call(MOSCOW, second), 36, "seconds")
        for call in (ukhtvaresh.star_second, ukhtvaresh.star_horizon):
            self.takes_only_whole_numbers("second", lambda second: call(POTSDAM, second), 20, "seconds")

    def test_seconds_of_a_contact(self):
        penumbra = ukhtvaresh.Phase.PENUMBRA
        self.takes_only_whole_numbers("from_", lambda from_: ukhtvaresh.contact(MOSCOW, penumbra, from_, 36), 35, "seconds")
        self.takes_only_whole_numbers("to", lambda to: ukhtvaresh.contact(MOSCOW, penumbra, 35, to), 36, "seconds")
        for phase in (0, "penumbra", None):
            with self.assertRaises(TypeError):
                ukhtvaresh.contact(MOSCOW, phase, 35, 36)

    def test_surveys(self):
        for name in "number latitude height delta_t guard".split():
            self.takes_only_whole_numbers(
                name, lambda value: ukhtvaresh.sheet_of_doubles(with_field(SURVEY, name, value)), getattr(SURVEY, name)
            )
        self.each_field(SURVEY.window, lambda window: ukhtvaresh.sheet_of_doubles(replace(SURVEY, window=window)))
        for value in (2**63, 2**70, -(2**70)):
            with self.assertRaises(Refused) as caught:
                ukhtvaresh.sheet_of_doubles(replace(SURVEY, latitude=value))
            self.assertEqual((caught.exception.number, caught.exception.place), (3, 1))

    def test_doubles(self):
        names = [field.name for field in fields(Elements)] + ["longitude"]
        for at, name in enumerate(names):
            self.takes_only_whole_numbers(
                name,
                lambda value: ukhtvaresh.doubles_into(with_item(UNITS, at, value), (ctypes.c_double * 23)()),
                UNITS[at],
            )
        self.takes_only_whole_numbers("longitude", lambda value: ukhtvaresh.doubles(REQUEST.elements, value), UNITS[22])
        self.takes_only_whole_numbers("longitude", lambda value: ukhtvaresh.doubles(UNITS[:22], value), UNITS[22])
        self.each_field(REQUEST.elements, lambda elements: ukhtvaresh.doubles(elements, 0))

    def test_networks(self):
        names = [field.name for field in fields(Elements)] + ["first", "last", "guard"]
        for at, name in enumerate(names):
            self.takes_only_whole_numbers(
                name,
                lambda value: ukhtvaresh.network_into(with_item(ECLIPSE, at, value), NODES, (ctypes.c_uint64 * 64)()),
                ECLIPSE[at],
            )

        def asked(nodes):
            return ukhtvaresh.network(REQUEST.elements, REQUEST.window, nodes, REQUEST.guard)

        self.each_field(REQUEST.station, lambda station: asked([Node(station, 0)]), " of station 0 in the list")
        self.takes_only_whole_numbers("clock of station 0", lambda clock: asked([Node(REQUEST.station, clock)]), 0)
        self.each_field(REQUEST.elements, lambda elements: ukhtvaresh.network(elements, REQUEST.window, NODES))
        self.each_field(REQUEST.window, lambda window: ukhtvaresh.network(REQUEST.elements, window, NODES))
        self.takes_only_whole_numbers(
            "guard", lambda guard: ukhtvaresh.network(REQUEST.elements, REQUEST.window, NODES, guard), 16
        )

    def test_rows(self):
        for at in (0, 20, 41):
            self.takes_only_whole_numbers(
                f"number {at} of rows",
                lambda value: ukhtvaresh.from_tables_into(with_item(NUMBERS, at, value), (ctypes.c_int64 * 56)()),
                NUMBERS[at],
            )
        self.each_field(ROWS[3], lambda row: ukhtvaresh.from_tables(with_item(ROWS, 3, row)), " of row 3")
        for value in (2**63, -(2**63) - 1):
            with self.assertRaises(ValueError) as caught:
                ukhtvaresh.from_tables(with_item(ROWS, 3, replace(ROWS[3], moon_z=value)))
            self.assertEqual(str(caught.exception), f"moon_z of row 3 does not fit 64 bits: {value} (int)")

    def test_fits(self):
        good, table = [0, 0, 0, 0], [0] * 7
        for at in range(4):
            self.takes_only_whole_numbers(
                f"coefficient {at}", lambda value: ukhtvaresh.fit(with_item(good, at, value), table, 0), 0
            )
        for at in range(7):
            self.takes_only_whole_numbers(
                f"tabulated value {at}", lambda value: ukhtvaresh.fit(good, with_item(table, at, value), 0), 0
            )
        self.takes_only_whole_numbers("tolerance", lambda value: ukhtvaresh.fit(good, table, value), 0)
        self.assertIsNone(ukhtvaresh.fit(iter(good), iter(table), 0))

    def test_roots(self):
        self.takes_only_whole_numbers("n", ukhtvaresh.root, 10)
        for n in (-1, 2**64):
            with self.assertRaises(ValueError) as caught:
                ukhtvaresh.root(n)
            self.assertEqual(str(caught.exception), f"n must be 0 to 2^64 - 1, not {n} (int)")

    def test_entries(self):
        self.assertEqual(ukhtvaresh.read(ukhtvaresh.write(ENTRIES)), ENTRIES)
        for at, entry in enumerate(ENTRIES):
            for field in fields(entry):
                good = getattr(entry, field.name)
                if field.name == "phase":
                    for wrong in ("penumbra", None, 0x10, State):
                        with self.assertRaises(TypeError) as caught:
                            ukhtvaresh.write(with_item(ENTRIES, at, replace(entry, phase=wrong)))
                        self.assertIn(f"phase of entry {at}", str(caught.exception))
                elif good is not None:  # None is a direction
                    for wrong in (value for value in WRONG if field.name != "direction" or value is not None):
                        with self.assertRaises(NotWhole) as caught:
                            ukhtvaresh.write(with_item(ENTRIES, at, with_field(entry, field.name, wrong)))
                        words = f"{field.name} of entry {at}, {type(entry).__name__}, must be a whole number"
                        self.assertTrue(str(caught.exception).startswith(words), caught.exception)
                    changed = with_field(entry, field.name, Index(good))
                    self.assertEqual(ukhtvaresh.write(with_item(ENTRIES, at, changed)), ukhtvaresh.write(ENTRIES))
        for wrong in (None, 7, (0x7F,), "end", Phase.STAR):
            with self.assertRaises(TypeError) as caught:
                ukhtvaresh.write(with_item(ENTRIES, 7, wrong))
            self.assertIn("entry 7 must be an entry", str(caught.exception))

    @unittest.skipIf(numpy is None, "numpy is not there")
    def test_numpys_numbers(self):
        for kind in (numpy.int8, numpy.uint16, numpy.int32, numpy.int64, numpy.uint64):
            self.assertEqual(ukhtvaresh.second(MOSCOW, kind(36)), ukhtvaresh.second(MOSCOW, 36))
        self.assertEqual(ukhtvaresh.second(MOSCOW, numpy.array(36)), ukhtvaresh.second(MOSCOW, 36))
        floats = [numpy.float64(36), numpy.float32(36), numpy.array(36.0)]
        for wrong in (*floats, numpy.bool_(True), numpy.array([36, 37])):
            self.assertRaises(NotWhole, ukhtvaresh.second, MOSCOW, wrong)


class OtherModules(unittest.TestCase):
    def test_clock_times(self):
        instant = clock.Instant.read(b"2017-08-21 18:00:00 ET")
        self.assertEqual(clock.times(instant, Index(6_880), Index(-5), 7), clock.times(instant, 6_880, -5, 7))
        for wrong in (68.8, 7.0, True, "7", None):
            for name, call in [
                ("delta_t", lambda: clock.times(instant, wrong, 0, 1)),
                ("second", lambda: clock.times(instant, 0, wrong, 1)),
                ("second", lambda: clock.times(instant, 0, 0, wrong)),
                ("delta_t", lambda: clock.nearest(instant, wrong, 0)),
                ("second", lambda: clock.nearest(instant, 0, wrong)),
            ]:
                with self.assertRaises(TypeError) as caught:
                    call()
                self.assertTrue(str(caught.exception).startswith(f"{name} must be a whole number"), caught.exception)


class OtherTypes(unittest.TestCase):
    def refused_as(self, words, call, *given):
        with self.assertRaises(TypeError) as caught:
            call(*given)
        self.assertIn(words, str(caught.exception))

    def test_parts_of_a_request(self):
        self.refused_as("elements must be of type Elements", replace(REQUEST, elements=UNITS[:22]).to_bytes)
        self.refused_as("elements must be of type Elements", replace(REQUEST, elements=STAR.elements).to_bytes)
        self.refused_as("elements must be of type StarElements", replace(STAR, elements=REQUEST.elements).to_bytes)
        self.refused_as("station must be of type Station", replace(REQUEST, station=(1, 2, 3, 4, 5)).to_bytes)
        self.refused_as("window must be of type Window", replace(REQUEST, window=(0, 1)).to_bytes)
        self.refused_as("window must be of type Window", ukhtvaresh.sheet_of_doubles, replace(SURVEY, window=(0, 1)))
        self.refused_as("survey must be of type Survey", ukhtvaresh.sheet_of_doubles, REQUEST)
        self.refused_as("row 2 must be of type Row", ukhtvaresh.from_tables, with_item(ROWS, 2, NUMBERS[:6]))
        stations = [NODES[0], REQUEST.station]
        self.refused_as(
            "station 1 in the list must be of type Node", ukhtvaresh.network, REQUEST.elements, REQUEST.window, stations
        )

    def test_lists(self):
        steps = (ctypes.c_uint64 * 64)()
        for wrong in (None, 7, 7.5, REQUEST):
            for name, call in [
                ("entries", ukhtvaresh.write),
                ("entries", lambda entries: ukhtvaresh.write_into(entries, bytearray(9))),
                ("coefficients", lambda coefficients: ukhtvaresh.fit(coefficients, [0] * 7, 0)),
                ("tabulated", lambda tabulated: ukhtvaresh.fit([0] * 4, tabulated, 0)),
                ("rows", ukhtvaresh.from_tables),
                ("rows", lambda rows: ukhtvaresh.from_tables_into(rows, (ctypes.c_int64 * 56)())),
                ("elements", lambda elements: ukhtvaresh.doubles(elements, 0)),
                ("elements", lambda elements: ukhtvaresh.sheet_of_doubles(replace(SURVEY, elements=elements))),
                ("units", lambda units: ukhtvaresh.doubles_into(units, (ctypes.c_double * 23)())),
                ("eclipse", lambda eclipse: ukhtvaresh.network_into(eclipse, NODES, steps)),
                ("stations", lambda stations: ukhtvaresh.network_into(ECLIPSE, stations, steps)),
                ("stations", lambda stations: ukhtvaresh.network(REQUEST.elements, REQUEST.window, stations)),
            ]:
                self.refused_as(f"{name} must be a list or another iterable, not {wrong!r}"[:60], call, wrong)

    def test_longitudes(self):
        for wrong in (37.6, 37, None, "37", (37.6,), Phase.STAR):  # a Phase has a value too
            given = replace(SURVEY, longitude=wrong)
            self.refused_as("longitude must be Degrees(..) or Hours(..)", ukhtvaresh.sheet_of_doubles, given)

    def test_floats(self):
        def element(value):
            return ukhtvaresh.sheet_of_doubles(replace(SURVEY, elements=with_item(FLOATS, 2, value)))

        for same in (0, 0.0, Decimal(0), Fraction(0), -0.0):
            self.assertEqual(element(same), element(0.0))
        self.assertEqual(element(Fraction(1, 2**20)), element(2.0**-20))
        for wrong in ("0.5", b"0", None, True, 0j, [0.0], Degrees(0.0)):
            self.refused_as(f"element 2 must be a float, not {wrong!r}", element, wrong)
            given = replace(SURVEY, longitude=Hours(wrong))
            self.refused_as("longitude must be a float", ukhtvaresh.sheet_of_doubles, given)
        for rounded in (Decimal("0.1"), Fraction(1, 3), 2**53 + 1, 10**400):
            with self.assertRaises(ValueError) as caught:
                element(rounded)
            self.assertIn("element 2 must be a float, and no float has exactly the value", str(caught.exception))
        for endless in (math.nan, math.inf, -math.inf, Decimal("nan"), Decimal("inf")):
            with self.assertRaises(Refused) as caught:
                element(endless)
            self.assertEqual((caught.exception.number, caught.exception.place), (12, 2))

    def test_bytes(self):
        takers = [
            ("request", Request.from_bytes),
            ("request", StarRequest.from_bytes),
            ("request", ukhtvaresh.sheet_and_share),
            ("request", ukhtvaresh.star),
            ("request", lambda request: ukhtvaresh.sheet_into(request, bytearray(100))),
            ("request", lambda request: ukhtvaresh.sheet_and_share_into(request, bytearray(100))),
            ("request", lambda request: ukhtvaresh.star_into(request, bytearray(100))),
            ("request", lambda request: ukhtvaresh.second(request, 0)),
            ("request", lambda request: ukhtvaresh.star_second(request, 0)),
            ("request", lambda request: ukhtvaresh.share(request, 0)),
            ("request", lambda request: ukhtvaresh.horizon(request, 0)),
            ("request", lambda request: ukhtvaresh.star_horizon(request, 0)),
            ("request", lambda request: ukhtvaresh.contact(request, ukhtvaresh.Phase.PENUMBRA, 0, 1)),
            ("request", lambda request: ukhtvaresh.star_contact(request, 0, 1)),
            ("request", ukhtvaresh.mirror),
            ("sheet", ukhtvaresh.read),
            ("sheet", ukhtvaresh.listing),
            ("file", ukhtvaresh.mend),
            ("file", lambda file: ukhtvaresh.mend_into(file, bytearray(100), bytearray(100))),
        ]
        others = [array.array("i", [2]), (ctypes.c_uint32 * 9)()]
        for name, call in takers:
            for wrong in (115, 0, True, "text", None, 1.5, REQUEST, [2] * 115, *others):
                self.refused_as(f"{name} must be bytes", call, wrong)
        self.refused_as("(Request): call its to_bytes()", ukhtvaresh.star, REQUEST)
        # `sheet` takes a request and a typed text as well
        for wrong in (115, 0, True, None, 1.5, [2] * 115, *others):
            self.refused_as("request must be bytes", ukhtvaresh.sheet, wrong)
        self.assertEqual(ukhtvaresh.sheet(Request.from_bytes(MOSCOW)), SHEET)
        forms = [bytearray(MOSCOW), memoryview(MOSCOW), array.array("B", MOSCOW)]
        for form in (*forms, ctypes.create_string_buffer(MOSCOW, 115)):
            self.assertEqual(ukhtvaresh.sheet(form), SHEET)
            self.assertEqual(Request.from_bytes(form), REQUEST)


BYTES = (ctypes.c_uint8, "B", 100)
# Each function that writes to a buffer: how it is called; the buffer's name; its elements as ctypes and array.array
# have them, and how many of them are enough.
INTO = [
    ("sheet_into", lambda room: ukhtvaresh.sheet_into(MOSCOW, room), "buffer", *BYTES),
    ("sheet_and_share_into", lambda room: ukhtvaresh.sheet_and_share_into(MOSCOW, room), "buffer", *BYTES),
    ("star_into", lambda room: ukhtvaresh.star_into(POTSDAM, room), "buffer", *BYTES),
    ("write_into", lambda room: ukhtvaresh.write_into(ENTRIES, room), "buffer", *BYTES),
    ("sheet_of_doubles_into", lambda room: ukhtvaresh.sheet_of_doubles_into(SURVEY, room), "buffer", *BYTES),
    ("mend_into", lambda room: ukhtvaresh.mend_into(SHEET, room, bytearray(99)), "sheets", *BYTES),
    ("mend_into", lambda room: ukhtvaresh.mend_into(SHEET[1:], bytearray(99), room), "dropped", *BYTES),
    ("from_tables_into", lambda room: ukhtvaresh.from_tables_into(NUMBERS, room), "values", ctypes.c_int64, "q", 56),
    (
        "elements_into",
        lambda room: ukhtvaresh.elements_into(NUMBERS, SIDEREAL, RADII, 1000, room, SIX),
        *("elements", ctypes.c_int64, "q", 22),
    ),
    ("doubles_into", lambda room: ukhtvaresh.doubles_into(UNITS, room), "room", ctypes.c_double, "d", 23),
    ("network_into", lambda room: ukhtvaresh.network_into(ECLIPSE, NODES, room), "steps", ctypes.c_uint64, "Q", 64),
]
ELEMENTS = (
    *(ctypes.c_uint8, ctypes.c_int16, ctypes.c_uint16, ctypes.c_int32, ctypes.c_uint32, ctypes.c_int64),
    ctypes.c_uint64,
    *(ctypes.c_float, ctypes.c_double, ctypes.c_bool, ctypes.c_void_p, ukhtvaresh._Node),
)


class Buffers(unittest.TestCase):
    def refused_untouched(self, call, words, buffer, held):
        """TypeError with words, and the memory as it was, which is shown by `held`."""
        before = bytes(held)
        with self.assertRaises(TypeError) as caught:
            call(buffer)
        self.assertIn(words, str(caught.exception))
        self.assertEqual(bytes(held), before)

    def test_every_such_function_is_here(self):
        public = {name for name in vars(ukhtvaresh) if name.endswith("_into")}
        self.assertEqual(public, {name for name, *_ in INTO})

    def test_element_types(self):
        for function, call, name, element, letter, count in INTO:
            expected = call((element * count)())
            for other in ELEMENTS:
                if other is element:
                    continue
                # the memory around the buffer would show what is written past it
                around = bytearray(b"\xa5" * 8192)
                size = ctypes.sizeof(other)
                for length in (1, count, 56, 64):
                    buffer = (other * length).from_buffer(around, 1024)
                    with self.subTest(function=function, element=other.__name__, length=length):
                        self.refused_untouched(call, f"{name} must be a writable buffer of", buffer, around)
                    with self.assertRaises(TypeError) as caught:
                        call(buffer)
                    self.assertIn(f"has {size} byte", str(caught.exception))
            self.assertEqual(call(array.array(letter, [0] * count)), expected)
            self.assertEqual(call(memoryview(array.array(letter, [0] * count))), expected)
            other_order = {"q": ">q", "Q": ">Q", "d": ">d"}.get(letter)
            if numpy is not None and other_order:
                self.refused_untouched(call, name, numpy.zeros(count, other_order), b"")

    def test_read_only_memory(self):
        for function, call, name, element, letter, count in INTO:
            held = array.array(letter, [0] * count)
            with self.subTest(function=function):
                view = memoryview(held).toreadonly()
                self.refused_untouched(call, f"{name} must be a writable buffer of", view, held)
                self.refused_untouched(call, "this memoryview is read-only", view, held)
        held = mmap.mmap(-1, 4096, access=mmap.ACCESS_READ)
        self.refused_untouched(INTO[0][1], "this mmap is read-only", held, held)
        self.refused_untouched(INTO[0][1], "this bytes is read-only", SHEET, SHEET)

    def test_no_memory(self):
        for _, call, name, *_ in INTO:
            for wrong in (None, 100, "text", [0] * 64, (0,) * 64, object(), 1.5):
                self.refused_untouched(call, f"{name} must be a writable buffer of", wrong, b"")

    def test_gaps(self):
        for function, call, name, element, letter, count in INTO:
            held = array.array(letter, [0] * (2 * count))
            with self.subTest(function=function):
                self.refused_untouched(call, "follow one another", memoryview(held)[::2], held)
                self.refused_untouched(call, f"{name} must be a writable buffer of", memoryview(held)[::-1], held)

    def test_what_lies_past_the_buffer_is_kept(self):
        for function, call, name, element, letter, count in INTO:
            size = ctypes.sizeof(element)
            for length in sorted({0, 1, count - 1, count}):
                around = bytearray(b"\xa5" * 8192)
                if length:
                    buffer = (element * length).from_buffer(around, 1024)
                else:
                    buffer = memoryview(around)[:0].cast(letter)
                with self.subTest(function=function, length=length):
                    try:
                        call(buffer)
                    except Refused as refused:
                        self.assertIn(refused.number, (4, 10))
                        self.assertEqual(around, b"\xa5" * 8192)
                    self.assertEqual(around[:1024], b"\xa5" * 1024)
                    self.assertEqual(around[1024 + size * length :], b"\xa5" * (7168 - size * length))

    def test_overlaps(self):
        file = SHEET * 3 + b"\x00" + SHEET
        held = bytearray(len(file) + 200)
        size = len(file)
        for start, end in ((0, 16), (1, 17), (size - 1, size + 15), (0, size), (size - 16, size)):
            with self.assertRaises(ValueError) as caught:
                ukhtvaresh.mend_into(file, memoryview(held)[:size], memoryview(held)[start:end])
            self.assertIn("sheets and dropped overlap", str(caught.exception))
            with self.assertRaises(ValueError):
                ukhtvaresh.mend_into(file, memoryview(held)[start:end], memoryview(held)[:size])
        with self.assertRaises(ValueError):
            ukhtvaresh.mend_into(file, held, held)
        self.assertEqual(held, bytes(len(held)))
        # side by side they do not overlap, and no bytes overlap none
        kept, noted = ukhtvaresh.mend_into(file, memoryview(held)[:size], memoryview(held)[size : size + 16])
        self.assertEqual((kept, noted, bytes(held[:kept])), (len(SHEET) * 4, 16, SHEET * 4))
        self.assertEqual(ukhtvaresh.mend_into(SHEET, memoryview(held)[:50], memoryview(held)[10:10]), (len(SHEET), 0))

    def test_an_input_may_be_the_output(self):
        held = bytearray(SHEET + b"\x00" + SHEET)
        kept, noted = ukhtvaresh.mend_into(held, held, bytearray(16))
        self.assertEqual((bytes(held[:kept]), noted), (SHEET * 2, 16))
        held = bytearray(MOSCOW)
        length = ukhtvaresh.sheet_into(held, held)
        self.assertEqual(bytes(held), SHEET + MOSCOW[length:])
        held = array.array("q", NUMBERS + [0] * 14)
        expected = array.array("q", [0] * 56)
        ukhtvaresh.from_tables_into(NUMBERS, expected)
        self.assertEqual(ukhtvaresh.from_tables_into(memoryview(held)[:42], held), 56)
        self.assertEqual(held, expected)

    @unittest.skipIf(numpy is None, "numpy is not there")
    def test_numpys_arrays(self):
        types = {"B": numpy.uint8, "q": numpy.int64, "d": numpy.float64, "Q": numpy.uint64}
        for _, call, name, element, letter, count in INTO:
            expected = call((element * count)())
            self.assertEqual(call(numpy.zeros(count, types[letter])), expected)
            self.refused_untouched(call, "follow one another", numpy.zeros(2 * count, types[letter])[::2], b"")
            self.refused_untouched(call, name, numpy.zeros(count, "datetime64[s]"), b"")


if __name__ == "__main__":
    unittest.main()
