"""The package: its examples, typed texts, year files, rows, refusals with their fields. python3 python/test_package.py

What needs numpy or pandas is skipped where that is missing.
"""

import doctest
import importlib.util
import io
import re
import unittest
from dataclasses import fields, replace
from pathlib import Path

import ukhtvaresh
from ukhtvaresh import HAND_WORKED, Refused, StarRequest, Station, Window, _tables, _texts

TOP = Path(__file__).resolve().parent.parent
EXAMPLES = TOP / "examples"
NAMES = ["moscow1954", "kiev1954", "hopkinsville2017", "potsdam1956", "kansas1949"]
STARS = NAMES[3:]


def stored(name):
    request = (EXAMPLES / f"{name}.bin").read_bytes()
    return ukhtvaresh.star(request) if name in STARS else ukhtvaresh.sheet(request)


class Package(unittest.TestCase):
    def test_doctests(self):
        for module in (ukhtvaresh, _tables, _texts):
            found = doctest.testmod(module)
            self.assertGreater(found.attempted, 2)
            self.assertEqual(found.failed, 0)

    def test_names(self):
        for name in ukhtvaresh.__all__:
            self.assertTrue(hasattr(ukhtvaresh, name), name)
        public = {name for name in vars(ukhtvaresh) if not name.startswith("_")}
        own = {n for n in public if getattr(getattr(ukhtvaresh, n), "__module__", "").startswith("ukhtvaresh")}
        self.assertEqual(own - set(ukhtvaresh.__all__), set())

    def test_version_is_the_same_everywhere(self):
        version = ukhtvaresh.__version__
        for file, form in [
            ("python/pyproject.toml", r'^version = "(.*)"'),
            ("rust/Cargo.toml", r'^version = "(.*)"'),
            ("rust/command/Cargo.toml", r'^version = "(.*)"'),
            ("include/ukhtvaresh.h", r'^#define UKHTVARESH_VERSION "(.*)"'),
        ]:
            self.assertEqual(re.search(form, (TOP / file).read_text("utf-8"), re.M)[1], version, file)

    def test_typed_marker(self):
        self.assertTrue((Path(ukhtvaresh.__file__).parent / "py.typed").is_file())


class Sheets(unittest.TestCase):
    def test_request_text_and_bytes(self):
        for name in NAMES:
            data = (EXAMPLES / f"{name}.bin").read_bytes()
            kind = ukhtvaresh.StarRequest if name in STARS else ukhtvaresh.Request
            self.assertEqual(ukhtvaresh.sheet(kind.from_bytes(data)), stored(name))
            self.assertEqual(ukhtvaresh.sheet((EXAMPLES / f"{name}.txt").read_text("utf-8")), stored(name))
        self.assertEqual(ukhtvaresh.sheet((EXAMPLES / "moscow1954.bin").read_bytes()), stored("moscow1954"))

    def test_year_files(self):
        all_of_them = [stored(name) for name in NAMES]
        year = b"".join(all_of_them)
        self.assertEqual(list(ukhtvaresh.sheets(year)), all_of_them)
        self.assertEqual(list(ukhtvaresh.sheets(io.BytesIO(year))), all_of_them)
        self.assertEqual(list(ukhtvaresh.sheets(b"")), [])
        self.assertEqual(sum(1 for _ in ukhtvaresh.sheets(year * 10_000)), 50_000)
        self.assertEqual(b"".join(ukhtvaresh.sheets(io.BytesIO(year * 5_000))), year * 5_000)
        with self.assertRaises(Refused) as caught:
            list(ukhtvaresh.sheets(year + b"\xff"))
        self.assertEqual((caught.exception.number, caught.exception.place), (5, len(year)))
        with self.assertRaises(Refused) as caught:
            list(ukhtvaresh.sheets(year[:-1]))
        self.assertEqual(caught.exception.number, 6)
        with self.assertRaises(TypeError):
            list(ukhtvaresh.sheets(5))

    def test_a_sheet_longer_than_a_piece(self):
        # An open entry of one second at the window's first second may be repeated without end.
        head, end = [ukhtvaresh.Head(7, 0, 10, 16)], [ukhtvaresh.Closest(5, 0), ukhtvaresh.End()]
        long = ukhtvaresh.write(head + [ukhtvaresh.Open(ukhtvaresh.Phase.PENUMBRA, 0, 0)] * 300_000 + end)
        self.assertGreater(len(long), 1_400_000)
        self.assertEqual(list(ukhtvaresh.sheets(io.BytesIO(long + stored("moscow1954")))), [long, stored("moscow1954")])


class Refusals(unittest.TestCase):
    def test_every_field(self):
        request = HAND_WORKED.to_bytes()
        for at, field in enumerate(fields(ukhtvaresh.Elements)):
            for value in ukhtvaresh._ELEMENT_RANGES[at]:
                beyond = value + (1 if value == max(ukhtvaresh._ELEMENT_RANGES[at]) else -1)
                good = replace(HAND_WORKED.elements, **{field.name: value})
                bad = replace(HAND_WORKED.elements, **{field.name: beyond})
                ukhtvaresh.sheet(replace(HAND_WORKED, elements=good, window=Window(0, 0)))
                self.refused(replace(HAND_WORKED, elements=bad), 2, at, field.name, beyond)
        for at, field in enumerate(fields(Station)):
            low, high = ukhtvaresh._STATION_RANGES[at]
            for beyond in (low - 1, high + 1):
                if (field.name, beyond) == ("number", -1):
                    continue
                bad = replace(HAND_WORKED.station, **{field.name: beyond})
                self.refused(replace(HAND_WORKED, station=bad), 3, at, field.name, beyond)
        self.refused(replace(HAND_WORKED, guard=15), 1, 1, "guard", 15)
        self.refused(replace(HAND_WORKED, window=Window(-10_801, 0)), 1, 0, "first", -10_801)
        self.refused(replace(HAND_WORKED, window=Window(0, 10_801)), 1, 0, "last", 10_801)
        self.refused(replace(HAND_WORKED, window=Window(1, 0)), 1, 0, "first", 1)
        star = StarRequest.from_bytes((EXAMPLES / "potsdam1956.bin").read_bytes())
        self.refused(replace(star, radius=27_199_999), 13, 0, "radius", 27_199_999)
        self.refused(replace(star, elements=replace(star.elements, d0=30_000_001)), 2, 8, "d0", 30_000_001)
        with self.assertRaises(Refused) as caught:
            ukhtvaresh.second(request, 10_801)
        self.assertEqual((caught.exception.number, caught.exception.field), (1, None))

    def refused(self, request, number, place, field, value):
        with self.assertRaises(Refused) as caught:
            ukhtvaresh.sheet(request)
        refused = caught.exception
        self.assertEqual((refused.number, refused.place, refused.field, refused.value), (number, place, field, value))
        self.assertFalse(refused.range[0] <= value <= refused.range[1])
        self.assertIn(f"{field} {value} is not within", str(refused))

    def test_typed_texts(self):
        text = (EXAMPLES / "moscow1954.txt").read_text("utf-8")
        line = next(at for at, each in enumerate(text.split("\n"), 1) if each.startswith("latitude"))
        for value, number, place in [("95.75", 3, 1), ("5x", 20, line)]:
            with self.assertRaises(Refused) as caught:
                ukhtvaresh.sheet(re.sub(r"(?m)^latitude .*", f"latitude {value}", text))
            refused = caught.exception
            self.assertEqual((refused.number, refused.place), (number, place))
            self.assertEqual((refused.field, refused.line), ("latitude", line))
        self.assertEqual(refused.value, "5x")
        self.assertIn("latitude is not a number", str(refused))


class Rows(unittest.TestCase):
    def test_rows(self):
        entries = ukhtvaresh.read(stored("hopkinsville2017"))
        made = ukhtvaresh.rows(entries)
        self.assertEqual([row["kind"] for row in made], [type(entry).__name__.lower() for entry in entries])
        self.assertEqual(len({tuple(row) for row in made}), 1)
        for entry, row in zip(entries, made):
            for field in fields(entry):
                value = getattr(entry, field.name)
                self.assertEqual(row[field.name], value.value if field.name == "phase" else value)
        request = (EXAMPLES / "moscow1954.bin").read_bytes()
        table = ukhtvaresh.rows(ukhtvaresh.second(request, second) for second in range(3))
        self.assertEqual({row["penumbra"] for row in table}, {"outside"})
        self.assertEqual(ukhtvaresh.rows([]), [])
        with self.assertRaises(TypeError):
            ukhtvaresh.rows([1])

    @unittest.skipUnless(importlib.util.find_spec("pandas"), "pandas is not installed (Debian: python3-pandas)")
    def test_pandas(self):
        table = ukhtvaresh.dataframe(ukhtvaresh.read(stored("moscow1954")))
        self.assertEqual(str(table["from_"].dtype), "Int64")
        self.assertEqual(list(table["kind"]), ["head", "enter", "leave", "closest", "end"])
        self.assertEqual(int(table["magnitude"].dropna().iloc[0]), 870_151)

    @unittest.skipUnless(importlib.util.find_spec("numpy"), "numpy is not installed (Debian: python3-numpy)")
    def test_numpy(self):
        table = ukhtvaresh.array(ukhtvaresh.read(stored("moscow1954")))
        self.assertEqual(list(table["kind"]), ["head", "enter", "leave", "closest", "end"])
        self.assertEqual(table["from_"].dtype, "int64")
        self.assertEqual(table["magnitude"].compressed().tolist(), [870_151])


if __name__ == "__main__":
    unittest.main()
