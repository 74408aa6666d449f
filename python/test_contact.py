"""The hundredths of a second between which a contact lies, through Python."""

import unittest
from pathlib import Path

import ukhtvaresh
from ukhtvaresh import Bracket, Enter, Leave, Phase, Refused, contact, read, sheet, star, star_contact

EXAMPLES = Path(__file__).resolve().parent.parent / "examples"


def example(name: str, guard: int = 32) -> bytes:
    """An example's bytes with a guard: the last two bytes of a request."""
    return (EXAMPLES / name).read_bytes()[:-2] + guard.to_bytes(2, "big")


class Contacts(unittest.TestCase):
    def refused(self, number: int, place: int, call, *arguments):
        with self.assertRaises(Refused) as caught:
            call(*arguments)
        self.assertEqual((caught.exception.number, caught.exception.place), (number, place))

    def each(self, entries, find) -> int:
        changes = [entry for entry in entries if isinstance(entry, (Enter, Leave))]
        for entry in changes:
            found = find(entry)
            self.assertLessEqual(100 * entry.from_, found.earlier)
            self.assertLess(found.earlier, found.later)
            self.assertLessEqual(found.later, 100 * entry.to)
            self.assertLessEqual(found.later - found.earlier, 3)
        return len(changes)

    def test_examples(self):
        for name, count in (("hopkinsville2017.bin", 4), ("moscow1954.bin", 2), ("kiev1954.bin", 4)):
            request = example(name)
            found = self.each(read(sheet(request)), lambda e: contact(request, e.phase, e.from_, e.to))
            self.assertEqual(found, count)
        for name in ("potsdam1956.bin", "kansas1949.bin"):
            request = example(name)
            self.assertGreater(self.each(read(star(request)), lambda e: star_contact(request, e.from_, e.to)), 0)

    def test_guard_below_32(self):
        found = [contact(example("hopkinsville2017.bin", guard), Phase.CENTRAL, 1550, 1551) for guard in (16, 31, 32)]
        self.assertEqual(found, [Bracket(155_019, 155_020)] * 3)

    def test_refusals(self):
        request, potsdam = example("hopkinsville2017.bin"), example("potsdam1956.bin")
        self.refused(10, 0, contact, request[1:], Phase.CENTRAL, 1550, 1551)
        for from_, to in ((1551, 1550), (-10_801, 0), (0, 10_801)):
            self.refused(1, 0, contact, request, Phase.CENTRAL, from_, to)
        self.refused(1, 1, contact, example("hopkinsville2017.bin", 15), Phase.STAR, 1550, 1551)
        self.refused(22, 0, contact, request, Phase.STAR, 1550, 1551)
        for from_, to in ((0, 1), (1560, 1570), (1550, 1550)):
            self.refused(22, 1, contact, request, Phase.CENTRAL, from_, to)
        self.refused(10, 0, star_contact, request, 0, 1)
        self.refused(22, 1, star_contact, potsdam, -10_800, -10_799)

    def test_words(self):
        for number, place, words in ((22, 0, "no such phase"), (22, 1, "not one surely outside")):
            self.assertIn(words, str(ukhtvaresh.Refused(number, place)))


if __name__ == "__main__":
    unittest.main()
