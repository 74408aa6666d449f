#!/usr/bin/env python3
"""Test vectors of the reader for the program `sheet_vectors`: stored sheets, good and damaged, and what a reader has to
answer.

The answers come from the rules of documents 01 and 02, worked out here over lists of records; nothing is taken from
the crates. tests/vectors.py puts them into the program's input and expected output.
"""
import struct

# kind: (name, family, widths of the fields)
TABLE = {
    0x01: ("head", None, (2, 2, 2, 2)),
    0x30: ("closest", None, (2, 4)),
    0x31: ("share", None, (4,)),
    0x7F: ("end", None, ()),
}
for family, base in (("penumbra", 0x10), ("central", 0x20), ("star", 0x40)):
    TABLE[base + 0] = ("enter", family, (2, 2, 2))
    TABLE[base + 1] = ("leave", family, (2, 2, 2))
    TABLE[base + 2] = ("graze", family, (2, 2))
    TABLE[base + 3] = ("open", family, (2, 2))
ECLIPSE = ("penumbra", "central")
# the star in place of penumbra and central
PLACE = {"head": 0, "penumbra": 1, "central": 2, "star": 1, "closest": 3, "share": 4, "end": 5}
DUE = (0, 3, 5)  # head, closest, end; a share may be left out


class Refused(Exception):
    def __init__(self, number, place):
        self.answer = (number, place)


def section(kind):
    name, family, _ = TABLE[kind]
    return family or name


def order_holds(before, record):
    """Whether a record may stand after those before it: families in order, head, closest and end exactly once, share
    at most once; no star beside an eclipse or a share."""
    mine, seen = section(record[0]), [section(r[0]) for r in before]
    here, places = PLACE[mine], [PLACE[s] for s in seen]
    if places and here < max(places):
        return False
    if any(due < here and due not in places for due in DUE):
        return False
    if mine in ("head", "closest", "share", "end") and mine in seen:
        return False
    if mine == "star" and any(family in seen for family in ECLIPSE) or mine in ECLIPSE + ("share",) and "star" in seen:
        return False
    if mine in ECLIPSE + ("star",):
        family = [r for r in before if section(r[0]) == mine]
        if family and record[1][0] < family[-1][1][1]:
            return False
        turns = [TABLE[r[0]][0] for r in family if TABLE[r[0]][0] in ("enter", "leave")]
        if turns and turns[-1] == TABLE[record[0]][0]:
            return False
    return True


def fields_hold(before, record):
    name = TABLE[record[0]][0]
    if name == "head":
        station, first, last, guard = record[1]
        return 1 <= station <= 999 and first <= last <= 21600 and 16 <= guard <= 1000
    if name == "end":
        return True
    _, first, last, _ = before[0][1]
    if name == "closest":
        second, magnitude = record[1]
        starred = any(section(r[0]) == "star" for r in before)
        return first <= second <= last and magnitude <= (0 if starred else 1300000)
    if name == "share":
        return record[1][0] <= 1000000
    start, end = record[1][:2]
    if not (first <= start <= last and first <= end <= last):
        return False
    if name == "open":
        return start <= end and (start == first or end == last)
    if not start < end:
        return False
    return name == "graze" or record[1][2] <= 3599 or record[1][2] == 65535


def parse(data):
    """The records of the sheet that data begins with, and its length."""
    records, at = [], 0
    while True:
        if at >= len(data):
            raise Refused(6, len(data))
        kind = data[at]
        if kind not in TABLE:
            raise Refused(5, at)
        widths = TABLE[kind][2]
        if at + 1 + sum(widths) > len(data):
            raise Refused(6, at)
        fields, p = [], at + 1
        for width in widths:
            fields.append(int.from_bytes(data[p:p + width], "big"))
            p += width
        record = (kind, fields)
        if not order_holds(records, record):
            raise Refused(8, at)
        if not fields_hold(records, record):
            raise Refused(7, at)
        records.append(record)
        at = p
        if kind == 0x7F:
            return records, at


def encode(records):
    out = b""
    for kind, fields in records:
        out += bytes([kind])
        for width, value in zip(TABLE[kind][2], fields):
            out += value.to_bytes(width, "big")
    return out


def word(answer):
    return "sheet %d %d" % answer[1:] if answer[0] else "refused %d %d" % answer[1:]


def answers(data):
    """The lines that the program prints for one stored sheet."""
    try:
        records, length = parse(data)
        begins = (True, len(records), length)
    except Refused as r:
        records, begins = None, (False,) + r.answer
    whole, short = begins, begins
    if begins[0]:
        if length < len(data):
            whole = short = (False, 9, length)
        elif len(records) > 3:  # buffer for three entries
            short = (False, 4, len(records))
    lines = ["begins %s is %s short %s" % (word(begins), word(whole), word(short))]
    if whole[0]:
        for kind, fields in records:
            lines.append(" %d %d %d %d %d" % tuple([kind] + (fields + [0, 0, 0, 0])[:4]))
        assert encode(records) == data
        lines.append(" written sheet %d %d same" % (len(records), length))
    return lines


# ---- the sheets

HEAD, END = (0x01, [7, 4800, 16800, 16]), (0x7F, [])
CLOSEST = (0x30, [10800, 1037735])
LISTING = [
    HEAD, (0x10, [5399, 5401, 2700]), (0x11, [16199, 16201, 900]), (0x20, [10699, 10701, 2700]),
    (0x21, [10899, 10901, 900]), CLOSEST, END
]
MIXED = [
    (0x01, [999, 0, 21600, 1000]), (0x13, [0, 40]), (0x11, [40, 42, 3599]), (0x12, [100, 200]),
    (0x10, [200, 201, 65535]), (0x12, [201, 203]), (0x11, [203, 21599, 0]), (0x13, [21599, 21600]), (0x22, [0, 2]),
    (0x20, [2, 3, 1]), (0x23, [21599, 21600]), (0x30, [21600, 1300000]), END
]
BARE = [(0x01, [1, 5, 5, 16]), (0x30, [5, 0]), END]
INSTANT = [(0x01, [12, 16200, 16200, 17]), (0x13, [16200, 16200]), (0x23, [16200, 16200]), (0x30, [16200, 0]), END]
CENTRAL = [
    (0x01, [3, 10, 90, 999]), (0x21, [10, 20, 5]), (0x20, [20, 30, 6]), (0x21, [31, 90, 7]), (0x30, [10, 1]),
    END
]
SHARED = [
    (0x01, [5, 100, 300, 16]), (0x10, [120, 122, 900]), (0x22, [150, 160]), (0x30, [200, 512345]),
    (0x31, [405728]), END
]
ECLIPSED = [(0x01, [1, 5, 5, 16]), (0x30, [5, 1300000]), (0x31, [1000000]), END]
OCCULTED = [HEAD, (0x40, [7321, 7323, 655]), (0x41, [10807, 10809, 3077]), (0x30, [9065, 0]), END]
STARRED = [(0x01, [999, 0, 21600, 1000]), (0x43, [0, 40]), (0x41, [40, 42, 3599]), (0x42, [42, 200]),
           (0x40, [200, 201, 65535]),
           (0x43, [21599, 21600]), (0x30, [21600, 0]), END]
GOOD = [LISTING, MIXED, BARE, INSTANT, CENTRAL, SHARED, ECLIPSED, OCCULTED, STARRED]
# at and past the limit
SHARES = (0, 1, 255, 256, 65535, 65536, 999999, 1000000, 1000001, 1000256, 0x01000000, 0x80000000, 0xFFFFFFFF)


def old(records):
    """The sheet as it was stored before the head had a guard."""
    data = encode(records)
    return data[:7] + data[9:]


def damaged():
    for records in GOOD:
        yield encode(records)
    assert (len(encode(LISTING)), len(old(LISTING)), len(old(BARE))) == (45, 43, 15)
    for records in GOOD:  # whole old sheets, one after another too
        yield old(records)
    yield old(BARE) + old(LISTING)
    yield encode(BARE) + old(BARE)
    for n in range(7, 15):  # old sheets cut
        yield old(BARE)[:n]
    for records in (LISTING, BARE):  # the guard at and past its limits
        for guard in (0, 1, 15, 16, 17, 255, 256, 999, 1000, 1001, 4096, 65535):
            yield encode([(0x01, records[0][1][:3] + [guard])] + records[1:])
    good = encode(LISTING)
    for i in range(len(good)):  # each byte changed in turn
        for flip in (0x01, 0x10, 0x80, 0xFF):
            yield good[:i] + bytes([good[i] ^ flip]) + good[i + 1:]
    good, share = encode(SHARED), len(encode(SHARED[:4]))
    for i in range(share, len(good)):  # each byte of the share and of the end changed in turn
        for flip in (0x01, 0x10, 0x80, 0xFF):
            yield good[:i] + bytes([good[i] ^ flip]) + good[i + 1:]
    for n in range(4):  # the share's body short, with the end behind it
        yield good[:share + 1 + n] + b"\x7f"
    for records in (LISTING, MIXED, SHARED):  # each prefix
        good = encode(records)
        for n in range(len(good)):
            yield good[:n]
    for records in (LISTING, MIXED, CENTRAL, SHARED):
        for i in range(len(records)):  # records left out, doubled, swapped
            yield encode(records[:i] + records[i + 1:])
            yield encode(records[:i] + [records[i]] + records[i:])
            if i + 1 < len(records):
                yield encode(records[:i] + [records[i + 1], records[i]] + records[i + 2:])
            yield encode([records[i]] + records[:i] + records[i + 1:])
    for millionths in SHARES:
        yield encode(BARE[:2] + [(0x31, [millionths]), END])
    for millionths in (0, 1000000, 1000001):  # a share in every place, order before its field; twice; after the end
        for records in (LISTING, BARE, ECLIPSED):
            for i in range(len(records) + 1):
                yield encode(records[:i] + [(0x31, [millionths])] + records[i:])
    # each record where the end is due
    for record in SHARED + [(0x11, [250, 260, 0]), (0x21, [250, 260, 0]), (0x13, [290, 300])]:
        yield encode(SHARED[:5] + [record, END])
    for tail in (b"\x7f", b"\x00", b"\x01\x00\x07", encode(BARE)):  # bytes after the end
        for records in (BARE, LISTING, SHARED):
            yield encode(records) + tail
    for i, record in enumerate(MIXED):  # each field at and past its limits
        limits = (999, 1000, 1001) if TABLE[record[0]][0] == "head" else (3599, 3600)
        for j in range(len(record[1])):
            for value in (0, 1, 39, 40, 41, 200, 201, 202, 203, 21598, 21599, 21600, 21601, 65534, 65535) + limits:
                if value != record[1][j]:
                    fields = list(record[1])
                    fields[j] = value
                    yield encode(MIXED[:i] + [(record[0], fields)] + MIXED[i + 1:])
    for magnitude in (1299999, 1300001, 0xFFFFFFFF, 0x01000000):
        yield encode(BARE[:1] + [(0x30, [5, magnitude])] + BARE[2:])
    yield from damaged_stars()


def star_entries():
    """One of each kind, that may stand in any place of LISTING's window by its fields."""
    return [(0x40, [16000, 16001, 1]), (0x41, [16000, 16001, 1]), (0x42, [16000, 16001]), (0x43, [16000, 16800])]


def damaged_stars():
    good = encode(OCCULTED)
    for i in range(len(good)):  # each byte changed in turn
        for flip in (0x01, 0x10, 0x80, 0xFF):
            yield good[:i] + bytes([good[i] ^ flip]) + good[i + 1:]
    for n in range(len(good)):  # each prefix
        yield good[:n]
    for records in (OCCULTED, STARRED):
        for i in range(len(records)):  # records left out, doubled, swapped
            yield encode(records[:i] + records[i + 1:])
            yield encode(records[:i] + [records[i]] + records[i:])
            if i + 1 < len(records):
                yield encode(records[:i] + [records[i + 1], records[i]] + records[i + 2:])
    # star and eclipse entries in one sheet, each in every place; of the star's own family too
    for kind, fields in star_entries():
        for i in range(len(OCCULTED) + 1):
            for base in (0x10, 0x20, 0x40):
                yield encode(OCCULTED[:i] + [(kind - 0x40 + base, fields)] + OCCULTED[i:])
        for records in (LISTING, BARE):
            for i in range(len(records) + 1):
                yield encode(records[:i] + [(kind, fields)] + records[i:])
        # a magnitude after a star entry of each kind, and a share
        for magnitude in (0, 1, 256, 65536, 1300000, 1300001, 0xFFFFFFFF):
            yield encode([HEAD, (kind, fields), (0x30, [9065, magnitude]), END])
            yield encode([HEAD, (kind, fields), (0x30, [9065, magnitude]), (0x31, [magnitude]), END])
    for millionths in (0, 1000001):  # a share in every place
        for i in range(len(OCCULTED) + 1):
            yield encode(OCCULTED[:i] + [(0x31, [millionths])] + OCCULTED[i:])
    # kinds next to those of the table
    for code in (0x00, 0x02, 0x0F, 0x14, 0x1F, 0x24, 0x2F, 0x32, 0x3F, 0x44, 0x4F, 0x50, 0x53, 0x7E, 0x80, 0xC0):
        yield good[:9] + bytes([code]) + good[10:]
        yield good[:-1] + bytes([code])
    for i, (kind, fields) in enumerate(STARRED):  # each field at and past its limits
        for j in range(len(fields)):
            for value in (0, 1, 39, 40, 41, 43, 199, 200, 201, 3599, 3600, 21598, 21599, 21600, 21601, 65534, 65535):
                if value != fields[j]:
                    yield encode(STARRED[:i] + [(kind, fields[:j] + [value] + fields[j + 1:])] + STARRED[i + 1:])


def vectors():
    for sheet in damaged():
        yield sheet, "".join(line + "\n" for line in answers(sheet))
