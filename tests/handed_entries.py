#!/usr/bin/env python3
"""Test vectors of the writer for the program `sheet_vectors`: lists of entries, good and damaged, and what a writer has
to answer.

The answers come from the rules of documents 01 and 02, as in stored_sheets.py, whose table and rules of one record
are used here. tests/vectors.py puts them into the program's input and expected output.
"""
import os
import struct
import sys

sys.path.insert(0, os.path.dirname(__file__))
from stored_sheets import (  # noqa: E402
    BARE, CENTRAL, ECLIPSED, END, GOOD, HEAD, INSTANT, LISTING, MIXED, OCCULTED, SHARES, STARRED, TABLE, encode,
    fields_hold, order_holds, star_entries)


def judge(numbers):
    """(number, place) of the refusal, or the records of the list."""
    records, place = [], 0
    while numbers:
        if len(numbers) < 5:
            return (6, place)
        kind, fields, numbers = numbers[0], numbers[1:5], numbers[5:]
        if kind not in TABLE:
            return (5, place)
        widths = TABLE[kind][2]
        record = (kind, fields[:len(widths)])
        if not order_holds(records, record):
            return (8, place)
        if any(fields[len(widths):]) or not fields_hold(records, record):
            return (7, place)
        records.append(record)
        place += 1 + sum(widths)
        if TABLE[kind][0] == "end":
            return (9, place) if numbers else records
    return (6, place)


def answer(judged, room):
    if isinstance(judged, tuple):
        return "refused %d %d" % judged, b""
    sheet = encode(judged)
    if room < len(sheet):
        return "refused 4 %d" % len(sheet), b""
    return "sheet %d %d" % (len(judged), len(sheet)), sheet


def lines(numbers):
    judged = judge(numbers)
    words, buffers = [], []
    for room in (256, 20):
        word, sheet = answer(judged, room)
        words.append(word)
        buffers.append("".join(" %02x" % b for b in sheet + bytes([170] * (room - len(sheet)))))
    return ["written %s short %s" % tuple(words)] + buffers


def listed(records):
    out = []
    for kind, fields in records:
        out += ([kind] + fields + [0, 0, 0, 0])[:5]
    return out


def lists():
    for records in GOOD:
        yield listed(records)
    for records in (LISTING, CENTRAL, ECLIPSED, OCCULTED):
        good = listed(records)
        for i in range(len(good)):  # each number changed in turn
            for value in (0, good[i] + 1) if records in (CENTRAL, OCCULTED) else (
                0, 1, good[i] + 1, good[i] + 65536, 0xFFFFFFFF
            ):
                yield good[:i] + [value] + good[i + 1:]
        for n in range(len(good)):  # each prefix
            yield good[:n]
        for i in range(len(records)):  # entries left out, doubled, swapped
            yield listed(records[:i] + records[i + 1:])
            yield listed(records[:i] + [records[i]] + records[i:])
            if i + 1 < len(records):
                yield listed(records[:i] + [records[i + 1], records[i]] + records[i + 2:])
        for tail in ([0x7F], [0, 0], [1, 2, 3, 4], listed(BARE)):  # numbers after the end entry
            yield good + tail
    for guard in (0, 15, 16, 17, 999, 1000, 1001, 65535, 65552):  # the head's guard at and past its limits
        yield listed([(0x01, BARE[0][1][:3] + [guard])] + BARE[1:])
    for millionths in SHARES:
        yield listed(BARE[:2] + [(0x31, [millionths]), END])
    for millionths in (7, 1000001):  # a share in every place, order before its field; twice; after the end
        for records in (LISTING, ECLIPSED):
            for i in range(len(records) + 1):
                yield listed(records[:i] + [(0x31, [millionths])] + records[i:])
    four = [number for kind, fields in LISTING for number in ([kind] + fields + [0, 0, 0])[:4]]
    yield four  # entries of four numbers, as they were before the guard
    for records in (MIXED, INSTANT, STARRED):
        for i in range(len(records)):
            yield listed(records[:i] + records[i + 1:])
    for kind, fields in star_entries():
        # an eclipse's entry in a star's sheet, in every place, and a star's in an eclipse's
        for i in range(len(OCCULTED) + 1):
            yield listed(OCCULTED[:i] + [(kind - 0x30, fields)] + OCCULTED[i:])
        for i in (1, 3, 5, 6):
            yield listed(LISTING[:i] + [(kind, fields)] + LISTING[i:])
        for magnitude in (0, 1, 1300000):  # a magnitude after a star entry of each kind, and a share
            yield listed([HEAD, (kind, fields), (0x30, [9065, magnitude]), END])
        yield listed([HEAD, (kind, fields), (0x30, [9065, 0]), (0x31, [0]), END])
    # kinds next to a star's, and its byte with others before and behind it
    for code in (0x3F, 0x44, 0x140, 0x40000000):
        yield listed([HEAD, (code, [16000, 16001]), OCCULTED[3], END])


def vectors():
    for numbers in lists():
        numbers = [number & 0xFFFFFFFF for number in numbers]
        yield struct.pack(f">{len(numbers)}I", *numbers), "".join(line + "\n" for line in lines(numbers))
