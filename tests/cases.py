#!/usr/bin/env python3
"""Test vectors of requests for the program `sheet_vectors`, from the reference implementation. tests/vectors.py puts
them into the program's input and expected output.

A record is the length of the buffer for the sheet (2 bytes) and the request. The answers are the reference's:
`vectors sheets` gives lengths, requests and sheets, `vectors listings` the listings. Its length of 65,536 does not
fit two bytes: 65,535 stands for it here, and no sheet of these is longer.
"""

PROGRAM_ROOM = 65536


def number(n, size):
    return n.to_bytes(size, "big", signed=n < 0)


def changed(request, **fields):
    """The request with some numbers changed, each given by the byte it begins at and its length."""
    places = {
        "x0": (1, 4),
        "x1": (5, 4),
        "latitude": (92, 4),
        "delta t": (104, 4),
        "first": (109, 2),
        "last": (111, 2),
        "guard": (113, 2),
    }
    for name, value in fields.items():
        at, size = places[name]
        request = request[:at] + number(value, size) + request[at + size :]
    return request


def case(room, request):
    return number(min(room, PROGRAM_ROOM - 1), 2) + request


def more(hand):
    """Requests made from the hand-worked one."""
    # a window out of range comes before a latitude out of range; at the end of its range it does not
    for last in [10800, 10801]:
        for latitude in [90000000, 90000001]:
            yield changed(hand, last=last, latitude=latitude)
    # inside from the first second to the last, in the penumbra and in both
    yield changed(hand, first=-5000, last=5000)
    yield changed(hand, first=-50, last=50)
    # a shadow that stands still with its edge at the station: unsure throughout, every second as close as the first
    yield changed(hand, x0=54000000, x1=0)
    # the same a unit beyond the guard on either side
    yield changed(hand, x0=54000017, x1=0)
    yield changed(hand, x0=53999983, x1=0)
    # a guard out of range comes after the window and before an element
    for guard in [15, 1001]:
        for last in [6000, 10801]:
            yield changed(hand, guard=guard, last=last, x0=200000001)


def vectors(run):
    """What `run`, which runs a program of the reference, gives."""
    listings = {}
    for line in run("vectors", "listings").splitlines():
        request, text = line.split(" ", 1)
        listings[request] = text.replace(";", "\n")
    hand = None
    for line in run("vectors", "sheets").splitlines():
        room, request, sheet = line.split(" ", 2)
        given = bytes.fromhex("" if request == "-" else request)
        hand = hand or given
        refused = sheet.startswith("refused")
        assert refused or len(sheet) // 2 < PROGRAM_ROOM
        yield case(int(room), given), sheet + "\n" if refused else listings[request]
    for request in more(hand):
        yield case(PROGRAM_ROOM, request), run("reference", "sheet", given=request)
