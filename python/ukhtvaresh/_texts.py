"""Typed texts, listings with clock times, and year files: the exports ukhtvaresh_typed, _times and _extent."""

import ctypes
import io
import os
import re
from dataclasses import dataclass
from pathlib import Path
from typing import BinaryIO, Iterator, Optional, Tuple, Union

from . import Refused, _bytes, _library, _shown, _sines, _with_field

_PIECE = 1 << 20
_ENDS = 6  # the bytes end inside a sheet: more of them may complete it


def _export(name: str):
    """A function of the library that answers a number."""
    found = getattr(_library, "ukhtvaresh_" + name)
    found.restype = ctypes.c_uint64
    return found


@dataclass(frozen=True)
class Typed:
    """What a typed text says: the bytes of its request, and the instant of second 0.

    instant: scale (0 none, 1 ET, 2 UT), year, month, day, hundredths of a second from 0h, TAI - UTC in seconds (0
    none).
    """

    request: bytes
    instant: Tuple[int, ...]


def _size(number: int) -> ctypes.c_size_t:
    return ctypes.c_size_t(number)


def typed(text: Union[str, bytes]) -> Typed:
    """The request and the instant of a typed text; Refused with number 20 and the first invalid line."""
    data = text.encode() if isinstance(text, str) else _bytes(text, "text")
    request, instant, value = (ctypes.c_uint8 * 115)(), (ctypes.c_uint64 * 6)(), ctypes.c_uint64()
    message = (ctypes.c_uint8 * 256)()
    while True:
        outputs = [request, _size(115), instant, _size(6), message, _size(len(message)), ctypes.byref(value)]
        number = _export("typed")(ctypes.c_char_p(data), _size(len(data)), *outputs)
        if number == 4 and value.value > len(message):
            message = (ctypes.c_uint8 * value.value)()
            continue
        break
    if number == 0:
        return Typed(bytes(request[: value.value]), tuple(instant))
    if number != 20:
        raise Refused(number, value.value)
    words = bytes(message).split(b"\n")[0].decode(errors="replace")
    wrong = re.sub(r"^line \d+: ", "", words)
    refused = Refused(20, value.value, f"line {value.value}: {wrong}")
    # `latitude is not a number`: the name before the verb, and what the line has after it
    verb = re.match(r"(.*?) (?:is|has) ", wrong)
    if verb:
        refused.field = verb[1]
        lines = data.decode(errors="replace").split("\n")
        said = lines[value.value - 1].split("#")[0].strip() if 1 <= value.value <= len(lines) else ""
        refused.value = said[len(verb[1]) :].strip() if said.startswith(verb[1]) else None
    raise refused


def line_of(text: str, field: Optional[str]) -> Optional[int]:
    """The line of a typed text, counted from 1, that has a field of a request; None where there is none."""
    if field is None:
        return None
    name = {"number": "station", "delta_t": "delta t", "tan_f1": "tan f1", "tan_f2": "tan f2"}.get(field)
    name = name or field.replace("_", "")
    for at, line in enumerate(text.split("\n"), 1):
        if re.match(rf"{re.escape(name)}(\s|$)", line.split("#")[0].strip()):
            return at
    return None


def times(request: bytes, instant: Tuple[int, ...] = (0,) * 6) -> str:
    """The listing of a request with clock times, as the program `times` prints it."""
    data, value = _bytes(request, "request"), ctypes.c_uint64()
    below = [at for at, number in enumerate(instant) if number < 0]
    if below:
        raise Refused(23, below[0])
    given = (ctypes.c_uint64 * 6)(*instant)
    sines, count = _sines()
    room = 4096
    while True:
        sheet, text = (ctypes.c_uint8 * room)(), (ctypes.c_uint8 * (8 * room))()
        outputs = [sines, _size(count), sheet, _size(room), text, _size(8 * room), ctypes.byref(value)]
        number = _export("times")(ctypes.c_char_p(data), _size(len(data)), given, _size(6), *outputs)
        if number == 4 and value.value > room:
            room = value.value
            continue
        break
    if number:
        raise _with_field(Refused(number, value.value), data)
    return bytes(text[: value.value]).decode("ascii")


def extent(data: bytes) -> int:
    """The length of the well-formed sheet at the start of some bytes. Refusals: those of `read`, but 9."""
    data, value = _bytes(data, "data"), ctypes.c_uint64()
    number = _export("extent")(ctypes.c_char_p(data), _size(len(data)), ctypes.byref(value))
    if number:
        raise Refused(number, value.value)
    return value.value


def sheets(file: Union[str, "os.PathLike[str]", bytes, BinaryIO]) -> Iterator[bytes]:
    """The sheets of a year file one after the other: of a path, of a file that is open for bytes, or of bytes.

    The file may have any size: some of it is in memory at a time. Where the bytes are no sheet, Refused has the number
    of `read`, and as its place the byte of the file.

    >>> from ukhtvaresh import HAND_WORKED, sheet, sheets
    >>> year = sheet(HAND_WORKED) * 3
    >>> [len(each) for each in sheets(year)]
    [45, 45, 45]
    """
    if isinstance(file, (str, os.PathLike)):
        with open(Path(file), "rb") as opened:
            yield from _sheets(opened)
    elif hasattr(file, "read"):
        yield from _sheets(file)  # type: ignore[arg-type]
    elif isinstance(file, (bytes, bytearray, memoryview)):
        yield from _sheets(io.BytesIO(file))
    else:
        raise TypeError(f"file must be a path, a file open for bytes, or bytes, not {_shown(file)}")


def _sheets(file: BinaryIO) -> Iterator[bytes]:
    buffer, start, before, size, ended = b"", 0, 0, 4096, False
    while not ended or start < len(buffer):
        # The library gets a copy of as many bytes as most sheets have, and of more only where these are too few.
        piece = buffer[start : start + size]
        try:
            length = extent(piece)
        except Refused as refused:
            whole = start + size >= len(buffer)
            if refused.number != _ENDS or (whole and ended):
                raise Refused(refused.number, before + start + refused.place) from None
            if whole:
                more = file.read(max(_PIECE, len(buffer) - start))
                before, buffer, start, ended = before + start, buffer[start:] + more, 0, not more
            else:
                size *= 4
            continue
        yield buffer[start : start + length]
        start, size = start + length, 4096
