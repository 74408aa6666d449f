"""Reads a file of stations, comma-separated, one station a line.

    station,latitude,longitude,height,name
    # the antenna's own station
    1,32.7767,-96.7970,131,Dallas
    2,41.4993,-81.6944,199,Cleveland

The first line names the columns, in any order. station (1 to 999, each number once), latitude and longitude (degrees,
north and east positive) are needed; height (metres, 0 where it is left out) and name may be left out. Empty lines and
lines that start with # are skipped.
"""

import csv
from pathlib import Path
from typing import Dict, List, NamedTuple

import arguments
from arguments import Refusal

NEEDED = ("station", "latitude", "longitude")
OPTIONAL = ("height", "name")
READERS = {
    "station": arguments.station_number,
    "latitude": arguments.latitude,
    "longitude": arguments.longitude,
    "height": arguments.height,
}


class Line(NamedTuple):
    """A station of the file: 10^-6 degree and metres, as a request has them."""

    station: int
    latitude: int
    longitude: int
    height: int
    name: str


class BadFile(Refusal):
    """The faults of a file of stations, a line of words each."""

    def __init__(self, path: str, faults: List[str]):
        self.faults = faults
        super().__init__("\n".join(f"{path}: {fault}" for fault in faults) + "\nno request was made")


def _header(words: List[str]) -> List[str]:
    """The faults of the line that names the columns."""
    faults = [f"column {word!r} is unknown" for word in words if word not in NEEDED + OPTIONAL]
    faults += [f"column {word!r} is given twice" for word in sorted(set(words)) if words.count(word) > 1]
    faults += [f"column {word!r} is missing" for word in NEEDED if word not in words]
    columns = f"columns are {', '.join(NEEDED)}, and, if wanted, {', '.join(OPTIONAL)}, with commas between them"
    return [f"{fault}: {columns}" for fault in faults]


def read(path: str) -> List[Line]:
    """The stations of a file; BadFile with the line, the field and the value of every fault."""
    try:
        text = Path(path).read_text("utf-8-sig")
    except OSError as wrong:
        raise Refusal(f"{path} cannot be read: {wrong.strerror}") from None
    except UnicodeDecodeError:
        raise Refusal(f"{path} is not a text in UTF-8: save it as CSV in UTF-8") from None
    made: List[Line] = []
    faults: List[str] = []
    columns: List[str] = []
    seen: Dict[int, int] = {}
    for at, line in enumerate(text.splitlines(), 1):
        if not line.strip() or line.lstrip().startswith("#"):
            continue
        words = [word.strip() for word in next(csv.reader([line]))]
        if not columns:
            columns = words
            wrong = _header(columns)
            if wrong:
                raise BadFile(path, [f"line {at}: {fault}" for fault in wrong])
            continue
        if len(words) != len(columns):
            faults.append(f"line {at}: {len(words)} fields where the first line names {len(columns)} columns: {line}")
            continue
        fields = dict(zip(columns, words))
        values: Dict[str, int] = {}
        for name, reader in READERS.items():
            if name == "height" and not fields.get("height"):
                values["height"] = 0
                continue
            try:
                values[name] = reader(fields[name])
            except Refusal as wrong:
                faults.append(f"line {at}: {wrong}")
        number = values.get("station")
        if number in seen:
            faults.append(f"line {at}: station {number} is already on line {seen[number]}: give each its own number")
        elif number is not None:
            seen[number] = at
        if len(values) == len(READERS):
            made.append(Line(**values, name=fields.get("name") or f"Station {number}"))
    if not columns or (not made and not faults):
        raise BadFile(path, ["no station: write a line of column names and a line for each station"])
    if faults:
        raise BadFile(path, faults)
    return made
