"""Entries and tables as rows, for pandas and numpy. Neither package is needed until it is asked for."""

from dataclasses import fields, is_dataclass
from enum import Enum
from typing import Any, Dict, Iterable, List


def _plain(value: Any) -> Any:
    """A value as a table has it: an enum by its word, all else as it is."""
    if isinstance(value, Enum):
        return value.value if isinstance(value.value, str) else value.name.lower()
    return value


def rows(items: Iterable[Any]) -> List[Dict[str, Any]]:
    """A dictionary for each entry of a sheet, or for each row of a table such as those of `second` and `from_tables`.

    All rows have the same keys: `kind`, the class in lower case, and every field of any of the items; a field that an
    item does not have is None. Whole numbers stay ints.

    >>> from ukhtvaresh import HAND_WORKED, read, rows, sheet
    >>> table = rows(read(sheet(HAND_WORKED)))
    >>> [row["kind"] for row in table]
    ['head', 'enter', 'leave', 'enter', 'leave', 'closest', 'end']
    >>> table[1]["phase"], table[1]["from_"], table[1]["magnitude"]
    ('penumbra', -5401, None)
    """
    listed = list(items)
    names: List[str] = []
    for at, item in enumerate(listed):
        if not is_dataclass(item) or isinstance(item, type):
            raise TypeError(f"item {at} must be an entry or a row of a table, not {item!r} ({type(item).__name__})")
        names += [field.name for field in fields(item) if field.name not in names]
    return [
        {"kind": type(item).__name__.lower(), **{name: _plain(getattr(item, name, None)) for name in names}}
        for item in listed
    ]


def _is_text(table: List[Dict[str, Any]], name: str) -> bool:
    return any(isinstance(row[name], str) for row in table)


def dataframe(items: Iterable[Any]) -> Any:
    """The rows as a pandas DataFrame: whole numbers as pandas' Int64, which has NA for what an item does not have."""
    import pandas

    table = rows(items)
    names = list(table[0]) if table else ["kind"]
    kinds = {name: "string" if _is_text(table, name) else "Int64" for name in names}
    columns = {name: pandas.array([row[name] for row in table], dtype=kinds[name]) for name in names}
    return pandas.DataFrame(columns)


def array(items: Iterable[Any]) -> Any:
    """The rows as a masked structured array of numpy: whole numbers as int64, masked where an item has none."""
    import numpy

    table = rows(items)
    names = list(table[0]) if table else ["kind"]
    kinds = [(name, "U8" if _is_text(table, name) else "i8") for name in names]
    made = numpy.ma.zeros(len(table), dtype=kinds)
    for at, row in enumerate(table):
        for name, kind in kinds:
            if row[name] is None:
                made.mask[at][name] = True
            else:
                made[name][at] = row[name]
    return made
