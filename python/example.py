"""Prints the contact sheet of Moscow, 30 June 1954: python3 python/example.py"""

from pathlib import Path

import ukhtvaresh

request = (Path(__file__).resolve().parent.parent / "examples" / "moscow1954.bin").read_bytes()
try:
    print(ukhtvaresh.listing(ukhtvaresh.sheet(request)), end="")
except ukhtvaresh.Refused as refused:
    print(refused)
