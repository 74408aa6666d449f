"""Eleven clocks and one antenna, 30 June 1954: how far each clock is from it, and where the penumbra comes first.

    python3 python/example_network.py
"""

import sys
from pathlib import Path

import ukhtvaresh
from ukhtvaresh import Elements, Node, Station, Window

TOP = Path(__file__).resolve().parent.parent
sys.path.append(str(TOP / "tests"))
import network  # noqa: E402  the reader of typed lists

eclipse, stations = network.read((TOP / "examples" / "eleven1954.network.txt").read_bytes())
nodes = [Node(Station(*numbers[:5]), numbers[5]) for numbers in stations]
try:
    said = ukhtvaresh.network(Elements(*eclipse[:22]), Window(*eclipse[22:24]), nodes, eclipse[24])
except ukhtvaresh.Refused as refused:
    sys.exit(str(refused))
for node, steps in zip(nodes, said.steps):
    print(f"station {node.station.number} steps {steps}")
print(f"first {said.first or 0}")
