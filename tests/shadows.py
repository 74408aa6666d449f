#!/usr/bin/env python3
"""Test vectors of the shadow at one second for the program `rule_vectors`, from the reference's.

tests/vectors.py puts them into the program's input and expected output.

A line of the vectors is a request of 115 bytes in hexadecimal, whose window is one second, and then what is
printed for it: u v L1 L2 penumbra central direction magnitude, or the refusal.
"""


def vectors(given):
    for request, *rest in map(str.split, given.splitlines()):
        assert len(request) == 230 and (len(rest) == 8 or rest[0] == "refused")
        yield bytes.fromhex(request), " ".join(rest) + "\n"
