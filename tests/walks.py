#!/usr/bin/env python3
"""Test vectors of contacts for the program `rule_vectors`, from the words of document 01, "Entries of a sheet", and
from no walk: every two seconds of the window are compared with the rules, one by one.

tests/vectors.py puts them into the program's input and expected output.
"""
from itertools import combinations

OUTSIDE, INSIDE, UNSURE = 0, 1, 2


def entries(states):
    seconds = range(len(states))
    sure = [k for k in seconds if states[k] != UNSURE]
    found = []
    # "Between two sure seconds that have only unsure seconds, or none, between them"
    for earlier, later in combinations(sure, 2):
        between = states[earlier + 1:later]
        if any(state != UNSURE for state in between):
            continue
        if (states[earlier], states[later]) == (OUTSIDE, INSIDE):
            found.append((earlier, later, "e"))
        elif (states[earlier], states[later]) == (INSIDE, OUTSIDE):
            found.append((earlier, later, "l"))
        elif between:
            found.append((earlier, later, "g"))
    # "Unsure seconds at an end of the window make one *open* entry, from the window's end to the nearest sure second,
    #  or over the whole window if none is sure."
    if states and not sure:
        found.append((0, len(states) - 1, "o"))
    elif states:
        if states[0] == UNSURE:
            found.append((0, min(sure), "o"))
        if states[-1] == UNSURE:
            found.append((max(sure), len(states) - 1, "o"))
    return sorted(found)


def vectors():
    """Every window of up to six seconds."""
    for length in range(7):
        for number in range(3 ** length):
            states = [number // 3 ** k % 3 for k in range(length)]
            line = "".join(map(str, states))
            for start, end, kind in entries(states):
                line += f" {kind}{start}-{end}"
            yield bytes(states), line + "\n"
