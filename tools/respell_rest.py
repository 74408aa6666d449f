#!/usr/bin/env python3
"""Respells the names that tools/respell.py passed over: those of the pages specs/Answers.antt.

usage: tools/respell_rest.py [FOLDER]

It ran once, after tools/respell.py, which takes a file of that name for a proof (docs/PORT.md).
"""

import os
import sys

sys.dont_write_bytecode = True
sys.path.insert(0, os.path.dirname(os.path.realpath(__file__)))
import respell

NAMES = {
    "errorLine": "error_line",
    "firstMissed": "first_missed",
    "misfitsOf": "misfits_of",
    "ofChecked": "of_checked",
    "ofMissed": "of_missed",
    "printedFor": "printed_for",
    "roomWith": "room_with",
    "skyOf": "sky_of",
    "starTimedText": "star_timed_text",
    "timedBy": "timed_by",
}


def main():
    root = sys.argv[1] if len(sys.argv) > 1 else "."
    for end, turn in ((".antt", respell.in_antt), (".rt", respell.in_rust), (".edit", respell.in_antt)):
        for path in respell.files(root, end):
            old = respell.read(path)
            new = turn(old, NAMES)
            if new != old:
                with open(path, "w", encoding="utf-8") as it:
                    it.write(new)
                print(os.path.relpath(path, root))


if __name__ == "__main__":
    main()
