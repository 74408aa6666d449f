#!/usr/bin/env python3
"""Compiles the examples in include/ukhtvaresh.h: every function has one, of two lines. Ends with `N passed, N failed`.

    tests/header.py
"""

import re
import subprocess
import sys
import tempfile
from pathlib import Path

TOP = Path(__file__).resolve().parent.parent
START = r"""
#include <stdio.h>
#include "ukhtvaresh.h"
static uint8_t request[115], star[79], sheet[65536], mirrored[115], file[1000], sheets[1000], dropped[1016];
static uint8_t text[400000], message[1000], bytes[1000];
static uint32_t sines[901], entries[1000];
static int64_t shadow[8], horizon[3], rows[42], values[56], coefficients[4], tabulated[7], eclipse[25], rest[7];
static int64_t units[23], sidereal[7], radii[3], made[22], misfits[6], bracket[2];
static double elements[22], doubles[23];
static uint64_t steps[64], instant[6], length, value, kept, noted, rounds;
static ukhtvaresh_node stations[2];
"""


def main():
    header = (TOP / "include/ukhtvaresh.h").read_text("utf-8")
    functions = re.findall(r"^uint64_t ukhtvaresh_(\w+)\(", header, re.M)
    failed = []
    for name in functions:
        comment = header[: header.index(f"uint64_t ukhtvaresh_{name}(")].rpartition("/*")[2]
        example = re.search(r"\n \* Example:\n \*   (.*)\n \*   (.*?)(?: \*/)?\n", comment)
        if not example or f"ukhtvaresh_{name}(" not in example[0]:
            failed.append(f"{name}: no example of two lines")
            continue
        with tempfile.TemporaryDirectory() as folder:
            source = Path(folder, "example.c")
            source.write_text(f"{START}void example(void);\nvoid example(void) {{\n{example[1]}\n{example[2]}\n}}\n")
            words = ["cc", "-std=c99", "-Wall", "-Werror", "-Wno-unused-variable", "-fsyntax-only"]
            ran = subprocess.run([*words, f"-I{TOP / 'include'}", str(source)], capture_output=True, text=True)
            if ran.returncode:
                failed.append(f"{name}: {ran.stderr}")
    for words in failed:
        print(words)
    print(f"{len(functions) - len(failed)} passed, {len(failed)} failed")
    sys.exit(1 if failed else 0)


if __name__ == "__main__":
    main()
