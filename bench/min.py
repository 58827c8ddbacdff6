#!/usr/bin/env python3
"""Measures `cssmin min` against `wc -c` on the same files, both in one run.

usage: python3 bench/min.py PROGRAM SHEET..

For each sheet, and for made sheets of 1 MiB, it runs both programs in turn and prints the median of
their times, the ratio of the medians, and the peak memory of `cssmin` (which the system never gives
as less than this script's own, some 15 MiB). A sheet that takes `cssmin` more than 20 seconds is only named.
"""

import os
import statistics
import subprocess
import sys
import tempfile

from timing import one_run

ROUNDS = 15
SECONDS = 20
MIB = 1 << 20
# The most items, and the most pairs of a selector and a declaration, that a sheet may have.
ITEMS = 16_384
PAIRS = 262_144


def measure(program, name, path):
    """Prints the line of one sheet."""
    try:
        with open(path, "rb") as sheet:
            subprocess.run([program, "min"], stdin=sheet, stdout=subprocess.DEVNULL, timeout=SECONDS, check=False)
    except subprocess.TimeoutExpired:
        print(f"{name:22} {os.path.getsize(path):8} bytes  cssmin more than {SECONDS} s")
        return
    ours, counts, memory = [], [], 0
    for _ in range(ROUNDS):
        took, peak = one_run([program, "min"], path)
        ours.append(took)
        memory = max(memory, peak)
        counts.append(one_run(["wc", "-c"], path)[0])
    ours, counts = statistics.median(ours), statistics.median(counts)
    print(
        f"{name:22} {os.path.getsize(path):8} bytes  cssmin {ours * 1000:7.2f} ms  "
        f"wc -c {counts * 1000:6.2f} ms  ratio {ours / counts:6.1f}  peak {memory / 1024:6.1f} MiB"
    )


def filled(part, most):
    """At most so many parts as fit into 1 MiB, of the text that `part` gives for each number."""
    parts, size, number = [], 0, 0
    while number < most and size + len(text := part(number)) <= MIB:
        parts.append(text)
        size += len(text)
        number += 1
    return "".join(parts)


def two_orders():
    """Two rules with the same selectors, each in an order of its own."""
    names = [f"a{n:x}" for n in range(84_000)]
    return ",".join(names) + "{top:0}" + ",".join(reversed(names)) + "{left:0}"


# 15 declarations, each another one
DECLARATIONS = ";".join(f"{name}:{name}" for name in "bcdefghijklmnop")

MADE = {
    "rules that differ": filled(lambda n: f".c{n} {{\n  color: red;\n  margin: 0 auto;\n  top: {n}px;\n}}\n", ITEMS),
    "rules that all join": filled(lambda n: f"a{{{DECLARATIONS}}}", ITEMS),
    "two orders": two_orders(),
    "many selectors": ",".join("a" * PAIRS) + "{b:c}",
    "one rule": "a{" + filled(lambda n: "b:c;", MIB // 4 - 1) + "}",
    "one kept at-rule": "@media print{" + filled(lambda n: "a:hover { b : c }\n", MIB // 18 - 1) + "}",
    "white space": " " * MIB,
}


def main():
    if len(sys.argv) < 2:
        sys.exit(__doc__)
    program = os.path.abspath(sys.argv[1])
    for path in sys.argv[2:]:
        measure(program, os.path.basename(path), path)
    for name, text in MADE.items():
        with tempfile.NamedTemporaryFile("w", suffix=".css") as sheet:
            sheet.write(text)
            sheet.flush()
            measure(program, name, sheet.name)


main()
