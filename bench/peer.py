#!/usr/bin/env python3
"""Measures `cssmin min` beside `esbuild --minify` on the same sheets, in one run.

usage: python3 bench/peer.py [--seconds N] PROGRAM SHEET_OR_FOLDER..

A folder stands for each `*.css` file below it that has at most 1 MiB and is not made by a minifier already (`*.min.css`).
Both programs read each sheet from standard input, one after the other. It prints a line for each sheet that took
`cssmin` longest, and at the end, of all sheets that both wrote, the processor time of both with their ratio, and the
bytes that were read and written. A sheet that `cssmin` refuses, or that takes it more than N seconds (60), is counted
apart.
"""

import argparse
import os
import subprocess
import sys
import time

MIB = 1 << 20
SHOWN = 10


def sheets_below(paths):
    """The sheets that the words name."""
    found = []
    for path in paths:
        if os.path.isfile(path):
            found.append(path)
        for at, folders, names in os.walk(path):
            folders.sort()
            found += [os.path.join(at, name) for name in sorted(names) if name.endswith(".css")
                      and not name.endswith(".min.css")]
    return [path for path in found if os.path.getsize(path) <= MIB]


def run(words, path, seconds):
    """The exit status of a run (None where it took too long), its processor seconds, and the bytes that it wrote."""
    with open(path, "rb") as sheet, open(os.devnull, "wb") as nothing:
        child = subprocess.Popen(words, stdin=sheet, stdout=subprocess.PIPE, stderr=nothing)
        try:
            out, _ = child.communicate(timeout=seconds)
        except subprocess.TimeoutExpired:
            child.kill()
            child.communicate()
            return None, float(seconds), 0
    return child.returncode, 0.0, len(out)


def timed(words, path, seconds):
    before = os.times()
    status, _, wrote = run(words, path, seconds)
    after = os.times()
    took = (after.children_user - before.children_user) + (after.children_system - before.children_system)
    return status, took, wrote


def main():
    words = argparse.ArgumentParser(description=__doc__, formatter_class=argparse.RawDescriptionHelpFormatter)
    words.add_argument("--seconds", type=int, default=60)
    words.add_argument("program")
    words.add_argument("sheets", nargs="+")
    given = words.parse_args()
    ours = [os.path.abspath(given.program), "min"]
    peer = ["esbuild", "--minify", "--loader=css"]
    rows, refused, late = [], 0, []
    for path in sheets_below(given.sheets):
        status, took, wrote = timed(ours, path, given.seconds)
        if status is None:
            late.append(path)
            continue
        if status != 0:
            refused += 1
            continue
        other, theirs, less = timed(peer, path, given.seconds)
        if other == 0:
            rows.append((took, theirs, os.path.getsize(path), wrote, less, path))
    rows.sort(reverse=True)
    for took, theirs, size, wrote, less, path in rows[:SHOWN]:
        print(f"{os.path.basename(path):34} {size:8} bytes  cssmin {took:7.3f} s {wrote:8}  esbuild {theirs:6.3f} s {less:8}")
    mine, theirs = sum(row[0] for row in rows), sum(row[1] for row in rows)
    if rows:
        read, wrote, less = (sum(row[k] for row in rows) for k in (2, 3, 4))
        print(f"{len(rows)} sheets, {read} bytes: cssmin {mine:.2f} s, {wrote} bytes; esbuild {theirs:.2f} s, {less} bytes; "
              f"ratio of times {mine / max(theirs, 1e-9):.2f}, of bytes {wrote / less:.4f}")
    print(f"refused by cssmin: {refused}; over {given.seconds} seconds: {len(late)}")
    for path in late:
        print(f"  {os.path.basename(path)} ({os.path.getsize(path)} bytes)")
    return 0


if __name__ == "__main__":
    sys.exit(main())
