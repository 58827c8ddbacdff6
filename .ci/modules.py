#!/usr/bin/env python3
"""Tells which parts of a crate's last check took longest.

usage: python3 .ci/modules.py CRATE [COUNT]

`rt check` keeps each module that it has checked in a file of `crates/CRATE/out/incremental`. So the time between two files is about
what the later one took, if one job checked all of them: remove that folder, and run `rt check --jobs 1` in the crate's folder. A line
has the seconds and the module. `.Lts` ends the part of a function that says what is borrowed and dropped, `.Proof` its proof.
"""

import os
import sys

CRATES = os.path.join(os.path.dirname(os.path.dirname(os.path.abspath(__file__))), "crates")


def modules(crate):
    """The modules of a crate's last check, each with the time at which it was kept."""
    for folder, _, files in os.walk(os.path.join(CRATES, crate, "out", "incremental")):
        if os.path.basename(folder) != "records":
            yield from ((os.stat(os.path.join(folder, it)).st_mtime, it.removesuffix(".oantt")) for it in files if it.endswith(".oantt"))


def main(crate, count="20"):
    kept = sorted(modules(crate))
    if not kept:
        sys.exit(f"modules: {crate} has nothing in out/incremental: run `rt check --jobs 1` in its folder first")
    took = sorted(((later - earlier, module) for (earlier, _), (later, module) in zip(kept, kept[1:])), reverse=True)
    for seconds, module in took[: int(count)]:
        print(f"{seconds:8.1f}  {module}")
    print(f"{kept[-1][0] - kept[0][0]:8.1f}  all {len(kept)} modules")


if __name__ == "__main__":
    if len(sys.argv) not in (2, 3):
        sys.exit(__doc__)
    main(*sys.argv[1:])
