#!/usr/bin/env python3
"""Runs `rt ci`, and lets it find what stands below a crate, and sum up its files, once and not again and again.

usage: python3 .ci/gate.py

`rt ci` asks for the crates below a crate, and for the sum of all files that a crate is made from. Some kits find both anew for each
way from a crate down to another one. There are three million such ways in this repository, which takes hours. A run from nothing uses
the sums for nothing else than to compare a crate with itself, before and after its proof. So here the crates below stay, and a sum
stays for as long as the files do, by their sizes and the times of their last change. What is proved, tried and printed is that of
`rt ci`, and so is the status.
"""

import importlib.machinery
import importlib.util
import os
import shutil
import sys


def kit():
    """The module of the command `rt`. No file is written beside it."""
    sys.dont_write_bytecode = True
    path = shutil.which("rt") or sys.exit("gate: the command `rt` is not on the PATH")
    loader = importlib.machinery.SourceFileLoader("rt", os.path.realpath(path))
    module = importlib.util.module_from_spec(importlib.util.spec_from_loader("rt", loader))
    loader.exec_module(module)
    return module


def keep_below(library):
    """Lets the kit's library find the crates below a crate once. A crate asks for them when it knows all that it uses."""
    find = library.Crate.below

    def below(crate):
        if not hasattr(crate, "found_below"):
            crate.found_below = find(crate)
        return [*crate.found_below]

    library.Crate.below = below


def state(crate, library):
    """The files of a crate, each with its size and the time of its last change."""
    facts = ((file, os.stat(file)) for file in library.files_of(crate.folder))
    return [(file, fact.st_size, fact.st_mtime_ns) for file, fact in facts]


def keep_sums(library):
    """Lets the kit's library make the sum of a crate once for each state of its files and of the files below."""
    make, kept = library.Crate.stamp, {}

    def stamp(crate):
        now = [state(it, library) for it in [*crate.below(), crate]]
        if kept.get(crate.folder, (None,))[0] != now:
            kept[crate.folder] = now, make(crate)
        return kept[crate.folder][1]

    library.Crate.stamp = stamp


if __name__ == "__main__":
    rt = kit()
    if hasattr(rt.rtlib.Crate, "below"):
        keep_below(rt.rtlib)
    if hasattr(rt.rtlib.Crate, "stamp"):
        keep_sums(rt.rtlib)
    sys.exit(rt.main(["ci"]))
