#!/usr/bin/env python3
"""Makes the list of crates of docs/ARCHITECTURE.md: what each is, and whether the program uses it.

Usage: .ci/crates.py [--write]

The crates and what each uses are those of crates.txt, in its order; what a crate is, is the first sentence of its
page. Without `--write` it compares the list with the page, prints what differs, and ends with 1 where something does.
"""

import os
import re

import made_part
from claims import first_sentence
from definitions import text_of

PAGE = "docs/ARCHITECTURE.md"
SCRIPT = ".ci/crates.py"
PROGRAM = "cssmin"

LINE = re.compile(r"^(\w+)(?: staticlib)?:(.*)$", re.M)


def about(crate):
    """The first sentence of the page of a crate."""
    for file in ("lib.rt", "main.rt"):
        path = f"crates/{crate}/src/{file}"
        if os.path.exists(path):
            lines = []
            for line in text_of(path).split("\n"):
                if not line.startswith("//!") or not line[3:].strip():
                    break
                lines.append(line[3:].strip())
            return first_sentence(" ".join(lines))
    raise SystemExit(f"crates/{crate}: neither lib.rt nor main.rt")


def used_by(crate, uses):
    """A crate, and all that it uses, and so on."""
    reached = set()
    waiting = [crate]
    while waiting:
        one = waiting.pop()
        if one not in reached:
            reached.add(one)
            waiting += uses[one]
    return reached


def made():
    named = {crate: names.split() for crate, names in LINE.findall(text_of("crates.txt"))}
    uses = {crate: [name for name in names if name in named] for crate, names in named.items()}
    program = used_by(PROGRAM, uses)
    rows = [f"| `{crate}` | {about(crate)} | {'yes' if crate in program else ''} |\n" for crate in named]
    return f"| crate | what it is | below `{PROGRAM}` |\n|---|---|---|\n" + "".join(rows)


if __name__ == "__main__":
    os.chdir(os.path.join(os.path.dirname(os.path.abspath(__file__)), ".."))
    made_part.run(PAGE, SCRIPT, made())
