#!/usr/bin/env python3
"""Makes the list of docs/BELIEVE.md: the definitions that the statement of `min` rests on.

Usage: .ci/believe.py [--write]

The closure by names: what the statement names, what that names, and so on. A name that is also the name of a
variable counts where the file takes it from another one. Without `--write` it compares the list with the page,
prints what differs, and ends with 1 where something does.
"""

import os

import made_part
from definitions import Definitions

PAGE = "docs/BELIEVE.md"
SCRIPT = ".ci/believe.py"

# The record of the facts; the law of `run` on `min`, and what the contract of `run` names beside it. Of a record that is named
# among the fields, these count alone.
FACTS = "IsMergedOpened"
LAW = ["DoneIsMerged", "change_of"]
FIELDS = {
    "Merges": ["merged"],
    "MergesWithin": ["merged"],
    "IsMergedWithin": ["old_read", "again_read", "winners", "no_longer"],
}

# What the law names and nobody has to believe: `run` gives `Ran`, so that the law rests on what `run` does, whatever
# `Ran` says; and the four facts do not name the answers, for which the other two serve.
LEFT_OUT = ["Ran", "answer_seen", "PairsParts"]


def table(definitions, heading):
    """A row for each file, with its definitions and their lines; and the line of the sums."""
    definitions = [one for one in definitions if not one.is_view]
    files = {}
    for one in definitions:
        files.setdefault(one.path, []).append(one)
    rows = [f"| {heading} | lines | definitions |\n|---|---|---|\n"]
    for path, found in sorted(files.items()):
        names = ", ".join(f"`{one.name}`" for one in found)
        rows.append(f"| `{path.removeprefix('crates/')}` | {sum(len(one.lines) for one in found)} | {names} |\n")
    lines = sum(len(one.lines) for one in definitions)
    rows.append(f"\n{len(files)} files, {len(definitions)} definitions, {lines:,} lines.\n")
    return "".join(rows)


def made():
    all_of = Definitions()
    facts = all_of.closure([FACTS], FIELDS)
    law = all_of.closure(LAW, FIELDS, LEFT_OUT)
    code = [one for one in facts.values() if one.scope is None]
    link = [one for key, one in law.items() if key not in facts]
    parts = [
        "The four facts rest on these definitions, in `crates/`:\n\n",
        table([one for one in facts.values() if one.scope is not None], "file"),
        "\nThey speak of these types of the code, whose fields and variants count alone:\n\n",
        table(code, "file"),
        "\nThe law that leads to these facts from the words of a command line and from the streams adds:\n\n",
        table(link, "file"),
    ]
    return "".join(parts)


os.chdir(os.path.join(os.path.dirname(os.path.abspath(__file__)), ".."))
made_part.run(PAGE, SCRIPT, made())
