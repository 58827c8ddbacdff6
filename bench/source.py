#!/usr/bin/env python3
"""Counts what is hard to read in the sources: parameters, clauses, lines by class, and lines that occur in two crates.

usage: python3 bench/source.py [CRATE..]

Without names it counts all crates. It prints a line for each crate with a function of more than eight parameters, then
the sums. Run it before and after a change of the code's form.
"""

import collections
import os
import re
import sys

MOST = 8
WINDOW = 6

FUNCTION = re.compile(r"^\s*(?:pub(?:\([a-z]+\))? )?(?:const )?fn (\w+)", re.M)
CLAUSE = re.compile(r"^\s*(?:requires|ensures)\*? ", re.M)


def files_of(crate, ending):
    """The files of a crate with this ending, but for what `rt` makes."""
    found = []
    for part in ("src", "specs", "proofs"):
        for at, folders, names in os.walk(f"crates/{crate}/{part}"):
            folders.sort()
            found += [os.path.join(at, name) for name in sorted(names) if name.endswith(ending)]
    return found


def closing(text, at, opening="(", shutting=")"):
    """The place of the bracket that closes the one at this place."""
    depth = 0
    for place in range(at, len(text)):
        if text[place] == opening:
            depth += 1
        elif text[place] == shutting:
            depth -= 1
            if depth == 0:
                return place
    raise SystemExit(f"no end of the bracket: {text[at:at + 60]!r}")


def parameters(inside):
    """How many parameters a list of them has, `self` with them."""
    depth, count, rest = 0, 0, ""
    for letter in inside.replace("->", "  "):
        if letter in "(<[{":
            depth += 1
        elif letter in ")>]}":
            depth -= 1
        if letter == "," and depth == 0:
            count += 1
            rest = ""
        else:
            rest += letter
    return count + bool(rest.strip())


def functions_of(text):
    """The name of each function of a file, how many parameters it has, and how many clauses."""
    starts = [found for found in FUNCTION.finditer(text)]
    for number, found in enumerate(starts):
        at = found.end()
        if text[at:at + 1] == "<":
            at = closing(text, at, "<", ">") + 1
        end = closing(text, at)
        behind = starts[number + 1].start() if number + 1 < len(starts) else len(text)
        yield found[1], parameters(text[at + 1:end]), len(CLAUSE.findall(text, end, behind))


def class_of(path, line):
    """The class of a line: blank, use, comment, clause, definition, answer, lemma or code."""
    bare = line.strip()
    if not bare:
        return "blank"
    if re.match(r"(pub )?(ghost )?use ", bare):
        return "use"
    if bare.startswith(("//", "--")):
        return "comment"
    if path.endswith(".rt"):
        return "clause" if CLAUSE.match(line) else "code"
    if "/specs/" in path:
        return "definition"
    return "answer" if path.endswith(("Answers.antt", "Invariants.antt")) else "lemma"


def windows(crate):
    """Each six lines of a crate that stand one after the other, without blank lines, comments and `use`."""
    found = set()
    for path in files_of(crate, ".rt") + files_of(crate, ".antt"):
        with open(path, encoding="utf-8") as file:
            lines = [line.strip() for line in file if class_of(path, line) not in ("blank", "use", "comment")]
        for at in range(len(lines) - WINDOW + 1):
            part = tuple(lines[at:at + WINDOW])
            if sum(map(len, part)) > 120:
                found.add(part)
    return found


def main():
    crates = sys.argv[1:] or sorted(os.listdir("crates"))
    counts, clauses, classes, shared = [], [], collections.Counter(), collections.defaultdict(set)
    for crate in crates:
        own = []
        for path in files_of(crate, ".rt"):
            with open(path, encoding="utf-8") as file:
                own += list(functions_of(file.read()))
        for path in files_of(crate, ".rt") + files_of(crate, ".antt"):
            with open(path, encoding="utf-8") as file:
                for line in file:
                    classes[class_of(path, line)] += 1
        for part in windows(crate):
            shared[part].add(crate)
        over = [name for name, number, _ in own if number > MOST]
        if over or sys.argv[1:]:
            mean = sum(number for _, number, _ in own) / max(len(own), 1)
            print(f"{crate}: {len(own)} functions, {mean:.2f} parameters in the mean, over {MOST}: {', '.join(over) or 'none'}")
        counts += [number for _, number, _ in own]
        clauses += [number for _, _, number in own]
    twice = sum(len(names) > 1 for names in shared.values())
    print(f"functions: {len(counts)}")
    print(f"parameters: {sum(counts) / len(counts):.2f} in the mean, {max(counts)} at most, {sum(n > MOST for n in counts)} functions over {MOST}")
    print(f"clauses: {sum(clauses) / len(clauses):.2f} in the mean, {max(clauses)} at most")
    print("lines: " + ", ".join(f"{name} {number}" for name, number in classes.most_common()) + f", all {sum(classes.values())}")
    print(f"sets of {WINDOW} lines that occur in two crates or more: {twice}")


if __name__ == "__main__":
    main()
