#!/usr/bin/env python3
"""Measures the search on pairs of selectors with positions.

usage: python3 bench/positions.py PROGRAM [COUNT] [SOLVER]

Draws pairs with up to four positions until PROGRAM, called as `cmp LEFT RIGHT --log`, has written COUNT
logs (40) of three steps or more, and prints the steps of the longest and the processor time of all. With
SOLVER, a program that is called as minisat is, the same formulas are given to it, as DIMACS files.
"""

import math
import random
import re
import resource
import subprocess
import sys
import tempfile

STEPS = [6, 8, 9, 10, 12, 14, 15, 16, 18, 20, 21, 22, 24, 25, 26, 27, 28, 30, 32]
SECONDS = 60


def timed(words):
    """What a program writes, or nothing where it takes too long, and its processor time in seconds."""
    before = resource.getrusage(resource.RUSAGE_CHILDREN)
    try:
        text = subprocess.run(words, capture_output=True, text=True, timeout=SECONDS).stdout
    except subprocess.TimeoutExpired:
        text = ""
    after = resource.getrusage(resource.RUSAGE_CHILDREN)
    return text, after.ru_utime - before.ru_utime + after.ru_stime - before.ru_stime


def selector(draw):
    """A selector of two or three compounds, and how many positions it has."""
    parts, positions = [], 0
    for k in range(draw.choice([2, 2, 3])):
        if k > 0:
            parts.append(draw.choice("+++~>"))
        if positions < 2 and draw.random() < 0.6:
            step = draw.choice(STEPS)
            kind = "last-child" if draw.random() < 0.15 else "child"
            parts.append(f":nth-{kind}({step}n+{draw.randrange(1, step + 1)})")
            positions += 1
        else:
            parts.append(draw.choice(["*", "*", ".a", "a"]))
    return "".join(parts), positions


def solved(solver, text):
    """The conflicts and the time of a solver on the formula of a log."""
    head, *lines = text.splitlines()
    words = head.split()
    with tempfile.NamedTemporaryFile("w", suffix=".cnf") as file:
        file.write("\n".join([f"p cnf {words[1]} {words[3]}", *lines[:int(words[3])], ""]))
        file.flush()
        said, took = timed([solver, file.name])
    found = re.search(r"conflicts\s*:\s*([0-9]+)", said)
    return int(found[1]) if found else 0, took


def told(name, counts, took):
    mean = math.exp(sum(math.log(count + 1) for count in counts) / len(counts)) - 1
    print(f"{name}: {sum(counts)} in all, {mean:.0f} as the geometric mean, {max(counts)} at most; {took:.1f} s")


def main():
    if len(sys.argv) not in (2, 3, 4):
        sys.exit(__doc__.split("\n\n")[1])
    program, count = sys.argv[1], int(sys.argv[2]) if len(sys.argv) > 2 else 40
    draw, logs, steps, took = random.Random(5), [], [], 0
    while len(logs) < count:
        left, right = selector(draw), selector(draw)
        if not 2 <= left[1] + right[1] <= 4:
            continue
        text, seconds = timed([program, "cmp", left[0], right[0], "--log"])
        if not text.startswith("vars "):
            continue
        learned = text.count("\n") - 1 - int(text.split(maxsplit=4)[3])
        if learned < 3:
            continue
        logs.append(text)
        steps.append(learned)
        took += seconds
    told(f"steps of {count} logs", steps, took)
    if len(sys.argv) == 4:
        others = [solved(sys.argv[3], text) for text in logs]
        told(f"conflicts of {sys.argv[3]}", [one for one, _ in others], sum(seconds for _, seconds in others))


if __name__ == "__main__":
    main()
