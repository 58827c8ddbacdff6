#!/usr/bin/env python3
"""Tries logs of refutations against a plain checker.

usage: python3 bench/logs.py PROGRAM [COUNT]

Draws pairs of selectors until PROGRAM, called as `cmp LEFT RIGHT --log`, has written COUNT logs (100).
Each log is followed by `PROGRAM check` and by the checker below, which propagates without watches: as it
is, and with one step left out, one literal changed, two steps exchanged, and one clause left out. Where
the two differ in their answer, the log is printed and the status is 1. Then the times of both commands.
"""

import random
import re
import subprocess
import sys
import time

LINE = re.compile(r"(?:-?[1-9][0-9]* )*0")
KINDS = ["a", "b", "c", "*"]
TESTS = ["", "", ":root", ":first-child", ":last-child", ":nth-child(2n)", ":nth-child(2n+1)", ":nth-child(3n+2)",
         ":nth-last-child(2)", ":empty", ":only-child", "#x", "#y", ":link", ":visited", ":not(a)", "[q=u]", "[q=v]"]


def read(text):
    """The variables, clauses and steps of a log, or the number of its first bad line."""
    *lines, rest = text.split("\n")
    head = lines and re.fullmatch(r"vars (0|[1-9][0-9]*) clauses (0|[1-9][0-9]*)", lines[0])
    if not head:
        return 1
    variables, count = int(head[1]), int(head[2])
    found = []
    for number, line in enumerate(lines[1:], 2):
        clause = LINE.fullmatch(line) and [int(word) for word in line.split()[:-1]]
        if clause is None or any(abs(lit) > variables for lit in clause):
            return number
        if len(found) >= count and len({abs(lit) for lit in clause}) < len(clause):
            return number
        found.append(clause)
    if len(found) < count or rest:
        return len(lines) + 1
    return variables, found[:count], found[count:]


def is_forced(clauses, step):
    """Whether unit propagation from the negated literals of a step makes a clause false."""
    true = {-lit for lit in step}
    again = True
    while again:
        again = False
        for clause in clauses:
            if any(lit in true for lit in clause):
                continue
            left = {lit for lit in clause if -lit not in true}
            if not left:
                return True
            if len(left) == 1:
                true |= left
                again = True
    return False


def check(text):
    """The answer for a log."""
    log = read(text)
    if isinstance(log, int):
        return f"line {log}"
    _, clauses, steps = log
    if [] in clauses:
        return "yes"
    clauses = list(clauses)
    for number, step in enumerate(steps, 1):
        if not is_forced(clauses, step):
            return f"no {number}"
        clauses.append(step)
        if not step:
            break
    return "yes" if steps and not steps[-1] else f"no {len(steps) + 1}"


def run(words, text=""):
    begin = time.perf_counter()
    done = subprocess.run(words, input=text, capture_output=True, text=True, timeout=300)
    took = time.perf_counter() - begin
    found = re.search(r"line [0-9]+", done.stderr)
    return (done.stdout if done.returncode == 0 else found[0] if found else f"status {done.returncode}"), took


def compound(draw):
    return draw.choice(KINDS) + draw.choice(TESTS) + (draw.choice(TESTS) if draw.random() < 0.3 else "")


def selector(draw):
    parts = [compound(draw)]
    for _ in range(draw.choice([0, 1, 1, 2, 2, 3])):
        parts += [draw.choice(" >+~"), compound(draw)]
    return "".join(parts)


def spoilt(draw, variables, clauses, steps):
    """A log with one thing wrong, for each kind of wrong."""
    def text(clauses, steps):
        lines = [" ".join([*map(str, clause), "0"]) for clause in clauses + steps]
        return "\n".join([f"vars {variables} clauses {len(clauses)}", *lines, ""])

    at = draw.randrange(len(clauses))
    yield "clause left out", text(clauses[:at] + clauses[at + 1:], steps)
    if not steps:
        return
    at = draw.randrange(len(steps))
    yield "step left out", text(clauses, steps[:at] + steps[at + 1:])
    step = list(steps[draw.randrange(len(steps))]) or [1]
    other = draw.randrange(len(step))
    step[other] = -step[other]
    at = draw.randrange(len(steps))
    yield "literal changed", text(clauses, steps[:at] + [step] + steps[at + 1:])
    one, two = draw.randrange(len(steps)), draw.randrange(len(steps))
    moved = list(steps)
    moved[one], moved[two] = moved[two], moved[one]
    yield "steps exchanged", text(clauses, moved)


def main():
    if len(sys.argv) not in (2, 3):
        sys.exit(__doc__.split("\n\n")[1])
    program, wanted = sys.argv[1], int(sys.argv[2]) if len(sys.argv) == 3 else 100
    draw, rows, told, differ = random.Random(17), [], {}, 0

    def both(kind, text):
        nonlocal differ
        answer, took = run([program, "check"], text)
        if answer.strip() != check(text):
            differ += 1
            print(f"{kind}: {answer.strip()} against {check(text)}\n{text}")
        word = answer.split()[0]
        told[kind, word] = told.get((kind, word), 0) + 1
        return took

    tried = 0
    while len(rows) < wanted:
        left, right = selector(draw), selector(draw)
        tried += 1
        text, solved = run([program, "cmp", left, right, "--log"])
        if not text.startswith("vars "):
            continue
        took = both("as it is", text)
        _, clauses, steps = log = read(text)
        rows.append((len(clauses), len(steps), len(text), solved, took))
        for kind, other in spoilt(draw, *log):
            both(kind, other)
    print(f"{tried} pairs, {len(rows)} logs; answers that differ: {differ}")
    for (kind, word), count in sorted(told.items()):
        print(f"{kind}: {count} times `{word}`")
    for name, row in ("median", sorted(rows)[len(rows) // 2]), ("largest", max(rows)):
        print(f"{name} log: {row[0]} clauses, {row[1]} steps, {row[2]} bytes; cmp {row[3] * 1000:.0f} ms, check {row[4] * 1000:.0f} ms")
    print(f"most steps: {max(row[1] for row in rows)}; all: cmp {sum(row[3] for row in rows):.1f} s, check {sum(row[4] for row in rows):.1f} s")
    sys.exit(1 if differ else 0)


if __name__ == "__main__":
    main()
