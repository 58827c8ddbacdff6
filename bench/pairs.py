#!/usr/bin/env python3
"""Measures the answers for pairs of selectors against `wc -c` on the same sheets, both in one run.

usage: python3 bench/pairs.py PROGRAM SHEET..
       python3 bench/pairs.py --hard CSSMIN [SEED]

PROGRAM is `bench_counts`, which with the word `pairs` reads a sheet from standard input and asks for every
ordered pair of its selectors whether they meet. For each sheet, and for all together, it runs both programs in turn and
prints what PROGRAM counted, the median of the times, the ratio of the medians, and how many pairs
PROGRAM answers in a second of its own time beyond that of an empty sheet.

With `--hard` it asks CSSMIN, the program itself, for pairs that are hard for a solver: those of
`hard-pairs.tsv`, and 200 that are drawn by SEED (1). Each has up to four steps of `:nth-child` or
`:nth-last-child` beside combinators. For both kinds it prints how many meet and are disjoint, and the
pairs with the greatest processor time and with the most learned clauses: the least budget with which an
answer comes. A run is ended after 60 seconds.
"""

import os
import random
import re
import resource
import statistics
import subprocess
import sys

from timing import one_run

ROUNDS = 15
DRAWN = 200
SECONDS = 60
MOST_BUDGET = 20_000


def counts(program, path):
    """How many pairs meet, are apart, and are not compared."""
    with open(path, "rb") as sheet:
        text = subprocess.run([program, "pairs"], stdin=sheet, stdout=subprocess.PIPE, check=True, text=True).stdout
    return [int(word) for word in re.findall(r"[0-9]+", text)]


def medians(program, path):
    """The medians of the times of PROGRAM and of `wc -c` on a sheet."""
    pairs = [(one_run([program, "pairs"], path)[0], one_run(["wc", "-c"], path)[0]) for _ in range(ROUNDS)]
    return [statistics.median(times) for times in zip(*pairs)]


def tell(name, start, meet, apart, outside, ours, theirs):
    beyond = ours - start
    speed = f"{(meet + apart + outside) / beyond:9,.0f} pairs/s" if beyond > 0 else "no time to measure"
    print(
        f"{name:18} {meet:6} meet {apart:6} apart {outside:4} outside  bench_counts {ours * 1000:7.2f} ms  "
        f"wc -c {theirs * 1000:6.2f} ms  ratio {ours / theirs:6.1f}  {speed}"
    )


def asked(program, pair, *options):
    """The first word of an answer, and the processor seconds that it took; None where it did not end."""
    before = resource.getrusage(resource.RUSAGE_CHILDREN)
    try:
        run = subprocess.run([program, "cmp", *options, *pair], capture_output=True, text=True, timeout=SECONDS)
    except subprocess.TimeoutExpired:
        return None, SECONDS
    after = resource.getrusage(resource.RUSAGE_CHILDREN)
    took = after.ru_utime - before.ru_utime + after.ru_stime - before.ru_stime
    return (run.stdout + run.stderr).split()[0], took


def learned(program, pair):
    """The least budget of learned clauses with which an answer comes, or the greatest budget."""
    def suffices(budget):
        return asked(program, pair, "--budget", str(budget))[0] not in (None, "spent")

    low, high = -1, 0
    while not suffices(high):
        if high == MOST_BUDGET:
            return high
        low, high = high, min(2 * high + 1, MOST_BUDGET)
    while high - low > 1:
        middle = (low + high) // 2
        low, high = (low, middle) if suffices(middle) else (middle, high)
    return high


def drawn_pair(draw):
    """Two selectors with four steps of 20 to 32 between them, and sometimes a test that is refused."""
    lengths = [draw.choice((1, 1, 2, 2, 3)), draw.choice((1, 2, 2, 3))]
    chains = [[draw.choice(("", "", "a", "b", ".a", ".b")) for _ in range(length)] for length in lengths]
    for _ in range(4):
        chain = draw.choice(chains)
        place = draw.randrange(len(chain))
        step, offset = draw.randrange(20, 33), draw.choice((draw.randrange(32), draw.randrange(1000)))
        name = draw.choice(("nth-child", "nth-child", "nth-child", "nth-last-child"))
        test = f":{name}({step}n+{offset})"
        chain[place] += f":not({test})" if draw.random() < 0.15 else test
    texts = []
    for chain in chains:
        text = chain[0] or "*"
        for compound in chain[1:]:
            text += draw.choice("++~~> ") + (compound or "*")
        texts.append(text)
    return texts


def tell_hard(name, program, pairs):
    """How the pairs of a kind are answered, and which of them took most."""
    answers = [(*asked(program, pair), pair) for pair in pairs]
    budgets = [(learned(program, pair), pair) for pair in pairs]
    words = [answer[0] or "not ended" for answer in answers]
    kinds = {word: words.count(word) for word in sorted(set(words))}
    print(f"{name:12} {len(pairs):4} pairs  {', '.join(f'{count} {word}' for word, count in kinds.items())}")
    took, slowest = max((answer[1], answer[2]) for answer in answers)
    most, hardest = max(budgets)
    print(f"    most time     {took:9.3f} s  {' | '.join(slowest)}")
    print(f"    most learned  {most:9,}    {' | '.join(hardest)}")


def hard(program, seed):
    with open(os.path.join(os.path.dirname(os.path.abspath(__file__)), "hard-pairs.tsv")) as rows:
        tell_hard("hard pairs", program, [row.rstrip("\n").split("\t") for row in rows])
    draw = random.Random(seed)
    tell_hard(f"drawn by {seed}", program, [drawn_pair(draw) for _ in range(DRAWN)])


def main():
    if len(sys.argv) < 3:
        sys.exit(__doc__)
    if sys.argv[1] == "--hard":
        return hard(os.path.abspath(sys.argv[2]), int(sys.argv[3]) if len(sys.argv) > 3 else 1)
    program, sheets = os.path.abspath(sys.argv[1]), sys.argv[2:]
    start, _ = medians(program, os.devnull)
    rows = [counts(program, path) + medians(program, path) for path in sheets]
    for path, row in zip(sheets, rows):
        tell(os.path.basename(path), start, *row)
    tell("all", start * len(rows), *(sum(column) for column in zip(*rows)))


main()
