#!/usr/bin/env python3
"""Measures how the time of `cssmin min` grows on sheets that are made to be slow.

usage: python3 bench/slow.py [--seconds N] [--kind WORD] PROGRAM [OPTION..]

It makes each kind of sheet in three sizes, and runs the program once on each, as `PROGRAM min OPTION..`. For each run it
prints the sheet's bytes, the processor time with its start, and the peak memory. For each kind it prints the exponent:
if the time grows like bytes to the power of e, it is e, between the first and the last size that ended. A run is ended
after N seconds of processor time (60); then no larger size of its kind is tried. `--kind WORD` measures the kinds whose
names have the word.
"""

import random

import growth

ONE = "b:c"
THREE = "color:red;margin:0 auto;top:0"
FIFTEEN = ";".join(f"{name}:{name}" for name in "bcdefghijklmnop")
COMMON = [f"common-{number}:{number}px" for number in range(40)]
UTILITIES = ["margin", "padding", "width", "height", "top", "left", "gap", "inset", "order", "flex", "columns"]


def each(count, rule):
    """The texts of so many rules, one after the other."""
    return "".join(rule(number) for number in range(count))


def utility(number):
    """A flat utility class, as Tailwind makes them: some properties, many values, five variants."""
    name = UTILITIES[number % 11]
    value = number // 11 % 97
    variant = number // (11 * 97)
    return f".v{variant}\\:{name}-{value}{{{name}:{value}px}}"


def block(number):
    """A rule with one to five of forty common declarations, and some of its own."""
    draw = random.Random(number)
    common = draw.sample(COMMON, draw.randrange(1, 6))
    own = [f"own-{draw.randrange(7)}:{draw.randrange(60)}px" for _ in range(draw.randrange(3))]
    return f".block{number // 8}__part{number % 8}{{{';'.join(common + own)}}}"


def orders(count):
    """Two rules with the same selectors, each in an order of its own."""
    names = [f"a{number:x}" for number in range(count)]
    return f"{','.join(names)}{{top:0}}{','.join(reversed(names))}{{left:0}}"


# The sheets by their numbers, and three of these numbers.
KINDS = {
    "equal declarations in a rule": (lambda n: f"a{{{f'{ONE};' * n}}}", (65_536, 131_072, 262_143)),
    "equal selectors in a rule": (lambda n: f"{','.join('a' * n)}{{{ONE}}}", (65_536, 131_072, 262_144)),
    "the same selectors in two orders": (orders, (1_000, 2_000, 4_000)),
    "utilities": (lambda n: each(n, utility), (2_000, 4_000, 8_000)),
    "common declarations": (lambda n: each(n, block), (500, 1_000, 2_000)),
    "ids": (
        lambda n: each(n, lambda k: f"#a{k}{{top:{k}px}}") + each(n, lambda k: f"#a{k}{{left:{k}px}}"),
        (250, 500, 1_000),
    ),
    "ids in two rules": (
        lambda n: "".join(
            f"{','.join(f'#{name}{k}' for k in range(n))}{{top:{value}}}" for name, value in (("a", 0), ("b", 1), ("a", 2))
        ),
        (250, 500, 1_000),
    ),
    "two shared of three": (
        lambda n: each(n, lambda k: f".c{k}{{color:red;margin:0 auto;top:{k}px}}"),
        (1_000, 2_000, 4_000),
    ),
    "rules that all join": (lambda n: f"a{{{FIFTEEN}}}" * n, (1_000, 2_000, 4_000)),
    "kept at-rules between": (lambda n: f"a{{{ONE}}}@x;" * n, (2_048, 4_096, 8_192)),
    "copies of 90 rules": (lambda n: each(90, lambda k: f".r{k}{{p{k}:1}}") * n, (45, 90, 180)),
    "one selector": (lambda n: each(n, lambda k: f"a{{b{k:x}:c}}"), (4_000, 8_000, 16_000)),
    "equal rules of one": (lambda n: f"a{{{ONE}}}" * n, (4_000, 8_000, 16_000)),
    "equal rules of three": (lambda n: f"a{{{THREE}}}" * n, (4_000, 8_000, 16_000)),
    "one declaration": (lambda n: each(n, lambda k: f".c{k:x}{{{ONE}}}"), (4_000, 8_000, 16_000)),
    "three declarations": (lambda n: each(n, lambda k: f".c{k:x}{{{THREE}}}"), (4_000, 8_000, 16_000)),
    "bodies of media": (
        lambda n: each(n, lambda k: f"@media (min-width:{k}px){{{each(16, utility)}}}"),
        (250, 500, 1_000),
    ),
    "hard positions": (
        lambda n: each(n, lambda k: f":nth-child({25 + k}n):nth-child(31n){{top:{k}px}}*+:nth-child(30n+1):nth-child(29n){{top:1em}}"),
        (5, 10, 20),
    ),
}


growth.measure_all(__doc__, KINDS)
