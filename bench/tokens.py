#!/usr/bin/env python3
"""Measures the reading of tokens against `wc -c` on the same texts, both in one run.

usage: python3 bench/tokens.py PROGRAM

PROGRAM is `bench_counts`, which with the word `tokens` reads a sheet from standard input and prints how many
tokens it has.
For texts of 1 MiB, ordinary and hostile ones, it runs both programs in turn and prints the median of
their times, the ratio of the medians, and how much of the text PROGRAM reads in a second of its own
time beyond that of an empty text.
"""

import os
import statistics
import sys
import tempfile

from timing import one_run

ROUNDS = 15
MIB = 1 << 20

TEXTS = {
    "rules": "  .c1 { color: red; top: 12px }\n",
    "one ident": "a",
    "hyphens": "-",
    "numbers": "1.5e3 ",
    "comments": "/* a */",
    "one comment": "/*" + "a" * (MIB - 4) + "*/",
    "one string": '"' + "a" * (MIB - 2) + '"',
    "strings": '"a"',
    "escapes": "\\31 ",
    "long escapes": "\\000031",
    "urls": "url(a)",
    "names in capitals": "URL ",
    "signs": ";",
    "white space": " ",
    "code points": "\N{EURO SIGN}",
}


def medians(program, text):
    """The medians of the times of PROGRAM and of `wc -c` on a text."""
    with tempfile.NamedTemporaryFile("w", suffix=".css", encoding="utf-8") as sheet:
        sheet.write(text)
        sheet.flush()
        pairs = [(one_run([program, "tokens"], sheet.name)[0], one_run(["wc", "-c"], sheet.name)[0]) for _ in range(ROUNDS)]
    return [statistics.median(times) for times in zip(*pairs)]


def main():
    if len(sys.argv) != 2:
        sys.exit(__doc__)
    program = os.path.abspath(sys.argv[1])
    start, _ = medians(program, "")
    for name, part in TEXTS.items():
        text = part * (MIB // len(part.encode()))
        ours, theirs = medians(program, text)
        beyond = ours - start
        speed = f"{len(text.encode()) / MIB / beyond:7.0f} MiB/s" if beyond > 0 else "no time to measure"
        print(
            f"{name:18} bench_counts {ours * 1000:7.2f} ms  wc -c {theirs * 1000:6.2f} ms  "
            f"ratio {ours / theirs:6.1f}  {speed}"
        )


main()
