#!/usr/bin/env python3
"""Measures the solver on formulas, beside another solver, both in one run.

usage: python3 bench/formulas.py PROGRAM SOLVER [FILE..]

PROGRAM is `bench_counts`, SOLVER is called as minisat is. Each FILE is a DIMACS file or a log of
`cssmin cmp LEFT RIGHT --log`, of which the formula counts; with none, formulas with three literals a clause
are drawn. For each it prints the processor time of both, without that of an empty formula, the ratio of the
times, the clauses of the ledger (0 where there is a model), and the conflicts of SOLVER.
"""

import random
import re
import resource
import subprocess
import sys
import tempfile

ROUNDS = 3
SECONDS = 0.3


def timed(words, text=""):
    """What a program writes, and its processor time in seconds: the least of some rounds."""
    took = []
    for _ in range(ROUNDS):
        before = resource.getrusage(resource.RUSAGE_CHILDREN)
        said = subprocess.run(words, input=text, capture_output=True, text=True).stdout
        after = resource.getrusage(resource.RUSAGE_CHILDREN)
        took.append(after.ru_utime - before.ru_utime + after.ru_stime - before.ru_stime)
    return said, min(took)


def counted(program, body):
    """How many clauses PROGRAM learned for a formula, and its time for one answer."""
    start = timed([program, "formulas"], f"0\n{body}")[1]
    once, took = timed([program, "formulas"], f"1\n{body}")
    times = max(1, min(1000, int(SECONDS / max(took - start, 0.0001))))
    took = timed([program, "formulas"], f"{times}\n{body}")[1] - start
    return int(re.search(r"learned ([0-9]+)", once)[1]), max(took, 0) / times


def solved(solver, variables, clauses):
    """The conflicts and the time of SOLVER."""
    with tempfile.NamedTemporaryFile("w", suffix=".cnf") as file:
        file.write("\n".join([f"p cnf {variables} {len(clauses)}", *clauses, ""]))
        file.flush()
        said, took = timed([solver, file.name])
    found = re.search(r"conflicts\s*:\s*([0-9]+)", said)
    return int(found[1]) if found else 0, took


def read(path):
    """The variables and the clauses of a DIMACS file or of a log."""
    with open(path) as file:
        lines = [line.strip() for line in file if not line.startswith("c")]
    words = lines[0].split()
    variables, count = int(words[2 if words[0] == "p" else 1]), int(words[3])
    return variables, lines[1:count + 1]


def three(draw, variables, count):
    """A formula of clauses with three literals."""
    picked = [draw.sample(range(1, variables + 1), 3) for _ in range(count)]
    return variables, [" ".join(str(draw.choice((1, -1)) * v) for v in clause) + " 0" for clause in picked]


def drawn():
    draw = random.Random(3)
    for k in range(3):
        yield f"three, 150 ({k})", three(draw, 150, 640)
    yield "three, 200", three(draw, 200, 852)


def main():
    if len(sys.argv) < 3:
        sys.exit(__doc__.split("\n\n")[1])
    program, solver = sys.argv[1:3]
    start = solved(solver, 1, ["1 0"])[1]
    rows = [(path, read(path)) for path in sys.argv[3:]] or drawn()
    for name, (variables, clauses) in rows:
        learned, ours = counted(program, "\n".join([f"{variables} {len(clauses)}", *clauses, ""]))
        conflicts, theirs = solved(solver, variables, clauses)
        theirs = max(theirs - start, 0.0001)
        print(
            f"{name[-24:]:24} {variables:6} variables {len(clauses):6} clauses  {learned:6} learned {ours * 1000:9.2f} ms"
            f"  {conflicts:6} conflicts {theirs * 1000:9.2f} ms  ratio {ours / theirs:6.2f}",
            flush=True,
        )


if __name__ == "__main__":
    main()
