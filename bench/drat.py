#!/usr/bin/env python3
"""Parts a log of a refutation into a formula and a proof for checkers that others wrote.

usage: python3 bench/drat.py LOG FORMULA PROOF

Reads the log at LOG, and writes its formula to FORMULA as a DIMACS file, and its steps to PROOF as a
proof of clauses that only adds (RUP, which is DRAT as well). The lines are the same in all three; only
the first line of the log becomes another one. So, with the tools of others:

    drat-trim FORMULA PROOF        # follows the proof
    cadical FORMULA                # finds by itself that the formula cannot be satisfied
"""

import sys


def main():
    if len(sys.argv) != 4:
        sys.exit(__doc__.split("\n\n")[1])
    log, formula, proof = sys.argv[1:]
    with open(log, encoding="ascii") as file:
        words = file.readline().split()
        lines = file.readlines()
    if len(words) != 4 or words[0] != "vars" or words[2] != "clauses":
        sys.exit(f"{log}: the first line is not that of a log")
    count = int(words[3])
    with open(formula, "w", encoding="ascii") as file:
        file.write(f"p cnf {words[1]} {count}\n")
        file.writelines(lines[:count])
    with open(proof, "w", encoding="ascii") as file:
        file.writelines(lines[count:])


if __name__ == "__main__":
    main()
