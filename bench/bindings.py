#!/usr/bin/env python3
"""Compares what the program, Python and node make of the same sheets, and measures a call of each.

usage: python3 bench/bindings.py PROGRAM LIBRARY SHEET_OR_FOLDER..

LIBRARY is the folder with libcssmin.so and the addon cssmin.node (`make library addon`). A folder stands for each `*.css`
file below it that has at most 1 MiB and is not made by a minifier already (`*.min.css`). It prints each sheet of which they
make different texts, or refuse for different reasons, how many there were, and the microseconds of a call for a small
sheet, in the mean of 2,000. Ends with 1 if two differ.
"""

import json
import os
import subprocess
import sys
import time
import timeit

from peer import sheets_below

TOP = os.path.dirname(os.path.dirname(os.path.abspath(__file__)))
SMALL = b"a { color : red ; }"
CALLS = 50_000
PROCESSES = 250

# Reads names of sheets, and writes what node makes of each: a line of JSON for each, and one with the time of a call.
NODE = """
import { readFileSync } from 'node:fs'
import { minifySync } from '%s/bindings/node/cssmin.mjs'
const of = bytes => {
  try {
    return minifySync(bytes, { licences: false }).css
  } catch (error) {
    return `${error.kind} at ${error.offset}`
  }
}
for (const name of JSON.parse(readFileSync(0))) console.log(JSON.stringify(of(readFileSync(name))))
const small = Buffer.from('%s')
const begun = process.cpuUsage()
for (let i = 0; i < %d; i += 1) minifySync(small)
const took = process.cpuUsage(begun)
console.log((took.user + took.system) / %d)
"""


def by_program(program, sheet):
    ran = subprocess.run([program, "min"], input=sheet, stdout=subprocess.PIPE, stderr=subprocess.PIPE)
    if ran.returncode == 0:
        return ran.stdout.decode()
    return ran.stderr.decode().replace("refused: ", "").strip()


def by_python(minify, refused, sheet):
    try:
        return minify(sheet).decode()
    except refused as error:
        return f"{error.kind} at {error.offset}"


def by_node(library, sheets):
    """What node makes of all sheets, and the microseconds of a call."""
    script = NODE % (TOP, SMALL.decode(), CALLS, CALLS)
    env = {**os.environ, "CSSMIN_ADDON": os.path.join(library, "cssmin.node")}
    env.pop("CSSMIN", None)
    words = ["node", "--input-type=module", "-e", script]
    ran = subprocess.run(words, input=json.dumps(sheets).encode(), stdout=subprocess.PIPE, env=env, check=True)
    *texts, took = ran.stdout.decode().splitlines()
    return [json.loads(text) for text in texts], float(took)


def microseconds(call):
    return timeit.timeit(call, timer=time.process_time, number=CALLS) / CALLS * 1e6


def microseconds_of_process(call, calls):
    """The same of a call that starts a process, whose time counts too."""
    begun = os.times()
    for _ in range(calls):
        call()
    return sum(now - then for now, then in zip(os.times()[:4], begun[:4])) / calls * 1e6


def main():
    if len(sys.argv) < 4:
        sys.exit(__doc__)
    program, library = map(os.path.abspath, sys.argv[1:3])
    sheets = [os.path.abspath(sheet) for sheet in sheets_below(sys.argv[3:])]
    os.environ["CSSMIN_LIBRARY"] = os.path.join(library, "libcssmin.so")
    sys.path.insert(0, os.path.join(TOP, "bindings", "python"))
    from cssmin_proved import Refused, minify

    node, node_time = by_node(library, sheets)
    wrong = 0
    for path, text in zip(sheets, node):
        with open(path, "rb") as file:
            sheet = file.read()
        if not by_program(program, sheet) == by_python(minify, Refused, sheet) == text:
            wrong += 1
            print(f"{path}: they differ")
    print(f"{len(sheets)} sheets, {wrong} differences")
    process_time = microseconds_of_process(lambda: by_program(program, SMALL), PROCESSES)
    print(f"microseconds of a call: node {node_time:.1f}, Python {microseconds(lambda: minify(SMALL)):.1f}, "
          f"a process {process_time:.0f}")
    sys.exit(wrong > 0)


main()
