#!/usr/bin/env python3
"""Tries what calls the program from node and from Python.

Usage: .ci/bindings.py PROGRAM [FOLDER]

The tests of bindings/ run with a process for each call. If FOLDER has the library for C (dist/lib if it is not named), they
run with the library too; the addon for node is then compiled from it. What the machine has no tool for is named. Prints
what went wrong, and ends with 1 if anything did.
"""

import glob
import os
import re
import shutil
import subprocess
import sys
import tempfile

NODE_HEADERS = os.environ.get("NODE_HEADERS", "/usr/include/node")
OLDEST_NODE = (18, 14)


def run(what, words, variables, counted):
    """Runs tests. Says how many there were, by this pattern, and whether all passed."""
    given = {"CSSMIN", "CSSMIN_ADDON", "CSSMIN_LIBRARY", "CSSMIN_PROCESS"}
    kept = {name: value for name, value in os.environ.items() if name not in given}
    ran = subprocess.run(words, env={**kept, **variables}, stdout=subprocess.PIPE, stderr=subprocess.STDOUT, timeout=1800)
    text = ran.stdout.decode(errors="replace")
    if ran.returncode != 0:
        print(text)
    cases = re.search(counted, text)
    print(f"{what}: {cases[1] if cases else 'no'} tests, {'passed' if ran.returncode == 0 else 'failed'}")
    return ran.returncode == 0


def missing(what, why):
    print(f"{what}: not tried, {why}")
    return True


def node_version():
    if not shutil.which("node"):
        return (0, 0)
    said = subprocess.run(["node", "--version"], stdout=subprocess.PIPE).stdout.decode()
    return tuple(map(int, re.match(r"v(\d+)\.(\d+)", said).groups()))


def try_node(base, library, folder):
    if node_version() < OLDEST_NODE:
        return missing("node", "no node of 18.14 or later")
    words = ["node", "--test", *sorted(glob.glob("bindings/node/tests/*.test.mjs"))]
    by_process = {**base, "CSSMIN": base["CSSMIN_PROGRAM"]}
    has_tools = os.path.exists(os.path.join(NODE_HEADERS, "node_api.h")) and shutil.which("cc") and shutil.which("make")
    if not library or not has_tools:
        missing("node, by the addon", "no C compiler or no headers of node" if library else "no library")
        return run("node, by processes", words, by_process, r"tests (\d+)")
    addon = os.path.join(folder, "cssmin.node")
    places = [f"ADDON={addon}", f"LIBRARY={library}", f"NODE_HEADERS={NODE_HEADERS}"]
    made = subprocess.run(["make", "-s", "addon", *places, "-o", f"{library}/libcssmin.a"])
    # the command line starts a process for each test: once is enough
    few = [word for word in words if not word.endswith("cli.test.mjs")]
    passed = run("node, by processes", few, by_process, r"tests (\d+)")
    return made.returncode == 0 and run("node, by the addon", words, {**base, "CSSMIN_ADDON": addon}, r"tests (\d+)") and passed


def try_python(base, library):
    words = [sys.executable, "bindings/python/tests/test_cssmin.py"]
    base = {**base, "PYTHONPATH": "bindings/python", "PYTHONDONTWRITEBYTECODE": "1"}
    passed = run("Python, by processes", words, {**base, "CSSMIN": base["CSSMIN_PROGRAM"]}, r"Ran (\d+)")
    if not library:
        return missing("Python, by the library", "no library") and passed
    shared = os.path.join(library, "libcssmin.so")
    return run("Python, by the library", words, {**base, "CSSMIN_LIBRARY": shared}, r"Ran (\d+)") and passed


def main():
    if len(sys.argv) not in (2, 3):
        sys.exit(__doc__)
    program = os.path.abspath(sys.argv[1])
    library = os.path.abspath((sys.argv[2:] or ["dist/lib"])[0])
    library = library if os.path.exists(os.path.join(library, "libcssmin.so")) else None
    with tempfile.TemporaryDirectory() as folder:
        os.symlink(program, os.path.join(folder, "cssmin"))
        base = {"CSSMIN_PROGRAM": program, "PATH": folder + os.pathsep + os.environ["PATH"]}
        passed = [try_node(base, library, folder), try_python(base, library)]
    sys.exit(not all(passed))


main()
