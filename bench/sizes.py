#!/usr/bin/env python3
"""Prints the sizes of style sheets, as they are and made smaller by `cssmin min`, by esbuild and by clean-css.

usage: python3 bench/sizes.py [--gzip] PROGRAM SHEET..

One row of a table in Markdown for each sheet, in bytes; with --gzip what remains after `gzip -9`. esbuild is the one on
the PATH (Debian has it as the package `esbuild`), called as `esbuild --minify --legal-comments=none --loader=css`, so
that it keeps no comment either. clean-css is the one that node finds (Debian: `node-clean-css`), with its level 2. A
tool that is not there has no column.
"""

import argparse
import gzip
import os
import shutil
import subprocess
import sys

ESBUILD = ["esbuild", "--minify", "--legal-comments=none", "--loader=css"]
CLEAN = ["node", "-e", """
const CleanCss = require('clean-css');
const options = { level: 2, inline: false, specialComments: 0 };
process.stdout.write(new CleanCss(options).minify(require('fs').readFileSync(0, 'utf8')).styles);
"""]
CLEAN_VERSION = ["node", "-p", "require('clean-css/package.json').version"]


def written(words, text=b""):
    """What a program writes for a text on standard input, if it ends with 0."""
    if shutil.which(words[0]) is None:
        return None
    run = subprocess.run(words, input=text, stdout=subprocess.PIPE, stderr=subprocess.DEVNULL)
    return run.stdout if run.returncode == 0 else None


def tools(program):
    """The head of a column and the words of each tool that is there."""
    yield "`cssmin min`", [program, "min"]
    for name, words, version in [("esbuild", ESBUILD, ["esbuild", "--version"]), ("clean-css", CLEAN, CLEAN_VERSION)]:
        told = written(version)
        if told is not None:
            yield f"{name} {told.decode().strip()}", words


def size(text, zipped):
    return len(gzip.compress(text, 9, mtime=0)) if zipped else len(text)


def row(path, columns, zipped):
    with open(path, "rb") as file:
        sheet = file.read()
    texts = [sheet]
    for name, words in columns:
        text = written(words, sheet)
        if text is None:
            sys.exit(f"{name} does not take {path}")
        texts.append(text)
    sizes = " | ".join(f"{size(text, zipped):,}" for text in texts)
    return f"| `{os.path.basename(path)}` | {sizes} |"


def main():
    words = argparse.ArgumentParser(description=__doc__, formatter_class=argparse.RawDescriptionHelpFormatter)
    words.add_argument("--gzip", action="store_true")
    words.add_argument("program")
    words.add_argument("sheets", nargs="+")
    given = words.parse_args()
    columns = list(tools(os.path.abspath(given.program)))
    print("| sheet | bytes | " + " | ".join(name for name, _ in columns) + " |")
    print("|---" + "|---:" * (len(columns) + 1) + "|")
    for path in given.sheets:
        print(row(path, columns, given.gzip))


main()
