#!/usr/bin/env python3
"""Checks the names in the documents against the crates.

Usage: .ci/names.py

Each name that a library gives out (`pub use` or `pub fn` of its lib.rt) is to stand between backticks
in docs/CLAIMS.md or on a page of docs/definitions. Each name and each path that stands between backticks
there, and in the documents of `OTHERS`, is to be one of the repository. Words with a hyphen are passed
over, since they are mostly words of CSS. Prints file and line of each that is not so, and ends with 1
where there is one.
"""

import fnmatch
import glob
import os
import re
import sys

GIVEN = re.compile(r"^pub (?:use (?:\w+::)+(?:\{([^}]*)\}|(\w+));|(?:extern \S+ )?(?:fn|struct|enum|trait|const|type) (\w+))", re.M)
QUOTED = re.compile(r"(?<!`)`([^`\n]+)`(?!`)")
NAME = re.compile(r"[^\W\d][\w'’-]*")
NAMES = re.compile(r"[^\W\d][\w']*(?:(?:::|\.)[^\W\d][\w']*)*(?:\(\))?")
PATH = re.compile(r"[\w-][\w.-]*(?:/[\w.*-]+)*/?")
PLACEHOLDER = re.compile(r"\b[A-Z]+\b(?=/)")
# The documents that are read besides the claims and the definitions.
OTHERS = ["docs/BELIEVE.md", "docs/ARCHITECTURE.md", "docs/THEORY.md", "docs/TRUST.md", "docs/USING.md"]
# Words of CSS, HTML and scripts that the documents name.
FOREIGN = {"background", "cssRules", "cssText", "gold", "method", "transparent"}
# Where names are looked for.
SPOKEN = ("crates/", "bindings/")
BUILDS = ("crates.txt", "Makefile", "library/library.mk", "packages/packages.mk")
ENDINGS = (".rt", ".antt", ".md", ".py", ".css", ".txt", ".edit", ".mjs")


def text_of(path):
    with open(path, encoding="utf-8") as file:
        return file.read()


def line_of(text, at):
    return text.count("\n", 0, at) + 1


def sources():
    """The files of the crates, without what is built, and all others of the repository."""
    for folder, folders, files in os.walk("."):
        folders[:] = sorted(set(folders) - {"out", ".git", "__pycache__", "node_modules"})
        for name in sorted(files):
            yield os.path.relpath(os.path.join(folder, name), ".")


def given_names():
    """What each library gives out: the file, the line and the name."""
    for path in sorted(glob.glob("crates/*/src/lib.rt")):
        text = text_of(path)
        for use in GIVEN.finditer(text):
            group = next(number for number in (1, 2, 3) if use[number] is not None)
            for name in re.finditer(r"\w+", use[group]):
                yield path, line_of(text, use.start(group) + name.start()), name[0]


def claims():
    return ["docs/CLAIMS.md", *sorted(glob.glob("docs/definitions/*.md"))]


def named_in(paths):
    """Every name that stands between backticks in these documents."""
    named = set()
    for path in paths:
        for quoted in QUOTED.finditer(text_of(path)):
            named.update(NAME.findall(quoted[1]))
    return named


def is_path(quoted):
    return PATH.fullmatch(quoted) is not None and (quoted.endswith(ENDINGS) or "/" in quoted)


def paths_of(files):
    """Each file and folder, also by the ends of its path: `specs/Run.antt`, `Run.antt`."""
    paths = set()
    for file in files:
        parts = file.split("/")
        for end in range(1, len(parts) + 1):
            for start in range(end):
                paths.add("/".join(parts[start:end]))
    return paths


def known_names(files):
    """Every word of the crates' code, definitions and proofs, of the files that build them, and of the bindings."""
    names = set()
    for file in files:
        names.update(NAME.findall(os.path.splitext(os.path.basename(file))[0]))
        if file.startswith(SPOKEN) and file.endswith((".rt", ".antt", ".mjs", ".mts", ".py")) or file in BUILDS:
            names.update(NAME.findall(text_of(file)))
    return names


def is_there(path, paths):
    """Whether there is such a file or folder; a word in capitals stands for any name."""
    path = path.rstrip("/")
    pattern = path if path in paths else PLACEHOLDER.sub("*", path)
    return pattern in paths or "*" in pattern and bool(fnmatch.filter(paths, pattern))


def missing_names(files):
    """What stands between backticks in the documents and nowhere else: the file, the line, the text."""
    paths = paths_of(files)
    names = known_names(files)
    for document in [*claims(), *OTHERS]:
        text = text_of(document)
        for quoted in QUOTED.finditer(text):
            whole = quoted[1]
            if is_path(whole):
                found = is_there(whole, paths)
            elif NAMES.fullmatch(whole):
                found = whole in FOREIGN or all(name in names for name in NAME.findall(whole))
            else:
                continue
            if not found:
                yield document, line_of(text, quoted.start()), whole


def main():
    os.chdir(os.path.join(os.path.dirname(os.path.abspath(__file__)), ".."))
    files = list(sources())
    wrong = 0
    named = named_in(claims())
    for path, line, name in given_names():
        if name not in named:
            wrong += 1
            print(f"{path}:{line}: `{name}` is named neither in docs/CLAIMS.md nor on a page of docs/definitions")
    for path, line, name in missing_names(files):
        wrong += 1
        print(f"{path}:{line}: `{name}` is nowhere in the repository")
    print(f"{wrong} names to mend")
    sys.exit(1 if wrong else 0)


main()
