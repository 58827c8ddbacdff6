"""The part of a page that a script makes: it lies between two comments that name the script."""

import difflib
import sys


def markers(script):
    return (
        f"<!-- made by {script}: begin -->\n",
        f"<!-- made by {script}: end -->\n",
    )


def keep(page, script, made, arguments):
    """Compares the made part of a page with what the script makes now, or with `--write` puts it in.

    Prints what differs, and answers the exit status.
    """
    begin, end = markers(script)
    with open(page, encoding="utf-8") as file:
        text = file.read()
    if text.count(begin) != 1 or text.count(end) != 1:
        print(f"{page}: the two comments of {script} are not there once each")
        return 1
    before, rest = text.split(begin)
    there, behind = rest.split(end)
    if arguments == ["--write"]:
        with open(page, "w", encoding="utf-8") as file:
            file.write(before + begin + made + end + behind)
        return 0
    if arguments:
        print(f"Usage: {script} [--write]")
        return 2
    if there == made:
        return 0
    first = before.count("\n") + 1
    for line in difflib.unified_diff(there.splitlines(), made.splitlines(), page, script, lineterm="", n=0):
        print(line)
    print(f"{page}:{first}: the part that {script} makes is out of date: `{script} --write` renews it")
    return 1


def run(page, script, made):
    sys.exit(keep(page, script, made, sys.argv[1:]))
