#!/usr/bin/env python3
"""Tries the built program as a process: what no clause can say of `main`.

Usage: .ci/program.py PROGRAM

Each case runs PROGRAM once and compares its exit status, its standard output and its standard error,
byte for byte; some also compare how much of the input was read. The examples are to give the outputs
that are stored beside them. Prints each difference, and ends with 1 where there is one.
"""

import glob
import os
import re
import resource
import shlex
import shutil
import signal
import socket
import subprocess
import sys
import tempfile

MORE = b"\nFor more information, try '--help'.\n"
NO_WORD = b"""error: 'cssmin' requires a subcommand but one was not provided
  [subcommands: min, cmp, dead, style, why, same, diff, blockers, list, lint, inspect, check, trial, help]

Usage: cssmin <COMMAND>
""" + MORE
USAGE = b"usage: cssmin COMMAND\n"
READ_FAULT = b"read fault\n"
WRITE_FAULT = b"write fault\n"
NO_MEMORY = b"out of memory\n"

SHEET = b"a { color : red ; }"
PRINTED = b"a{color:red}"

MAX_BYTES = 1_048_576


class Tries:
    """Cases of one program, and how many of them went wrong."""

    def __init__(self, program):
        self.program = program
        self.cases = 0
        self.wrong = 0

    def is_same(self, name, what, found, wanted):
        if found == wanted:
            return
        self.wrong += 1
        print(f"{name}: {what} is {found!r:.200}, and is to be {wanted!r:.200}")

    def run(self, words, sheet, before=None, stdout=subprocess.PIPE, stderr=subprocess.PIPE):
        """One run; `sheet` is the text of the input, or a file to read from."""
        self.cases += 1
        given = {"input": sheet} if isinstance(sheet, bytes) else {"stdin": sheet}
        return subprocess.run(
            [self.program, *words], stdout=stdout, stderr=stderr, preexec_fn=before, timeout=60, **given
        )

    def check(self, name, words, sheet, status, out, err, **streams):
        """A run that is to end so; a stream that is not piped is not compared."""
        ran = self.run(words, sheet, **streams)
        self.is_same(name, "the exit status", ran.returncode, status)
        if ran.stdout is not None:
            self.is_same(name, "standard output", ran.stdout, out)
        if ran.stderr is not None:
            self.is_same(name, "standard error", ran.stderr, err)

    def check_read(self, name, words, text, status, out, err, read):
        """The same from a file, of which so many bytes are to be read."""
        with tempfile.TemporaryFile(buffering=0) as sheet:
            sheet.write(text)
            sheet.seek(0)
            self.check(name, words, sheet, status, out, err)
            self.is_same(name, "what was read", sheet.tell(), read)


def close(descriptor):
    """What closes a standard stream of the program before it starts."""
    return lambda: os.close(descriptor)


def limit_memory(kibibytes):
    """What leaves the program so much memory for data."""
    size = kibibytes * 1024
    return lambda: resource.setrlimit(resource.RLIMIT_DATA, (size, size))


def limit_files(size):
    """What lets the program write so many bytes to a file, and then fails."""

    def before():
        signal.signal(signal.SIGXFSZ, signal.SIG_IGN)
        resource.setrlimit(resource.RLIMIT_FSIZE, (size, size))

    return before


def unknown(word, tip=b""):
    """What is told of a word that is no command."""
    return b"error: unrecognized subcommand '%s'\n\n%sUsage: cssmin <COMMAND>\n%s" % (word, tip, MORE)


def unexpected(word):
    """What is told of a word behind `min` that it does not take."""
    return b"error: unexpected argument '%s' found\n\nUsage: cssmin min [OPTIONS] <SHEET >TARGET\n%s" % (word, MORE)


def try_words(tries):
    for name, words, told in [
        ("no word", [], NO_WORD),
        ("another word", ["mim"], unknown(b"mim", b"  tip: a similar subcommand exists: 'min'\n\n")),
        ("a word too much", ["min", "min"], unexpected(b"min")),
        ("the name of a file", ["min", "site.css"], unexpected(b"site.css")),
        ("a budget too great", ["cmp", "a", "b", "--budget", "20001"],
            b"error: invalid value '20001' for '--budget <N>': 20001 is not in 0..=20000\n" + MORE),
        ("a selector with a hyphen", ["cmp", "-a", "b"],
            b"error: unexpected argument '-a' found\n\nUsage: cssmin cmp [OPTIONS] <LEFT> <RIGHT>\n" + MORE),
        ("a leading zero", ["cmp", "a", "b", "--budget", "07"], USAGE),
        ("a leading zero behind min", ["min", "--budget", "07"], USAGE),
        ("help and more", ["min", "--help", "--report"], USAGE),
        ("a word that is no UTF-8", [b"\xff"], NO_WORD),
        ("a word that is no UTF-8 behind min", ["min", b"\xff"], NO_WORD),
        ("a word that is no UTF-8 before min", [b"\xff", "min"], NO_WORD),
    ]:
        tries.check_read(name, words, SHEET, 2, b"", told, 0)


# Lines of words of no form. A word that has spaces, or nothing, stands in quotes.
WRONG_LINES = """
min --budget 20001
min --budget=20001
min --budget=07
min --budget
min --budget=
min --budget=+1
min --budget -1
min --budget 0x1
min --budget 99999999999999999999
min --budget 1 --budget 1
min --budget --report
min --report --report
min --report=1
min --work
min --work 07
min --work=4294967296
min --work 1 --work 1
min --log
min sheet.css
min -
min --
Min
--min
'min '
''
trial
trial 2001
trial 007
trial +7
trial ''
trial 1 2
trial 3 --budget 1
cmp a
cmp a b c
cmp -a b
cmp -- a b
cmp a b --report
cmp a b --log --log
why 1
why 01 1
why 1 4294967296
why 1 2 3
same
same ''
same -1
same 01
same 4294967296
same 1 2
same 1 --report
same 1 --budget 20001
diff
diff 01
diff -1
diff 4294967296
diff 1 2
diff 1 --report
diff 1 --limit
diff 1 --limit 0
diff 1 --limit=10001
diff 1 --limit 07
diff 1 --limit 1 --limit 1
diff 1 --budget 20001
same 1 --limit 1
min --limit 1
blockers a
blockers --report
blockers --limit 1
blockers --budget 20001
list a
list --report
list --budget 1
lint a
lint --report
lint --budget 20001
inspect a
inspect --report
inspect --budget 1
help min
--version --version
"""


def try_wrong_lines(tries):
    for line in WRONG_LINES.strip().splitlines():
        with tempfile.TemporaryFile(buffering=0) as sheet:
            sheet.write(SHEET)
            sheet.seek(0)
            ran = tries.run(shlex.split(line), sheet)
            told = ran.stderr == USAGE or ran.stderr.startswith(b"error: ") and ran.stderr.endswith(b"\n")
            found = (ran.returncode, ran.stdout, told, sheet.tell())
            tries.is_same(line, "the status, standard output, whether it is told, and what was read", found, (2, b"", True, 0))


def try_itself(tries):
    """Help and the version, which is that of README, of the man page and of the latest changes."""
    versions = set()
    for path, line in [("README.md", r"^Version (\S+)\."), ("docs/cssmin.1", r'"cssmin (\S+)"'), ("CHANGELOG.md", r"^## (\d\S*)")]:
        with open(path, encoding="utf-8") as file:
            version = re.search(line, file.read(), re.MULTILINE)[1]
        versions.add(version)
    tries.is_same("the documents", "the number of versions that they name", len(versions), 1)
    for word in ["--version", "-V"]:
        tries.check_read(word, [word], SHEET, 0, f"cssmin {version}\n".encode(), b"", 0)
    for words in [["--help"], ["-h"], ["help"], ["min", "--help"], ["min", "-h"], ["cmp", "--help"], ["cmp", "-h"],
            ["check", "--help"], ["why", "--help"], ["same", "--help"], ["diff", "--help"], ["blockers", "--help"], ["list", "--help"], ["lint", "--help"], ["inspect", "--help"], ["style", "--help"], ["dead", "--help"], ["trial", "--help"]]:
        ran = tries.run(words, SHEET)
        name = " ".join(words)
        tries.is_same(name, "the exit status", ran.returncode, 0)
        tries.is_same(name, "standard error", ran.stderr, b"")
        rows = ran.stdout.splitlines()
        tries.is_same(name, "whether it fits on a screen", 5 < len(rows) < 40 and max(map(len, rows)) <= 80, True)
    with open("/dev/full", "wb") as full:
        tries.check("help for a full output", ["--help"], SHEET, 5, b"", WRITE_FAULT, stdout=full)


# The documents with examples: lines that begin with four spaces and `$`, and below them what they write.
DOCUMENTS = ["README.md", "docs/USING.md"]


def try_document(tries, document):
    """Each example gives what the document has below it, empty lines too. One that calls another tool is left out where that is not there."""
    with open(document, encoding="utf-8") as file:
        blocks = re.findall(r"^    \$ (.*)\n((?:    (?!\$ ).*\n|\n(?=    (?!\$ )))*)", file.read(), re.MULTILINE)
    tries.is_same(document, "whether it has examples", blocks != [], True)
    with tempfile.TemporaryDirectory() as folder:
        os.symlink(tries.program, os.path.join(folder, "cssmin"))
        os.symlink(os.path.abspath("examples"), os.path.join(folder, "examples"))
        env = {**os.environ, "PATH": folder + os.pathsep + os.environ["PATH"]}
        for command, below in blocks:
            if "esbuild" in command and shutil.which("esbuild") is None:
                continue
            tries.cases += 1
            ran = subprocess.run(
                command, shell=True, cwd=folder, env=env, stdout=subprocess.PIPE, stderr=subprocess.STDOUT, timeout=60
            )
            tries.is_same(f"{document}: {command}", "what it gives", ran.stdout.decode(), re.sub(r"^    ", "", below, flags=re.MULTILINE))


def try_pages(tries):
    """The man page and the completions name the commands and the options of the help, and no others."""
    page = tries.run(["--help"], b"").stdout.decode()
    commands = re.findall(r"^  ([a-z]+) ", page, re.MULTILINE)
    helps = [page, *(tries.run([word, "--help"], b"").stdout.decode() for word in commands if word != "help")]
    options = set(re.findall(r"--[a-z]+", "".join(helps)))
    for path in ["docs/cssmin.1", "completions/cssmin.bash", "completions/_cssmin", "completions/cssmin.fish"]:
        with open(path, encoding="utf-8") as file:
            text = re.sub(r"(?m)^(complete .*) -l (\w+)", r"\1 --\2", file.read().replace("\\-", "-"))
        tries.is_same(path, "the set of options", set(re.findall(r"--[a-z]+", text)), options)
        for word in commands:
            tries.is_same(path, f"whether it names {word}", re.search(rf"\b{word}\b", text) is not None, True)


def try_pairs(tries):
    page = b"overlap\nchild 0 pseudo none\n0 1 - x\n"
    overlap = page + b"1 1 * x class=icon-a%20b%20a\n"
    for words, text in [
        (["#a #a", "b"], b"disjoint\n"),
        ([":nth-child(2n)+p", ":nth-child(2n)"], b"disjoint\n"),
        (["ul > li + li", "li:first-child"], b"disjoint\n"),
        (['[class^="icon-"]', ".b"], overlap),
        (["a:is(b)", "c"], b"outside 1\n"),
        (["", "a"], b"outside 10\n"),
        (["a:link", "a:visited", "--budget", "0"], b"disjoint\n"),
        (["a:link", "a:visited", "--budget=0"], b"disjoint\n"),
        ([":nth-child(32n+1)", ":nth-last-child(31n+5)"], page + b"1 1 * x\n1 4 - x\n"),
        (["[lang|=en]:not([lang^=\"en-\"])", "[lang=en-GB]"], b"disjoint\n"),
        (["a:hover:link:not(:empty)", "[id]"], page + b"1 1 * a +text :link :hover id=\n"),
        ([":root:first-child", "html"], b"overlap\nchild 1 pseudo none\n0 1 * html\n"),
        (["a", "x|y"], b"outside 3\n"),
        (["li:nth-child(33n)", "a"], b"outside 8\n"),
        (["p:nth-child(2n):nth-child(3n)", "p:nth-child(5n):nth-child(7n)"], page + b"1 209 - x\n1 1 * p\n"),
        (["p:nth-child(2n):nth-child(3n):nth-child(5n)", "p:nth-child(7n):nth-child(11n)"], b"outside 11\n"),
        (["[a~=b]:not([a*=\"\\9\\a\\c\\d\\20\"])", "a"], b"outside 12\n"),
    ]:
        tries.check_read(" ".join(words), ["cmp", *words], SHEET, 0, text, b"", 0)
    # Of these two some document is right, by what their declarations do in it.
    met = tries.run(["cmp", "ul>li+li", "li:last-child"], b"").stdout
    shown = met.removeprefix(b"overlap\n") + b"\nul>li+li{top:0}li:last-child{width:0}"
    lines = b"kept 0\ntop:0 0,0,3\nwidth:0 0,1,1\n"
    tries.check_read("the document of a pair", ["style"], shown, 0, lines, b"", len(shown))
    for words, text in [
        (["#a #a", "b"], b"disjoint\n"),
        ([":nth-child(2n)+p", ":nth-child(2n)"], b"disjoint\n"),
        (["a:empty>b", "b"], b"disjoint\n"),
        (["a>b", ":root"], b"disjoint\n"),
        (["ul>li+li", "li:last-child"], met),
    ]:
        for more in [[], ["--budget", "2000"]]:
            tries.check_read(" ".join(words + more), ["cmp", *words, *more], SHEET, 0, text, b"", 0)
    with open("/dev/full", "wb") as full:
        tries.check("a pair for a full output", ["cmp", "a", "b"], SHEET, 5, b"", WRITE_FAULT, stdout=full)


def try_logs(tries):
    log = b"vars 2 clauses 4\n1 2 0\n1 -2 0\n-1 2 0\n-1 -2 0\n1 0\n0\n"
    tries.check_read("a log", ["check"], log, 0, b"yes\n", b"", len(log))
    written = tries.run(["cmp", "--log", ":nth-child(2n)+p", ":nth-child(2n)"], b"").stdout
    tries.check_read("a log of two selectors", ["check"], written, 0, b"yes\n", b"", len(written))
    tries.check_read("no log of two selectors", ["cmp", "--log", "a:link", "a:visited"], SHEET, 0, b"disjoint\n", b"", 0)
    short = log.replace(b"\n1 0\n", b"\n")
    tries.check_read("a log without a step", ["check"], short, 0, b"no 1\n", b"", len(short))
    bad = b"vars 1 clauses 1\n2 0\n"
    tries.check_read("a bad log", ["check"], bad, 8, b"", b"log refused: line 2\n", len(bad))


def try_lives(tries):
    sheet = b"a:link:visited{top:0}p{top:0}"
    lines = b"1.1 dead\n2.1 alive\nchild 0 pseudo none\n0 1 - x\n1 1 * p\n"
    tries.check_read("dead selectors", ["dead"], sheet, 0, lines, b"", len(sheet))
    tries.check_read("dead selectors of a broken sheet", ["dead"], b"\xff", 3, b"", b"refused: NotUtf8 at 0\n", 1)


def try_winners(tries):
    page = b"child 0 pseudo none\n0 1 - x\n1 4000000000 - li\n1 1 * li class=k\n"
    sheet = b"li{color:red}li+li{color:blue}.k{top:0}li:nth-child(odd){color:green}.k{top:1px}"
    both = page + b"\n" + sheet
    lines = b"kept 0\ncolor:green 0,1,1\ntop:1px 0,1,0\n"
    tries.check_read("a page and a sheet", ["style"], both, 0, lines, b"", len(both))
    tries.check_read("a page without a sheet", ["style"], page, 0, b"kept 0\n", b"", len(page))
    tries.check_read("no page", ["style"], b"x", 9, b"", b"document refused: line 1\n", 1)


def try_moves(tries):
    sheet = b".a{top:0}.b{top:1px}.a{top:2px}"
    lines = b"blocked\n.a{top:2px}\n.b{top:1px}\nchild 0 pseudo none\n0 1 - x\n1 1 * x class=a%20b\n"
    tries.check_read("a move", ["why", "3", "1"], sheet, 0, lines, b"", len(sheet))
    tries.check_read("a move of no item", ["why", "4", "1"], sheet, 7, b"", b"no item 4\n", len(sheet))
    apart = b".a{color:red}.b{top:0}.a{left:0}"
    tries.check_read("a move of the item before the first", ["why", "0", "1"], apart, 7, b"", b"no item 0\n", len(apart))
    with open(".ci/page.css", "rb") as file:
        page = file.read()
    lines = b"blocked\n.link{color:#06c}\n.btn{color:#fff}\nchild 0 pseudo none\n0 1 - x\n1 1 * x class=link%20btn\n"
    for move, status, text, told in [
        (["20", "17"], 0, lines, b""),
        (["15", "13"], 0, b"free\n", b""),
        (["24", "22"], 0, b"kept 23\n", b""),
        (["1", "26"], 7, b"", b"no item 26\n"),
    ]:
        tries.check_read(" ".join(["why", *move]), ["why", *move], page, status, text, told, len(page))


def try_two_sheets(tries):
    one, other = b".a{top:0}.b{top:1px}", b".b{top:1px}.a{top:0}"
    split = str(len(one))
    lines = b"reversed\n.a{top:0}\n.b{top:1px}\nchild 0 pseudo none\n0 1 - x\n1 1 * x class=a%20b\n"
    tries.check_read("two sheets in another order", ["same", split], one + other, 0, lines, b"", len(one + other))
    tries.check_read("a sheet and itself", ["same", split], one + one, 0, b"same\n", b"", len(one + one))
    tries.check_read("no second sheet", ["same", "21"], one, 10, b"", b"no split 21\n", len(one))
    broken = one + b'a{b:"x'
    tries.check_read("a broken second sheet", ["same", split], broken, 11, b"", b"second refused: EndInside at 4\n", len(broken))
    long = b" " * (2 * MAX_BYTES + 2)
    told = b"refused: TooLong at %d\n" % MAX_BYTES
    tries.check_read("two sheets that are too long", ["same", "0"], long, 3, b"", told, 2 * MAX_BYTES + 1)
    told = b"second refused: TooLong at %d\n" % MAX_BYTES
    tries.check_read("a second sheet that is too long", ["same", "0"], long[:-2], 11, b"", told, 2 * MAX_BYTES)


def try_differences(tries):
    one, other = b".a{top:0}\n.b{ margin: 0 }@x;", b".a{top:1px}.b{margin:0}@x;"
    split = str(len(one))
    lines = b"reversed 0 related 0 masked 0 unsure 0 missing 0 extra 0 changed 1\nchanged 1:4 .a{top:0} 1:4 top:1px\n"
    tries.check_read("two sheets with another value", ["diff", split], one + other, 1, lines, b"", len(one + other))
    tries.check_read("a sheet and itself, all through", ["diff", split], one + one, 0, b"same\n", b"", len(one + one))
    tries.check_read("no second sheet to tell of", ["diff", "29"], one, 10, b"", b"no split 29\n", len(one))
    broken = one + b'a{}\n\xc3\xa9{b:"x'
    tries.check_read("a broken second sheet with its place", ["diff", split], broken, 11, b"", b"second refused: EndInside at 9 (2:5)\n", len(broken))
    long = b" " * (2 * MAX_BYTES + 2)
    told = b"refused: TooLong at %d\n" % MAX_BYTES
    tries.check_read("two sheets that are too long to tell of", ["diff", "0"], long, 3, b"", told, 2 * MAX_BYTES + 1)
    # So many couples are told, and no more.
    turned = b"".join(b".a%d{top:%dpx}" % (i, i) for i in range(9))
    back = b"".join(b".a%d{top:%dpx}" % (i, i) for i in reversed(range(9)))
    words = ["diff", str(len(turned)), "--limit"]
    ran = tries.run([*words, "36"], turned + back)
    tries.is_same("a limit that is reached", "the status, the couples and the limit", (ran.returncode, ran.stdout.count(b"\nreversed "), ran.stdout.count(b"\nlimit 36\n")), (1, 36, 1))
    ran = tries.run([*words, "37"], turned + back)
    tries.is_same("a limit that is not reached", "the couples and the limit", (ran.stdout.count(b"\nreversed "), ran.stdout.count(b"\nlimit ")), (36, 0))
    with open("/dev/full", "wb") as full:
        tries.check("differences for a full output", ["diff", split], one + other, 5, b"", WRITE_FAULT, stdout=full)


def try_blockers(tries):
    sheet = ".é{top:0}\r\n@media print{.b{top:1px}}\r\n.é{left:2px}".encode()
    lines = "blocked 2 8\nkept 2 8\nrules 0 0\nboth 0 0\nstops 2 8 2 8 2:1 @media print\nbest 4 JoinSelUp 1:1 3:1 .é{left:2px}\n".encode()
    tries.check_read("what stops steps", ["blockers"], sheet, 0, lines, b"", len(sheet))
    nothing = b"blocked 0 0\nkept 0 0\nrules 0 0\nboth 0 0\n"
    tries.check_read("nothing that stops a step", ["blockers"], SHEET, 0, nothing, b"", len(SHEET))
    broken = b"a{}\n\xc3\xa9{b:'x"
    tries.check_read("what stops steps of a broken sheet", ["blockers"], broken, 3, b"", b"refused: EndInside at 9 (2:5)\n", len(broken))


def try_items(tries):
    sheet = "a , b{top:0}\r\n@media print{\n .é{top:0}.c{left:0}}".encode()
    lines = "1 1:1 rule a,b\n2 2:1 media @media print\n2.1 3:2 rule .é\n2.2 3:11 rule .c\n".encode()
    tries.check_read("the items of a sheet", ["list"], sheet, 0, lines, b"", len(sheet))
    broken = b"a{}\n\xc3\xa9{b:'x"
    tries.check_read("the items of a broken sheet", ["list"], broken, 3, b"", b"refused: EndInside at 9 (2:5)\n", len(broken))
    long = b" " * (MAX_BYTES + 2)
    tries.check_read("the items of a sheet that is too long", ["list"], long, 3, b"", b"refused: TooLong at %d\n" % MAX_BYTES, MAX_BYTES + 1)
    # One line of as many bytes as a sheet may have, with the most items: its places are found without a walk from its start.
    many = b"a{b:c}" * 16_384 + b" " * (MAX_BYTES - 6 * 16_384)
    ran = tries.run(["list"], many)
    tries.is_same("the items of a long line", "the last one", ran.stdout.splitlines()[-1], b"16384 1:%d rule a" % (6 * 16_383 + 1))


def try_findings(tries):
    sheet = ".é{top:0}#a #a{left:0}\r\n@media print{b{top:0;top:0}}.é{top:0}".encode()
    lines = "1:4 repeated top:0 2:32\n1:10 dead #a #a\n2:16 repeated top:0 2:22\n".encode()
    tries.check_read("what is found in a sheet", ["lint"], sheet, 1, lines, b"", len(sheet))
    tries.check_read("a sheet in which nothing is found", ["lint"], SHEET, 0, b"", b"", len(SHEET))
    broken = b"a{}\n\xc3\xa9{b:'x"
    tries.check_read("findings of a broken sheet", ["lint"], broken, 3, b"", b"refused: EndInside at 9 (2:5)\n", len(broken))
    many = b"a{b:c}" * 16_384
    ran = tries.run(["lint"], many)
    tries.is_same("the findings of many rules", "the lines", (ran.returncode, ran.stdout.count(b"\n")), (1, 16_383))


def try_entries(tries):
    page = b"child 0 pseudo none\n0 1 - x\n1 1 * a class=b\n"
    both = page + "\na{top:0}\r\n@media print{/*é*/.b{top:1px}}.b{color:red}@x;".encode()
    lines = b"kept 1\n\nwins 2:34 0,1,0 .b{color:red}\n\nwhen 2:22 0,1,0 .b{top:1px} @media print\nwins 1:3 0,0,1 a{top:0}\n"
    tries.check_read("what applies to an element", ["inspect"], both, 0, lines, b"", len(both))
    tries.check_read("an element without a sheet", ["inspect"], page, 0, b"kept 0\n", b"", len(page))
    tries.check_read("an element of no page", ["inspect"], b"x", 9, b"", b"document refused: line 1\n", 1)
    broken = page + b"\na{}\n\xc3\xa9{b:'x"
    tries.check_read("an element and a broken sheet", ["inspect"], broken, 3, b"", b"refused: EndInside at 9 (2:5)\n", len(broken))
    long = b" " * (MAX_BYTES + 2)
    tries.check_read("an element and a sheet that is too long", ["inspect"], long, 3, b"", b"refused: TooLong at %d\n" % MAX_BYTES, MAX_BYTES + 1)
    # As many entries as fit: each has its line, and they are put in order without a look at each pair of them.
    many = page + b"\n" + b"a{b:c}" * 16_384
    ran = tries.run(["inspect"], many)
    tries.is_same("the entries of many rules", "the lines", (ran.returncode, ran.stdout.count(b"\n")), (0, 16_386))


def try_reports(tries):
    sheet = b".a{top:0}.b{top:1px}.a{top:2px}"
    report = b"items 3 3\nbytes 31 31\nsteps 0\nblocked JoinSelUp 1 3 meet 2\nblocked JoinSelDown 1 3 meet 2\n"
    tries.check_read("a report", ["min", "--report"], sheet, 0, sheet, report, len(sheet))
    block = b"@media print{.a{top:0}.b{top:1px}.a{top:2px}}"
    report = b"items 4 4\nbytes 45 45\nsteps 0\nblocked JoinSelUp 1.1 1.3 meet 1.2\nblocked JoinSelDown 1.1 1.3 meet 1.2\n"
    tries.check_read("a report of an opened block", ["min", "--report"], block, 0, block, report, len(block))
    with open(".ci/page.css", "rb") as file:
        ran = tries.run(["min", "--report"], file)
    report = b"items 27 23\nbytes 851 625\nsteps 5\nblocked JoinSelUp 13 20 kept 19\nblocked JoinSelDown 13 20 meet 14\n"
    tries.is_same("a page", "the size of standard output", len(ran.stdout), 625)
    tries.is_same("a page", "standard error", ran.stderr, report)
    with open("/dev/full", "wb") as full:
        tries.check("a report for a full standard error", ["min", "--report"], sheet, 5, sheet, b"", stderr=full)
    for rules, size in [("0", 0), ("1", 16), ("3", 61)]:
        text = b"items %s %s\nbytes %d %d\nsteps 0\n" % (rules.encode(), rules.encode(), size, size)
        tries.check_read(f"a made sheet of {rules} rules", ["trial", rules], SHEET, 0, text, b"", 0)


def try_sheets(tries):
    tries.check_read("a sheet", ["min"], SHEET, 0, PRINTED, b"", len(SHEET))
    tries.check_read("an empty sheet", ["min"], b"", 0, b"", b"", 0)
    apart = b".a{color:red}.b{top:0}.a{left:0}"
    for words in [["min"], ["min", "--budget", "0"], ["min", "--budget=20000"]]:
        tries.check_read("rules that are no neighbours", words, apart, 0, b".b{top:0}.a{color:red;left:0}", b"", len(apart))
    broken = b'a{b:"x'
    tries.check_read("a broken sheet", ["min"], broken, 3, b"", b"refused: EndInside at 4\n", len(broken))
    long = b"a" * (MAX_BYTES + 2)
    told = b"refused: TooLong at %d\n" % MAX_BYTES
    tries.check_read("a sheet that is too long", ["min"], long, 3, b"", told, MAX_BYTES + 1)


def try_limits(tries):
    """The longest and the deepest sheets, and what stands just behind a limit."""
    deep = b"@x" + b"(" * 256 + b")" * 256 + b";"
    tries.check_read("256 open brackets", ["min"], deep, 0, deep, b"", len(deep))
    deeper = b"@x" + b"(" * 257 + b")" * 257 + b";"
    told = b"refused: TooDeep at 258\n"
    tries.check_read("257 open brackets", ["min"], deeper, 3, b"", told, len(deeper))
    tries.check_read("white space", ["min"], b" " * MAX_BYTES, 0, b"", b"", MAX_BYTES)
    for selector, text in [
        (" a" * 12, b"disjoint\n"),
        (" a" * 13, b"outside 6\n"),
        (".a" * 32, b"disjoint\n"),
        (".a" * 33, b"outside 7\n"),
        (":nth-child(32n+1000)", b"disjoint\n"),
        (":nth-child(n+1001)", b"outside 8\n"),
        (":nth-child(2n)" * 4, b"disjoint\n"),
        (":nth-child(2n)" * 5, b"outside 9\n"),
    ]:
        tries.check_read(selector, ["cmp", selector, "*::after"], SHEET, 0, text, b"", 0)


def try_prefixes(tries):
    """A sheet that is cut off somewhere is merged, or refused for what is open; what is merged stays as it is."""
    with open(".ci/page.css", "rb") as file:
        page = file.read()
    merged = set()
    for size in range(len(page) + 1):
        ran = tries.run(["min"], page[:size])
        if ran.returncode == 0:
            merged.add(ran.stdout)
            end = (0, ran.stdout, b"")
        else:
            place = re.fullmatch(rb"refused: EndInside at (\d+)\n", ran.stderr)
            end = (3, b"", ran.stderr if place and int(place[1]) < size else "EndInside before the end")
        tries.is_same(f"{size} bytes of a page", "the end", (ran.returncode, ran.stdout, ran.stderr), end)
    for text in sorted(merged):
        tries.check("a merged front of a page", ["min"], text, 0, text, b"")


def try_faults(tries):
    """A read that fails behind so many bytes, and a write that does."""
    sheet = b".a{top:0}.b{top:1px}.a{top:2px}"
    report = b"items 3 3\nbytes 31 31\nsteps 0\nblocked JoinSelUp 1 3 meet 2\nblocked JoinSelDown 1 3 meet 2\n"
    for size in range(len(sheet) + 1):
        reader, writer = socket.socketpair()
        # What the writer leaves unread fails the read behind what it has sent.
        reader.send(b"x")
        writer.send(sheet[:size])
        writer.close()
        tries.check(f"a read that fails behind {size} bytes", ["min", "--report"], reader, 4, b"", READ_FAULT)
        reader.close()
    for stream, text, out, err in [("stdout", sheet, None, WRITE_FAULT), ("stderr", report, sheet, None)]:
        for size in range(len(text) + 1):
            with tempfile.TemporaryFile() as file:
                ran = tries.run(["min", "--report"], sheet, before=limit_files(size), **{stream: file})
                file.seek(0)
                found = (ran.returncode, file.read(), ran.stdout, ran.stderr)
            status, told = (5, err) if size < len(text) else (0, report if stream == "stdout" else None)
            tries.is_same(f"{stream} of {size} bytes", "the end", found, (status, text[:size], out, told))


def try_streams(tries):
    tries.check("a closed input", ["min"], SHEET, 4, b"", READ_FAULT, before=close(0))
    folder = os.open("/", os.O_RDONLY)
    tries.check("a folder as input", ["min"], folder, 4, b"", READ_FAULT)
    os.close(folder)
    tries.check("a closed output", ["min"], SHEET, 5, b"", WRITE_FAULT, before=close(1))
    reader, writer = os.pipe()
    os.close(reader)
    tries.check("an output that nobody reads", ["min"], SHEET, 5, b"", WRITE_FAULT, stdout=writer)
    os.close(writer)
    with open("/dev/full", "wb") as full:
        tries.check("a full output", ["min"], SHEET, 5, b"", WRITE_FAULT, stdout=full)
        tries.check("nothing for a full output", ["min"], b"", 0, b"", b"", stdout=full)
        tries.check("a full standard error", [], SHEET, 2, b"", NO_WORD, stderr=full)
        tries.check("a full standard error, a sheet", ["min"], SHEET, 0, PRINTED, b"", stderr=full)
    tries.check("a closed standard error", [], SHEET, 2, b"", b"", before=close(2))
    tries.check("a closed standard error, a sheet", ["min"], SHEET, 0, PRINTED, b"", before=close(2))


def try_memory(tries, sheet, printed):
    """Where memory is short the answer is that it is, and never another text."""
    short = limit_memory(512)
    tries.check("no room for the input", ["min"], SHEET, 6, b"", NO_MEMORY, before=short)
    many = ["x" * 100_000] * 10
    tries.check("no room for the words", many, SHEET, 6, b"", NO_MEMORY, before=short)
    tries.check("room for the words", many, SHEET, 2, b"", unknown(many[0].encode()))
    ends = {(0, printed, b""), (6, b"", NO_MEMORY)}
    seen = set()
    for kibibytes in range(512, 8192, 64):
        ran = tries.run(["min"], sheet, before=limit_memory(kibibytes))
        end = (ran.returncode, ran.stdout, ran.stderr)
        seen.add(end)
        if end not in ends:
            tries.is_same(f"{kibibytes} KiB for data", "the end", end, "done or out of memory")
    tries.is_same("some of these amounts", "which ends were seen", len(seen & ends), 2)


def try_examples(tries):
    sheets = sorted(set(glob.glob("examples/*.css")) - set(glob.glob("examples/*.min.css")))
    if not sheets:
        tries.is_same("examples", "the list of sheets", sheets, "some")
    for path in sheets:
        with open(path, "rb") as file:
            sheet = file.read()
        with open(path.removesuffix(".css") + ".min.css", "rb") as file:
            printed = file.read()
        tries.check(path, ["min"], sheet, 0, printed, b"")
        for word in ["same", "diff"]:
            tries.check(f"{path} and what became of it, by {word}", [word, str(len(sheet))], sheet + printed, 0, b"same\n", b"")


def main():
    if len(sys.argv) != 2:
        sys.exit(__doc__)
    program = os.path.abspath(sys.argv[1])
    os.chdir(os.path.join(os.path.dirname(os.path.abspath(__file__)), ".."))
    tries = Tries(program)
    try_words(tries)
    try_wrong_lines(tries)
    try_itself(tries)
    for document in DOCUMENTS:
        try_document(tries, document)
    try_pages(tries)
    try_pairs(tries)
    try_logs(tries)
    try_moves(tries)
    try_two_sheets(tries)
    try_differences(tries)
    try_blockers(tries)
    try_items(tries)
    try_findings(tries)
    try_entries(tries)
    try_winners(tries)
    try_lives(tries)
    try_reports(tries)
    try_sheets(tries)
    try_limits(tries)
    try_prefixes(tries)
    try_faults(tries)
    try_streams(tries)
    # A sheet that is merged, so that each kind of memory is taken.
    rules = b"".join(b".a%d { top : %dpx ; }\n.a%d{color:c%d}\n" % (i, i, i, i) for i in range(20))
    joined = b"".join(b".a%d{top:%dpx;color:c%d}" % (i, i, i) for i in range(20))
    try_memory(tries, rules, joined)
    try_examples(tries)
    print(f"{tries.cases} runs of the program, {tries.wrong} differences")
    sys.exit(1 if tries.wrong else 0)


main()
