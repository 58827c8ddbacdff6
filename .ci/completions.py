#!/usr/bin/env python3
"""Tries the completions of bash, zsh and fish against the help of the program.

Usage: .ci/completions.py PROGRAM [FOLDER]

For each command that `PROGRAM --help` lists, and each of its options, a shell has to offer these and no others at the right
place, with nothing on standard error. A shell that is not there is named. FOLDER has the completions, if it is not
`completions`. Prints each difference, and ends with 1 if there is one.
"""

import os
import pty
import re
import select
import shutil
import subprocess
import sys
import tempfile
import time

FILES = {"bash": "cssmin.bash", "fish": "cssmin.fish", "zsh": "_cssmin"}


def help_of(program, *words):
    return subprocess.run([program, *words, "--help"], stdout=subprocess.PIPE, check=True).stdout.decode()


def options_in(text):
    """The options of a help, and those of them that take a value."""
    found = dict(re.findall(r"^ {2,6}(?:-\w, )?--([\w-]+)( <\w+>)?", text, re.MULTILINE))
    return {f"--{name}" for name in found}, {f"--{name}" for name, value in found.items() if value}


def commands_of(program):
    """The options of each command; "" has those before any command. And the options that take a value."""
    top = help_of(program)
    listed = top[top.index("Commands:") : top.index("Options:")]
    options, valued = {"": options_in(top)[0]}, set()
    for name in re.findall(r"^  ([a-z]+) ", listed, re.MULTILINE):
        options[name] = set()
        if name != "help":
            options[name], values = options_in(help_of(program, name))
            valued |= values
    return options, valued


def cases_of(options, valued):
    """What is typed, the last word in part, and what has to be offered for it."""
    yield ["cssmin", ""], set(options) - {""}
    for name, own in options.items():
        typed = ["cssmin", name] if name else ["cssmin"]
        yield [*typed, "--"], own
        for option in sorted(own):
            yield [*typed, option[:4]], {option}
            if name and option != "--help":
                value = ["1"] if option in valued else []
                yield [*typed, option, *value, "--"], own - {option, "--help"}
                if value:
                    yield [*typed, option, ""], set()


def bash(file, words):
    """What bash offers, and what it says."""
    script = f'. "{file}"; COMP_WORDS=("$@"); COMP_CWORD=$(($# - 1)); _cssmin; printf "%s\\n" "${{COMPREPLY[@]}}"'
    ran = subprocess.run(["bash", "--norc", "-uc", script, "bash", *words], stdout=subprocess.PIPE, stderr=subprocess.PIPE)
    return set(ran.stdout.decode().split()), ran.stderr.decode()


def fish(file, words):
    """The same by fish."""
    script = f'source "{file}"; complete -C "{" ".join(words)}"'
    ran = subprocess.run(["fish", "--no-config", "-c", script], stdout=subprocess.PIPE, stderr=subprocess.PIPE)
    return {line.split("\t")[0] for line in ran.stdout.decode().splitlines()}, ran.stderr.decode()


# Each match goes to a file, with marks around it, and the line stays as it was typed.
ZSHRC = r"""
PS1='>'; PS2=; unsetopt LIST_BEEP
fpath=(%s $fpath)
autoload -Uz compinit && compinit -u -D
compadd() {
    if [[ ${@[1,(i)(-|--)]} == *-(O|A|D)\ * ]]; then builtin compadd "$@"; return; fi
    local -a found; builtin compadd -A found "$@"
    for it in $found; do print -r -- "<<$it>>"; done >>"$CSSMIN_FOUND"
}
compdef _cssmin cssmin
tell() { zle complete-word; print -r -- "<<>>" >>"$CSSMIN_FOUND"; zle kill-whole-line }
zle -N tell
bindkey '^I' tell
print READY
"""


class Zsh:
    """A zsh at a terminal of its own, since it completes nowhere else."""

    def __init__(self, file):
        self.folder = tempfile.TemporaryDirectory()
        self.found = os.path.join(self.folder.name, "found")
        with open(os.path.join(self.folder.name, ".zshrc"), "w", encoding="utf-8") as rc:
            rc.write(ZSHRC % os.path.dirname(os.path.abspath(file)))
        self.process, self.terminal = pty.fork()
        if self.process == 0:
            more = {"ZDOTDIR": self.folder.name, "CSSMIN_FOUND": self.found, "TERM": "dumb"}
            os.execvpe("zsh", ["zsh", "-d", "-i"], {**os.environ, **more})
        self.said = b""
        self.wait(lambda: b"READY" in self.said)

    def wait(self, is_done):
        """Takes what the terminal says until this is so, or for twenty seconds."""
        end = time.monotonic() + 20
        while not is_done() and time.monotonic() < end:
            if select.select([self.terminal], [], [], 0.02)[0]:
                try:
                    self.said += os.read(self.terminal, 65536)
                except OSError:
                    return

    def told(self):
        if not os.path.exists(self.found):
            return []
        with open(self.found, encoding="utf-8") as found:
            return re.findall(r"<<(.*?)>>", found.read())

    def __call__(self, _, words):
        self.said = b""
        if os.path.exists(self.found):
            os.remove(self.found)
        os.write(self.terminal, " ".join(words).encode() + b"\t")
        self.wait(lambda: "" in self.told())
        wrong = re.findall(rb"^.*(?:comparguments|invalid|not found|error).*$", self.said, re.MULTILINE)
        return set(self.told()) - {""}, b"\n".join(wrong).decode()

    def close(self):
        os.write(self.terminal, b"\x03exit\n")
        self.wait(lambda: False)
        os.close(self.terminal)
        os.waitpid(self.process, 0)
        self.folder.cleanup()


def try_shell(shell, file, options, valued):
    """How many cases there are, and how many went wrong."""
    complete = {"bash": lambda: bash, "fish": lambda: fish, "zsh": lambda: Zsh(file)}[shell]()
    cases, wrong = list(cases_of(options, valued)), 0
    if shell == "bash":  # the others offer files there by themselves
        cases.append((["cssmin", "min", "<", "completions/cssmin.b"], {"completions/cssmin.bash"}))
    for words, wanted in cases:
        offered, said = complete(file, words)
        # Some shells offer options and commands together, if nothing of the word is there yet.
        kept = {word for word in offered if words[-1] != "" or not word.startswith("-")}
        if kept != wanted or said:
            wrong += 1
            print(f"{shell}: {' '.join(words)!r} offers {sorted(kept)}, and is to offer {sorted(wanted)} {said.strip()}")
    if shell == "zsh":
        complete.close()
    return len(cases), wrong


def main():
    if len(sys.argv) not in (2, 3):
        sys.exit(__doc__)
    program, folder = sys.argv[1], (sys.argv[2:] or ["completions"])[0]
    options, valued = commands_of(os.path.abspath(program))
    failed = False
    for shell, name in FILES.items():
        if not shutil.which(shell):
            print(f"completions: {shell} is not there")
            continue
        cases, wrong = try_shell(shell, os.path.join(folder, name), options, valued)
        print(f"completions: {cases} cases of {shell}, {wrong} went wrong")
        failed = failed or wrong > 0
    sys.exit(failed)


main()
