#!/usr/bin/env python3
"""Runs a command, as `rt ci`, and prints behind its output what each crate took: its proof, its tests and its edits.

usage: python3 .ci/times.py COMMAND..

Times are seconds of processor time, as /proc tells them every two seconds, so what ends sooner is missed. Below the table stands their
sum in minutes, and what it would be on a quiet machine: a processor that other programs, or other machines on the same host, use as
well takes longer for the same work. That is an estimate. Every two seconds a small loop is timed, and the sum is divided by how much
longer the loop takes on the average than in its quickest twentieth, as if checks slowed down alike. The last line has how long it all
took. Where there is no /proc, no times are told. Its status is that of the command.
"""

import collections
import os
import subprocess
import sys
import time

KINDS = ("proof", "tests", "edits")

# The steps of the loop, which take some ten milliseconds.
STEPS = 100_000


def facts(pid):
    """Of a process the fields of /proc/PID/stat behind its name: its state, its parent, and so on."""
    with open(f"/proc/{pid}/stat", encoding="utf-8", errors="replace") as file:
        return file.read().rpartition(")")[2].split()


def is_below(pid, ancestor):
    """Whether a process was started by another one, or by what that started."""
    while pid not in ("0", ancestor):
        pid = facts(pid)[1]
    return pid == ancestor


def checks(ancestor):
    """The checks that run below a process: of each its process, its crate, its kind and its seconds so far."""
    for pid in filter(str.isdigit, os.listdir("/proc")):
        try:
            with open(f"/proc/{pid}/cmdline", "rb") as file:
                words = file.read().decode(errors="replace").split("\0")
            if os.path.basename(words[0]) != "rattle" or "--crate-name" not in words or not is_below(pid, ancestor):
                continue
            fields = facts(pid)
            edited = os.path.basename(os.readlink(f"/proc/{pid}/cwd")).startswith("rt-edit-")
        except (OSError, IndexError):
            continue
        kind = "edits" if edited else "tests" if "--test" in words else "proof"
        seconds = (int(fields[11]) + int(fields[12])) / os.sysconf("SC_CLK_TCK")
        yield (pid, fields[19]), words[words.index("--crate-name") + 1], kind, seconds


def loop_seconds():
    """The processor time in seconds that the loop takes now."""
    start, total = time.process_time(), 0
    for step in range(STEPS):
        total = (31 * total + step) & 0xFFFFFFFF
    return time.process_time() - start


def slowdown(loops):
    """How many times longer the loop took on the average than in its quickest twentieth."""
    quickest = sorted(loops)[len(loops) // 20]
    return sum(loops) / len(loops) / quickest


def table(seen):
    """The lines of the table, the crate that took most first, and the line of the sum."""
    crates = collections.defaultdict(collections.Counter)
    for crate, kind, seconds in seen.values():
        crates[crate][kind] += seconds
    rows = sorted(crates.items(), key=lambda row: -sum(row[1].values()))
    for crate, took in rows:
        yield f"{crate:24}" + "".join(f"{took[kind]:8.0f}" for kind in KINDS)
    sums = [sum(took[kind] for _, took in rows) for kind in KINDS]
    yield f"{'all':24}" + "".join(f"{seconds:8.0f}" for seconds in sums)
    yield f"{sum(sums) / 60:.1f} processor minutes"


def quiet(seen, loops):
    """The line of what the sum would be on a quiet machine."""
    minutes = sum(seconds for _, _, seconds in seen.values()) / 60
    return f"{minutes / slowdown(loops):.1f} on a quiet machine, by a loop that took {slowdown(loops):.2f} times as long as at its quickest"


def main():
    start, seen, loops = time.time(), {}, []
    with subprocess.Popen(sys.argv[1:]) as command:
        while command.poll() is None:
            if os.path.isdir("/proc/self"):
                seen.update((process, (crate, kind, seconds)) for process, crate, kind, seconds in checks(str(command.pid)))
                loops.append(loop_seconds())
            time.sleep(2)
    if seen:
        print(f"{'seconds of processor time':24}" + "".join(f"{kind:>8}" for kind in KINDS))
        print("\n".join(table(seen)))
        print(quiet(seen, loops))
    print(f"{(time.time() - start) / 60:.1f} minutes on {os.cpu_count()} processors", flush=True)
    return command.returncode


if __name__ == "__main__":
    sys.exit(main())
