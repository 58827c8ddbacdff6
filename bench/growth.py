"""Runs of `cssmin min` on made sheets of several sizes: their time, their memory, and how the time grows."""

import argparse
import math
import os
import resource
import tempfile


def run(program, options, path, seconds):
    """Whether a run ended by itself with the status 0, its processor seconds, and its peak memory in MiB."""
    child = os.fork()
    if child == 0:
        os.dup2(os.open(path, os.O_RDONLY), 0)
        os.dup2(os.open(os.devnull, os.O_WRONLY), 1)
        resource.setrlimit(resource.RLIMIT_CPU, (seconds, seconds))
        os.execv(program, [program, "min", *options])
    _, status, used = os.wait4(child, 0)
    return status == 0, used.ru_utime + used.ru_stime, used.ru_maxrss / 1024


def measure(program, options, name, kind, seconds):
    """Prints the runs of one kind of sheet, a maker and its sizes, and how its time grows."""
    make, sizes = kind
    took_by_bytes = []
    for size in sizes:
        text = make(size).encode()
        with tempfile.NamedTemporaryFile(suffix=".css") as sheet:
            sheet.write(text)
            sheet.flush()
            ended, took, peak = run(program, options, sheet.name, seconds)
        print(f"{name:33} {size:6} {len(text):8} bytes  {took:7.2f} s  {peak:6.1f} MiB{'' if ended else '  not ended'}", flush=True)
        if not ended:
            break
        took_by_bytes.append((len(text), took))
    if len(took_by_bytes) > 1:
        (few, first), (many, last) = took_by_bytes[0], took_by_bytes[-1]
        print(f"{name:33} exponent {math.log(max(last, 0.001) / max(first, 0.001)) / math.log(many / few):.1f}", flush=True)


def measure_all(description, kinds):
    """Measures the kinds, by name, that the words of the command line ask for."""
    words = argparse.ArgumentParser(description=description, formatter_class=argparse.RawDescriptionHelpFormatter)
    words.add_argument("--seconds", type=int, default=60)
    words.add_argument("--kind", default="")
    words.add_argument("program")
    words.add_argument("options", nargs=argparse.REMAINDER)
    told = words.parse_args()
    for name, kind in kinds.items():
        if told.kind in name:
            measure(os.path.abspath(told.program), told.options, name, kind, told.seconds)
