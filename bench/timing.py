"""One run of a program on a file, timed."""

import os
import sys
import time


def one_run(words, path):
    """The seconds that a run took, and its peak memory in KiB."""
    begun = time.perf_counter()
    child = os.fork()
    if child == 0:
        os.dup2(os.open(path, os.O_RDONLY), 0)
        os.dup2(os.open(os.devnull, os.O_WRONLY), 1)
        os.execvp(words[0], words)
    _, status, usage = os.wait4(child, 0)
    took = time.perf_counter() - begun
    if status != 0:
        sys.exit(f"{' '.join(words)} ended with {os.waitstatus_to_exitcode(status)} on {path}")
    return took, usage.ru_maxrss
