"""How long programs take, for the benches."""

import os
import subprocess
import sys
import time
from typing import NamedTuple


class Timed(NamedTuple):
    """What a program took, with the programs that it ran."""

    # By the clock.
    seconds: float
    # Of the processor, without the system's calls.
    used: float
    # The greatest memory, in bytes.
    peak: int
    # The exit status.
    status: int
    # What it wrote to its standard output or, where that wasn't asked for, to its standard error.
    out: bytes


def timed(words, stdin=None, stdout=subprocess.DEVNULL, stderr=None, may_fail=False):
    """Runs a program, and ends the bench where it fails and may not."""
    start = time.perf_counter()
    process = subprocess.Popen(words, stdin=stdin, stdout=stdout, stderr=stderr)
    told = process.stdout or process.stderr
    out = told.read() if told else b""
    _, ended, usage = os.wait4(process.pid, 0)
    seconds = time.perf_counter() - start
    status = process.returncode = os.waitstatus_to_exitcode(ended)
    if status and not may_fail:
        sys.exit(f"{words[0]} ended with {status}")
    return Timed(seconds, usage.ru_utime, usage.ru_maxrss * 1024, status, out)
