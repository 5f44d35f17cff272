"""Runs of a program, measured: the clock, the time in the program itself, and the most memory at once."""
import os
import subprocess
import tempfile
import time
from typing import NamedTuple


class Run(NamedTuple):
    seconds: float
    # In user mode alone.
    user: float
    # In units of 2^20 bytes.
    memory: float
    status: int
    # What the program said on standard error.
    told: str


def once(command, path):
    """One run with the file as its standard input."""
    with open(path, "rb") as source, tempfile.TemporaryFile() as sink:
        begun = time.monotonic()
        process = subprocess.Popen(command, stdin=source, stdout=sink, stderr=subprocess.PIPE)
        told = process.stderr.read().decode().strip()
        _, status, used = os.wait4(process.pid, 0)
        seconds = time.monotonic() - begun
    process.returncode = os.waitstatus_to_exitcode(status)
    return Run(seconds, used.ru_utime, used.ru_maxrss / 1024, process.returncode, told)


def best(command, path, turns):
    """The least time on the clock and in the program, and the most memory, of some runs."""
    runs = [once(command, path) for _ in range(turns)]
    return Run(
        min(run.seconds for run in runs), min(run.user for run in runs), max(run.memory for run in runs),
        max(run.status for run in runs), runs[-1].told)
