"""What the scripts of this folder measure a program by."""

import os
import shutil
import subprocess
import sys
import tempfile


def least(words, given=None, times=3):
    """What a program writes, its seconds of processor time, and the peak of its memory in bytes: the least of some runs.
    `given` is the file that it reads, if any."""
    best = None
    for _ in range(times):
        with open(given or os.devnull) as source, tempfile.TemporaryFile() as sink:
            child = subprocess.Popen([*map(str, words)], stdin=source, stdout=sink)
            _, status, usage = os.wait4(child.pid, 0)
            if status:
                sys.exit(f"{words} ended with {status}")
            seconds = usage.ru_utime + usage.ru_stime
            if best is None or seconds < best[1]:
                sink.seek(0)
                best = sink.read(), seconds, usage.ru_maxrss * 1024
    return best


def instructions(words, given=None):
    """How many instructions a program carries out, counted by valgrind; None where that isn't there."""
    if not shutil.which("valgrind"):
        return None
    call = ["valgrind", "--tool=callgrind", "--callgrind-out-file=/dev/null", *map(str, words)]
    with open(given or os.devnull) as source:
        counted = subprocess.run(call, stdin=source, stdout=subprocess.DEVNULL, stderr=subprocess.PIPE, text=True).stderr
    return int(next(line for line in counted.splitlines() if "Collected" in line).split()[-1])


def shown(number, form=".1f"):
    """A number in its column, or a dash where it wasn't measured."""
    return "-" if number is None else format(number, form)
