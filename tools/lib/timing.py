"""How long a program takes."""

import os
import resource
import subprocess
import time


def processor_time(words, text=b"", stdout=subprocess.PIPE):
    """Returns the seconds of processor time, of the user and of the system, that a program takes which reads this text,
    and how it ended."""
    before = resource.getrusage(resource.RUSAGE_CHILDREN)
    ended = subprocess.run(words, input=text, stdout=stdout, stderr=subprocess.PIPE)
    after = resource.getrusage(resource.RUSAGE_CHILDREN)
    return after.ru_utime + after.ru_stime - before.ru_utime - before.ru_stime, ended


def elapsed(words, path=os.devnull):
    """Returns the seconds of real time that a program takes which reads a file, and how it ended."""
    with open(path, "rb") as file:
        begun = time.monotonic()
        ended = subprocess.run(words, stdin=file, capture_output=True)
        return time.monotonic() - begun, ended
