"""What a command takes."""
import collections
import os
import resource
import subprocess
import time

# What a command printed, its seconds of a processor and of wall time, and its peak memory in MB. A peak is at least that of Python,
# some 12 MB.
Ran = collections.namedtuple("Ran", "text processor wall peak")


def measured(arguments):
    """What a command that ends well printed, and what it took."""
    read, write = os.pipe()
    begun = time.monotonic()
    child = os.fork()
    if child == 0:
        os.dup2(write, 1)
        os.close(read)
        os.execvp(arguments[0], arguments)
    os.close(write)
    with os.fdopen(read) as out:
        text = out.read()
    _, status, usage = os.wait4(child, 0)
    assert status == 0, (arguments, status, text)
    return Ran(text, usage.ru_utime + usage.ru_stime, time.monotonic() - begun, usage.ru_maxrss / 1000)


def spent(words, **how):
    """The processor seconds of a command that ends well, run as `subprocess` is told: of short ones too, since no fork of Python is in
    them."""
    before = resource.getrusage(resource.RUSAGE_CHILDREN)
    subprocess.run(words, check=True, **how)
    after = resource.getrusage(resource.RUSAGE_CHILDREN)
    return after.ru_utime + after.ru_stime - before.ru_utime - before.ru_stime
