#!/usr/bin/env python3
"""How many instructions a program takes for each further piece of twelve kinds of work: instructions.py PROGRAM [EARLIER]

They are counted by valgrind's callgrind, which other load doesn't disturb. Each work is done for some pieces and for twice as many;
what is printed is the difference by piece, so that the program's start isn't in it; and, where the program of an earlier commit is
given too, its number and the ratio to it. The instructions of the system aren't counted. It needs valgrind."""
import os
import re
import subprocess
import sys
import tempfile

from packages import written
from worlds import config, package

# The bytes that a device asks for at once (DSP0267: a transfer's size), which come in four packets of 64 bytes each.
PIECE = 240
START = "start 9 1\ntick\n"


def put(path, content):
    """The path of a file that now holds this."""
    with open(path, "wb") as file:
        file.write(content)
    return path


def answered(line):
    """So many equal lines of packets."""
    return lambda at, count: (["answer", "9"], f"{line}\n".encode() * count)


def inspected(at, count):
    """A package of so many records."""
    records = [(0, b"A", [(0, b"\x34\x12")], [0])] * count
    return ["inspect", put(at("records"), written(bytes(13), b"", records, [(10, 1, 2, 2, 0, b"v2", b"image")]))], b""


def world(at, devices, length):
    """A configuration of so many devices, and a package with an image of this length for each."""
    return put(at("config"), config(devices, 1, put(at("package"), package(1, length))).encode())


def replayed(devices, start, line):
    """A schedule of so many equal lines."""
    return lambda at, count: (["replay", world(at, devices, PIECE), put(at("schedule"), (start + line * count).encode())], b"")


def updated(devices):
    """A run of devices that each load so many pieces."""
    return lambda at, count: (["run", world(at, devices, PIECE * count), at("")], b"")


# Each kind of work, by its piece: what does it, how often, and how many pieces it has each time.
WORKS = {
    "a line of answer: Get Endpoint ID": (answered("010908C8008002"), 1_000, 1),
    "a line of answer: GetTID": (answered("010908C801800002"), 1_000, 1),
    "a line of answer: 68 bytes, dropped": (answered("010908C8" + "00" * 64), 1_000, 1),
    "a line of answer: another version": (answered("020908C8008002"), 1_000, 1),
    "a record of inspect": (inspected, 100, 1),
    "an idle tick, 1 device": (replayed(1, "", "tick 1000\n"), 10, 1_000),
    "an idle tick, 16 devices": (replayed(16, "", "tick 1000\n"), 4, 1_000),
    "a request that is delivered again": (replayed(1, START, "deliver 9 1 9\n"), 2_000, 1),
    "an answer that is delivered again": (replayed(1, START + "deliver 9 1 9\n", "deliver 9 2 8\n"), 2_000, 1),
    "a request of the event log": (replayed(1, "", "sel 40\n"), 2_000, 1),
    "240 bytes of a run, 1 device": (updated(1), 200, 1),
    "240 bytes of a run, 16 devices": (updated(16), 100, 16),
}


def counted(words, text):
    """The instructions of a command that ends well."""
    tool = ["valgrind", "--tool=callgrind", "--callgrind-out-file=/dev/null"]
    ran = subprocess.run([*tool, *words], input=text, stdout=subprocess.DEVNULL, stderr=subprocess.PIPE, check=True)
    return int(re.search(rb"Collected : (\d+)", ran.stderr)[1])


def taken(program, work, folder):
    """The instructions of each further piece of a work."""
    prepare, times, pieces = work

    def instructions(count):
        words, text = prepare(lambda name: os.path.join(folder, name), count)
        return counted([program, *words], text)

    return (instructions(2 * times) - instructions(times)) / (times * pieces)


def main():
    programs = [os.path.abspath(name) for name in sys.argv[1:3]]
    print(f"{'instructions':36} {'program':>9}" + "   earlier  of earlier" * (len(programs) - 1))
    with tempfile.TemporaryDirectory() as folder:
        for name, work in WORKS.items():
            each, *others = (taken(program, work, folder) for program in programs)
            print(f"{name:36} {each:9.0f}" + "".join(f" {other:9.0f} {each / other:11.2f}" for other in others), flush=True)


if __name__ == "__main__":
    main()
