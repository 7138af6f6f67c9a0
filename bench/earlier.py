#!/usr/bin/env python3
"""What a program costs beside that of an earlier commit, on the same work: earlier.py PROGRAM EARLIER [RUNS].

Both are run in turn, RUNS times (7 by default), on a run of 16 devices with three images of 1 MiB each, on one of a single device,
and on ten million idle ticks of a schedule of 10,000 lines. What is printed are the medians of processor time and of peak memory,
and their ratios to the earlier program's."""
import os
import statistics
import sys
import tempfile

from commands import measured
from worlds import config, package

IMAGES = 3


def written(path, content):
    """The path of a file that holds this."""
    with open(path, "wb") as file:
        file.write(content)
    return path


def works(folder):
    """The words of each work behind the program's."""
    at = lambda name: os.path.join(folder, name)
    images = written(at("package"), package(IMAGES))
    one, sixteen = (written(at(f"{count}.config"), config(count, IMAGES, images).encode()) for count in (1, 16))
    idle = written(at("idle.config"), config(1, 1, "none").replace("package none\n", "").encode())
    ticks = written(at("ticks"), b"tick 1000\n" * 10_000)
    return {
        "run, 16 devices": ["run", sixteen, folder],
        "run, 1 device": ["run", one, folder],
        "10,000,000 idle ticks": ["replay", idle, ticks],
    }


def main():
    programs = [os.path.abspath(name) for name in sys.argv[1:3]]
    runs = int((sys.argv[3:] or [7])[0])
    print("work                   processor s  of earlier  peak MB  of earlier")
    with tempfile.TemporaryDirectory() as folder:
        for name, words in works(folder).items():
            taken = [[], []]
            for _ in range(runs):
                for program, rows in zip(programs, taken):
                    ran = measured([program, *words])
                    rows.append((ran.processor, ran.peak))
            (spent, peak), (spent_before, peak_before) = ([statistics.median(column) for column in zip(*rows)] for rows in taken)
            print(f"{name:22} {spent:11.3f} {spent / spent_before:11.2f} {peak:8.1f} {peak / peak_before:11.2f}")


if __name__ == "__main__":
    main()
