#!/usr/bin/env python3
"""What a network's transmission unit costs: runs of one device that takes three images of 1 MiB, at 64 bytes and at 128, and, where
the program of an earlier commit is given too, the same run by that program at 64: units.py PROGRAM [EARLIER] [RUNS].

All are run in turn, RUNS times (9 by default). What is printed are the least processor and wall seconds of each, its packets and
its peak memory, and their ratios to the run at 64."""
import os
import sys
import tempfile

from worlds import config, package, update

IMAGES = 3


def run(program, path, folder):
    """The processor and wall seconds of one run, the device's packets, and the peak memory in MB."""
    ran = update([program, "run", path, folder])
    sent = [int(line.split()[-1]) for line in ran.text.split("\n") if line.startswith("device ")]
    return ran.processor, ran.wall, sum(sent), ran.peak


def main():
    names = sys.argv[1:]
    runs = int(names.pop()) if names[-1].isdigit() else 9
    programs = [os.path.abspath(name) for name in names]
    with tempfile.TemporaryDirectory() as folder:
        images, plain, wide = (os.path.join(folder, name) for name in ("package", "plain", "wide"))
        with open(images, "wb") as file:
            file.write(package(IMAGES))
        text = config(1, IMAGES, images)
        with open(plain, "w") as file:
            file.write(text)
        agent, rest = text.split("\n", 1)
        with open(wide, "w") as file:
            file.write(f"{agent}\nunit 128\n{rest}")
        ways = [("64", programs[0], plain), ("128", programs[0], wide)] + [("64, earlier", other, plain) for other in programs[1:]]
        taken = {name: [] for name, _, _ in ways}
        for _ in range(runs):
            for name, program, path in ways:
                taken[name].append(run(program, path, folder))
    print("unit         processor s  of 64   wall s  of 64   packets  peak MB  bytes a packet")
    first = [min(column) for column in zip(*taken["64"])]
    for name, rows in taken.items():
        spent, seconds, sent, peak = (min(column) for column in zip(*rows))
        print(
            f"{name:12} {spent:11.2f} {spent / first[0]:6.2f} {seconds:8.2f} {seconds / first[1]:6.2f} {sent:9} {peak:8.1f}"
            f" {peak * 1e6 / sent:15.1f}"
        )


if __name__ == "__main__":
    main()
