#!/usr/bin/env python3
"""What a trace costs: a run of one device that takes three images of 1 MiB, without a trace and with one in each form:
traces.py PROGRAM [RUNS].

All are run in turn, RUNS times (9 by default). What is printed are the medians of processor and wall time of each, the size of
its trace, and the ratios of the processor times to the run without a trace."""
import os
import statistics
import sys
import tempfile

from units import IMAGES
from worlds import config, package, update

FORMS = ("hex", "text", "pcap")


def traced(words, form, trace):
    """The processor and wall seconds of one run, and the size of its trace."""
    ran = update(words + (["--trace", trace, "--trace-format", form] if form else []))
    return ran.processor, ran.wall, os.path.getsize(trace) if form else 0


def main():
    program = os.path.abspath(sys.argv[1])
    runs = int(sys.argv[2]) if len(sys.argv) > 2 else 9
    with tempfile.TemporaryDirectory() as folder:
        images, text, trace = (os.path.join(folder, name) for name in ("package", "config", "trace"))
        with open(images, "wb") as file:
            file.write(package(IMAGES))
        with open(text, "w") as file:
            file.write(config(1, IMAGES, images))
        taken = {form: [] for form in (None, *FORMS)}
        for _ in range(runs):
            for form, rows in taken.items():
                rows.append(traced([program, "run", text, folder], form, trace))
    print("trace   processor s  of none   wall s  bytes")
    none = statistics.median(row[0] for row in taken[None])
    for form, rows in taken.items():
        spent, seconds, size = (statistics.median(column) for column in zip(*rows))
        print(f"{form or 'none':7} {spent:11.2f} {spent / none:8.2f} {seconds:8.2f}  {size:.0f}")


if __name__ == "__main__":
    main()
