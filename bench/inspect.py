#!/usr/bin/env python3
"""How long `fwupd inspect` takes, and how much memory, on large packages.

    bench/inspect.py PROGRAM

PROGRAM is the built program. The packages are made here, in a folder of their own that is removed again, and read in turn. What
is printed are medians of processor time, and last ratios: twice the records, or twice the components, should take about twice the
time, and a package of 200 MB should take the time and the memory of one with an image of a byte, since its header alone is read.
"""

import os
import statistics
import struct
import subprocess
import sys
import tempfile
import zlib

from commands import spent
from memory import MIB, needs

IDENTIFIER = bytes.fromhex("F018878CCB7D49439800A02F059ACA02")


def package(records, components, image):
    """A package whose records use all components; the last component's image has `image` bytes, the others' none."""
    bitmap = (components + 7) // 8
    bits = (1 << components) - 1
    record = struct.pack("<HBIBBH", 11 + bitmap, 0, 0, 1, 0, 0) + bits.to_bytes(bitmap, "little")
    body = struct.pack("<B", records) + record * records + struct.pack("<H", components)
    size = 36 + len(body) + 22 * components + 4
    for number in range(components):
        length = image if number + 1 == components else 0
        body += struct.pack("<HHIHHIIBB", 10, number, 0, 0, 0, size, length, 1, 0)
    header = IDENTIFIER + struct.pack("<BH13xHBB", 1, size, 8 * bitmap, 1, 0) + body
    return header + struct.pack("<I", zlib.crc32(header)) + bytes(image)


def medians(commands, turns):
    """The median of each command's processor seconds, of so many runs in turn."""
    seconds = [[spent(words, stdout=subprocess.DEVNULL) for words in commands] for _ in range(turns)]
    return [statistics.median(column) for column in zip(*seconds)]


def main():
    program = os.path.abspath(sys.argv[1])
    rows = {
        "one record of 1 use": (1, 1, 0),
        "40 records of 1,800 uses": (40, 1800, 0),
        "80 records of 900 uses": (80, 900, 0),
        "80 records of 1,800 uses": (80, 1800, 0),
        "an image of 1 byte": (1, 1, 1),
        "an image of 200 MB": (1, 1, 200_000_000),
    }
    with tempfile.TemporaryDirectory() as folder:
        commands = []
        for number, shape in enumerate(rows.values()):
            path = os.path.join(folder, str(number))
            with open(path, "wb") as file:
                file.write(package(*shape))
            commands.append([program, "inspect", path])
        found = dict(zip(rows, zip(medians(commands, 61), map(needs, commands))))
    for name, (seconds, memory) in found.items():
        print(f"{name}: {1000 * seconds:.1f} ms, {memory / MIB:.1f} MiB")
    small = found["one record of 1 use"]
    beyond = {name: seconds - small[0] for name, (seconds, _) in found.items()}
    print(f"twice the records: {beyond['80 records of 1,800 uses'] / beyond['40 records of 1,800 uses']:.2f} times the time")
    print(f"twice the components: {beyond['80 records of 1,800 uses'] / beyond['80 records of 900 uses']:.2f} times the time")
    byte, image = found["an image of 1 byte"], found["an image of 200 MB"]
    print(f"200 MB: {image[0] / byte[0]:.2f} times the time of 1 byte, {image[1] / byte[1]:.2f} times its memory")


if __name__ == "__main__":
    main()
