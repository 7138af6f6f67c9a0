#!/usr/bin/env python3
"""Measures `fwupd run` and `fwupd replay`: seconds, packets a second and peak memory, over more devices and larger images, and
that neither the time for each MiB nor that for each line grows with the run. Usage: bench/worlds.py PROGRAM [LARGEST]

LARGEST is the most MiB of images that all devices of a run have together, 48 by default."""
import os
import struct
import sys
import tempfile
import zlib

from commands import measured

MIB = 1 << 20
UUID = "00000000-0000-0000-0000-000000000000"
IDENTIFIER = bytes.fromhex("F018878CCB7D49439800A02F059ACA02")


def package(count, length=MIB):
    """A package of so many images of this length, 1 MiB by default, for descriptor 0000 3412."""
    bitmap = bytes([(1 << count) - 1])
    record = struct.pack("<BIBBH", 1, 0, 1, 1, 0) + bitmap + b"A" + bytes.fromhex("000002003412")
    record = struct.pack("<H", len(record) + 2) + record
    size = 36 + 1 + len(record) + 2 + 24 * count + 4
    header = IDENTIFIER + struct.pack("<BH", 1, size) + bytes(13) + struct.pack("<HBB", 8, 1, 0)
    header += bytes([1]) + record + struct.pack("<H", count)
    for i in range(count):
        header += struct.pack("<HHIHHIIBB", 10, 1 + i, 2, 2, 0, size + i * length, length, 1, 2) + b"v2"
    image = bytes((i * 31 + (i >> 8)) % 256 for i in range(length))
    return header + struct.pack("<I", zlib.crc32(header)) + image * count


def config(devices, count, path):
    """A configuration of devices with so many components each."""
    lines = [f"agent 8 {UUID}"]
    for device in range(devices):
        lines += [f"device {9 + device} {UUID}", "descriptor 0000 3412"]
        lines += [f"component 10 {1 + i} {i} 1 1.0 AA" for i in range(count)]
    return "\n".join(lines + [f"package {path}"]) + "\n"


def update(words):
    """What a run of one device that ends well took."""
    ran = measured(words)
    assert ran.text.count(" session Done ") == 1, ran.text
    return ran


def updates(program, folder, largest):
    """Whole updates over sockets."""
    first = None
    print("devices  MiB each  seconds  packets  packets/s  peak MB  seconds/MiB against the first")
    for devices, count in ((1, 1), (1, 2), (1, 3), (4, 1), (4, 3), (16, 1), (16, 3)):
        if devices * count > largest:
            continue
        paths = os.path.join(folder, "package"), os.path.join(folder, "config")
        with open(paths[0], "wb") as file:
            file.write(package(count))
        with open(paths[1], "w") as file:
            file.write(config(devices, count, paths[0]))
        report, _, seconds, peak = measured([program, "run", paths[1], folder])
        sent = [int(line.split()[-1]) for line in report.split("\n") if line.startswith("device ")]
        assert report.count(" session Done ") == devices, report
        each = seconds / (devices * count)
        first = first or each
        print(f"{devices:7} {count:9} {seconds:8.2f} {sum(sent):8} {sum(sent) / seconds:10.0f} {peak:8.0f} {each / first:8.2f}")


def schedules(program, folder):
    """Schedules of ticks, and of lines."""
    paths = [os.path.join(folder, name) for name in ("config", "schedule")]
    with open(paths[0], "w") as file:
        file.write(config(1, 1, "none").replace("package none\n", ""))
    print("schedule                 seconds  lines/s  peak MB")
    for name, lines in (
        ("100,000 idle ticks", ["tick 1000"] * 100),
        ("100,000 lines of sel", ["sel 40"] * 100_000),
        ("1,000,000 lines of sel", ["sel 40"] * 1_000_000),
    ):
        with open(paths[1], "w") as file:
            file.write("\n".join(lines) + "\n")
        _, _, seconds, peak = measured([program, "replay", *paths])
        print(f"{name:24} {seconds:7.2f} {len(lines) / seconds:8.0f} {peak:8.0f}")


def main():
    program = os.path.abspath(sys.argv[1])
    largest = int(sys.argv[2]) if len(sys.argv) > 2 else 48
    with tempfile.TemporaryDirectory() as folder:
        updates(program, folder, largest)
        schedules(program, folder)


if __name__ == "__main__":
    main()
