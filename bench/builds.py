#!/usr/bin/env python3
"""Builds packages from random texts with PROGRAM, and compares each byte with a writer of its own (DSP0267 1.0): builds.py PROGRAM
[COUNT [SEED]]. Each package is inspected and planned as well, for a device that its first record may be for. It prints how many were
the same."""
import pathlib
import random
import subprocess
import sys
import tempfile

from packages import config, foretold, spec, text, written


def asked(rng):
    """What is asked: release time, version, records, components."""
    components = [
        (rng.randrange(65536), rng.randrange(65536), rng.randrange(1 << 32), rng.randrange(65536), rng.randrange(65536), text(rng),
         rng.randbytes(rng.choice([0, 1, 33, 700])))
        for _ in range(rng.choice([0, 1, 2, 3, 8, 9, 17]))
    ]
    records = []
    for _ in range(rng.choice([0, 1, 1, 2, 4])):
        uses = sorted(rng.sample(range(len(components)), rng.randrange(len(components) + 1)))
        descriptors = [(rng.randrange(65536), text(rng)) for _ in range(rng.randrange(4))]
        records.append((rng.randrange(1 << 32), text(rng), descriptors, uses))
    return rng.randbytes(13), text(rng), records, components


def device(records, components):
    """A device with the first record's descriptors, as far as they fit, and the components that the record uses first."""
    descriptors, room = [], 246
    for kind, data in records[0][2] if records else []:
        if 4 + len(data) <= room:
            room -= 4 + len(data)
            descriptors.append((kind, data))
    used = [components[k] for k in records[0][3]] if records else []
    running = {(kind, ident): (stamp & 0xFFFFFFF0, b"1.0") for kind, ident, stamp, *_ in used[:3]}
    return 9, descriptors, running or {(10, 1): (1, b"1.0")}


def main():
    program, count, seed = sys.argv[1], int((sys.argv[2:] or [2000])[0]), int((sys.argv[3:] or [49])[0])
    rng = random.Random(seed)
    same = 0
    with tempfile.TemporaryDirectory() as name:
        folder = pathlib.Path(name)
        for place in range(count):
            wanted = asked(rng)
            (folder / "spec").write_text(spec(folder, *wanted))
            subprocess.run([program, "build", folder / "spec", folder / "package"], check=True)
            if (folder / "package").read_bytes() != written(*wanted):
                sys.exit(f"builds: text {place} of seed {seed} is built otherwise")
            subprocess.run([program, "inspect", folder / "package"], check=True, stdout=subprocess.DEVNULL)
            devices = [device(*wanted[2:])]
            (folder / "config").write_text(config(devices, [folder / "package"]))
            planned = subprocess.run([program, "plan", folder / "config"], check=True, stdout=subprocess.PIPE, text=True)
            if planned.stdout != foretold(1, *wanted[2:], devices):
                sys.exit(f"builds: text {place} of seed {seed} is planned otherwise")
            same += 1
    print(f"builds: {same} of {count} are the same")


main()
