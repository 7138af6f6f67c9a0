#!/usr/bin/env python3
"""Plans updates of random devices with random packages, and runs them over perfect links: plans.py PROGRAM [COUNT [SEED]]. What is
planned is compared with a forecast of its own, and with how each session ends and which images are applied. It prints how many were
the same, and how often each word came."""
import collections
import pathlib
import random
import subprocess
import sys
import tempfile

from packages import NO_STAMP, config, foretold, written

DESCRIPTORS = [(0, b"\x34\x12"), (1, b"\x78\x56\x34\x12"), (2, bytes(range(16))), (0xFFFF, b"")]
KEYS = [(10, 1), (10, 2), (11, 1), (0xFFFF, 0xFFFF)]
STAMPS = [0, 1, 2, 7, NO_STAMP]


def some(rng, items, most):
    """Some of these, at most so many."""
    return rng.sample(items, rng.randrange(min(most, len(items)) + 1))


def component(rng, key):
    """A component of a package, with this key."""
    size = rng.choice([0, 1, 31, 240, 241, 600]) if rng.random() < 0.995 else 1048577
    name = rng.randbytes(rng.choice([0, 2, 12, 200]) if rng.random() < 0.97 else 201)
    return *key, rng.choice(STAMPS), rng.randrange(8), rng.randrange(4), name, rng.randbytes(size)


def package(rng):
    """Records and components of a package."""
    keys = rng.sample(KEYS, rng.randrange(5)) if rng.random() < 0.9 else rng.choices(KEYS, k=3)
    components = [component(rng, key) for key in keys]
    if rng.random() < 0.05:
        components = [(10, k, 2, 3, 0, b"v", b"AA") for k in range(9)]
    records = []
    for _ in range(rng.choice([0, 1, 1, 2, 3])):
        uses = sorted(some(rng, range(len(components)), 9)) if rng.random() < 0.6 else list(range(len(components)))
        set_text = rng.randbytes(201 if rng.random() < 0.03 else rng.choice([0, 1, 200]))
        records.append((0, set_text, rng.sample(DESCRIPTORS, rng.choice([0, 1, 1, 1, 2])), uses))
    return records, components


def device(rng, eid):
    """A device: its descriptors, and what runs."""
    running = {key: (rng.choice(STAMPS), rng.choice([b"", b"1.0", b"a-longer-text-1"])) for key in rng.sample(KEYS, rng.randrange(1, 4))}
    return eid, rng.sample(DESCRIPTORS, rng.choice([0, 2, 3, 4])), running


def ended(forecast):
    """How a run ends that was planned so: a session's word a device, and what is applied, in order a device."""
    sessions, applied = {}, collections.defaultdict(list)
    for line in forecast.splitlines():
        words = line.split(" ")
        if words[0] == "device":
            eid, word = words[1], words[-1].split(":")[0]
            sessions[eid] = "Done" if word == "Update" else f"Failed:{word}"
        elif words[0] == "component" and words[-1] in ("update", "force"):
            applied[eid].append((words[1], words[3], words[5]))
    return sessions, dict(applied)


def reported(report):
    """The same of a report."""
    sessions, applied = {}, collections.defaultdict(list)
    for line in report.splitlines():
        words = line.split(" ")
        if words[0] == "device":
            sessions[words[1]] = words[5]
        elif words[0] == "applied":
            applied[words[1]].append(tuple(words[2:5]))
    return sessions, dict(applied)


def main():
    program, count, seed = sys.argv[1], int((sys.argv[2:] or [1000])[0]), int((sys.argv[3:] or [48])[0])
    rng = random.Random(seed)
    told = collections.Counter()
    with tempfile.TemporaryDirectory() as name:
        folder = pathlib.Path(name)
        for place in range(count):
            packages = [package(rng) for _ in range(rng.randrange(1, 4))]
            paths = [folder / f"{k}.fwpkg" for k in range(len(packages))]
            for path, made in zip(paths, packages):
                path.write_bytes(written(bytes(13), b"", *made))
            devices = [device(rng, 9 + k) for k in range(rng.randrange(1, 5))]
            (folder / "config").write_text(config(devices, paths))
            number = rng.randrange(1, len(packages) + 1)
            call = lambda *words: subprocess.run([program, *words], check=True, stdout=subprocess.PIPE, text=True).stdout
            planned = call("plan", "--package", str(number), folder / "config")
            run = call("run", "--quiet", "--package", str(number), folder / "config", folder)
            if planned != foretold(number, *packages[number - 1], devices):
                sys.exit(f"plans: configuration {place} of seed {seed} is planned otherwise:\n{planned}")
            if ended(planned) != reported(run):
                sys.exit(f"plans: configuration {place} of seed {seed} ends otherwise:\n{planned}{run}")
            told.update(line.split(" ")[-1] for line in planned.splitlines() if not line.startswith("record"))
    print(f"plans: {count} of {count} are the same:", ", ".join(f"{n} {word}" for word, n in sorted(told.items())))


main()
