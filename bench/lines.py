#!/usr/bin/env python3
"""What a line to a node by itself costs, beside the same step in a replay: lines.py PROGRAM [RUNS].

A run in which one device takes three images of 1 MiB is recorded and traced. Its steps are then replayed, and also fed as lines
to `fwupd agent` and to `fwupd device`, each its own part. What is printed are the medians of the processor seconds of RUNS of
each (5 by default), the steps and lines, and the ratio of what a line costs to what a step costs."""
import os
import statistics
import subprocess
import sys
import tempfile

from commands import spent
from worlds import config, package

AGENT = 8


def parts(record, trace):
    """The lines to the agent and to the device, from a schedule and a trace of one pair."""
    packets = [line.split()[3] for line in open(trace)]
    to_agent, to_device = [], []
    for line in open(record):
        name, *fields = line.split()
        if name == "tick":
            to_agent.append(line)
            to_device.append(line)
        elif name == "deliver":
            (to_agent if int(fields[2]) == AGENT else to_device).append(packets[int(fields[1]) - 1] + "\n")
        elif name == "verdict":
            to_device.append(f"verdict {fields[1]}\n")
        else:
            to_agent.append(line)
    return to_agent, to_device


def took(words, lines=()):
    """The processor seconds of a command that gets these lines."""
    return spent(words, input="".join(lines).encode(), stdout=subprocess.DEVNULL)


def main():
    program = os.path.abspath(sys.argv[1])
    runs = int(sys.argv[2]) if len(sys.argv) > 2 else 5
    with tempfile.TemporaryDirectory() as folder:
        images, text, record, trace = (os.path.join(folder, name) for name in ("package", "config", "record", "trace"))
        with open(images, "wb") as file:
            file.write(package(3))
        with open(text, "w") as file:
            file.write(config(1, 3, images))
        subprocess.run([program, "run", "--record", record, "--trace", trace, text, folder], stdout=subprocess.DEVNULL, check=True)
        to_agent, to_device = parts(record, trace)
        steps = sum(1 for _ in open(record))
        replayed, agent, device = [], [], []
        for _ in range(runs):
            replayed.append(took([program, "replay", text, record]))
            agent.append(took([program, "agent", text], to_agent))
            device.append(took([program, "device", text, "9"], to_device))
    step = statistics.median(replayed) / steps
    lines = len(to_agent) + len(to_device)
    line = (statistics.median(agent) + statistics.median(device)) / lines
    print(f"replay {statistics.median(replayed):.2f} s, {steps} steps; agent {statistics.median(agent):.2f} s, device {statistics.median(device):.2f} s, {lines} lines")
    print(f"a line costs {line / step:.2f} of a step")


if __name__ == "__main__":
    main()
