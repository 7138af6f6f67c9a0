#!/usr/bin/env python3
"""What an update by processes costs: processes.py PROGRAM [BYTES].

An agent and a device are processes, and update one image of BYTES (65,536 by default) at 5 and at 20 ms a unit. What is printed for
each are the bytes a unit, beside the 48 that a request in every fifth unit gives at a transmission unit of 64; the processor seconds
a MiB of both processes; and the milliseconds from a request to its answer, the median of 100 that a socket of this script sends."""
import os
import random
import resource
import socket
import statistics
import struct
import subprocess
import sys
import tempfile
import time

# An answer is awaited so long at most, in seconds. A process is deaf in its first units.
PATIENCE, DEAF = 5, 45
# Get Endpoint ID, from the agent 8 to the device 9.
REQUEST = bytes([0x01, 0x09, 0x08, 0xC8, 0x00, 0x80, 0x02])
UUID = "00000000-0000-0000-0000-000000000000"


def made(program, folder, size):
    """A configuration with one device, and the package of an image of this size."""
    image, spec, package, config = (os.path.join(folder, it) for it in ("image", "spec", "package", "config"))
    with open(image, "wb") as file:
        file.write(os.urandom(size))
    with open(spec, "w") as file:
        file.write(f"record 0 A 1\ndescriptor 0000 3412\ncomponent 10 1 2 2 0 v2 {image}\n")
    subprocess.run([program, "build", spec, package], check=True)
    with open(config, "w") as file:
        file.write(f"agent 8 {UUID}\ndevice 9 {UUID}\ndescriptor 0000 3412\ncomponent 10 1 1 1 1.0 AA\npackage {package}\n")
    return config


def processor():
    """The processor seconds of all processes that this script has waited for."""
    used = resource.getrusage(resource.RUSAGE_CHILDREN)
    return used.ru_utime + used.ru_stime


def device(program, config, folder, tick):
    """A device that listens."""
    child = subprocess.Popen([program, "device", "--listen", folder, "--tick", str(tick), "--take-over", config, "9"],
                             stdout=subprocess.DEVNULL)
    while not os.path.exists(f"{folder}/9.sock"):
        time.sleep(0.01)
    return child


def updated(program, config, folder, tick):
    """The wall and the processor seconds of an update."""
    begun, before = time.monotonic(), processor()
    child = device(program, config, folder, tick)
    subprocess.run([program, "agent", "--connect", folder, "--tick", str(tick), "--check", config], stdout=subprocess.DEVNULL, check=True)
    wall = time.monotonic() - begun
    child.kill()
    child.wait()
    return wall, processor() - before


def read(line, size):
    data = b""
    while len(data) < size:
        data += line.recv(size - len(data))
    return data


def answered(line, tick):
    """The seconds from a request to its answer."""
    time.sleep(random.random() * tick / 1000)
    begun = time.monotonic()
    line.sendall(struct.pack("<HI", len(REQUEST), int(begun * 1000) // tick) + REQUEST)
    read(line, struct.unpack("<HI", read(line, 6))[0])
    return time.monotonic() - begun


def latency(program, config, folder, tick):
    child = device(program, config, folder, tick)
    time.sleep(DEAF * tick / 1000)
    with socket.socket(socket.AF_UNIX) as line:
        line.settimeout(PATIENCE)
        line.connect(f"{folder}/9.sock")
        time.sleep(2 * tick / 1000)
        took = statistics.median(answered(line, tick) for _ in range(100))
    child.kill()
    child.wait()
    return took


def main():
    program, size = os.path.abspath(sys.argv[1]), int(sys.argv[2]) if len(sys.argv) > 2 else 65536
    for tick in (5, 20):
        with tempfile.TemporaryDirectory() as folder:
            config = made(program, folder, size)
            wall, spent = updated(program, config, folder, tick)
            rate = size / (wall * 1000 / tick)
            took = latency(program, config, folder, tick)
        print(f"{tick} ms a unit: {rate:.1f} bytes a unit, {rate / 48:.2f} of 48; {spent * 2**20 / size:.2f} processor seconds a MiB; "
              f"an answer after {took * 1000:.1f} ms, {took * 1000 / tick:.2f} units")


if __name__ == "__main__":
    main()
