#!/usr/bin/env python3
"""Joins a node that runs as a filter of lines to a link:

tests/apart/adapter.py (--listen PATH | --connect PATH | --tty PATH) [OPTIONS] -- COMMAND..

COMMAND is `fwupd device --auto ..` or `fwupd agent --auto ..`. Each unit of time the node gets a
tick, and each packet of the link as it comes. With --start EID it begins the update of a device
with package 1 and ends with the session, whose line of the report it prints."""
import argparse
import json
import subprocess
import sys
import time

sys.dont_write_bytecode = True
from wire import SerialLink, SocketLink


class Node:
    """A node that runs as a filter of lines, and its link."""

    def __init__(self, command, link):
        self.link = link
        self.process = subprocess.Popen(command, stdin=subprocess.PIPE, stdout=subprocess.PIPE, text=True)

    def call(self, line):
        """A line of the node's output for a line of its input."""
        self.process.stdin.write(f"{line}\n")
        self.process.stdin.flush()
        return self.process.stdout.readline().strip()

    def serve(self, line):
        """Calls the node, and sends the packets that it gives."""
        given = self.call(line)
        if given.startswith(("refused", "fault")) or not given:
            raise SystemExit(f"adapter: {line}: {given}")
        for digits in given.split():
            if digits != "-":
                self.link.send(bytes.fromhex(digits))

    def unit(self, end):
        """A tick, then the packets that come until END."""
        self.serve("tick")
        while time.monotonic() < end:
            packet = self.link.receive(max(0, end - time.monotonic()))
            if packet:
                self.serve(packet.hex())

    def session(self, eid):
        """The state of the session with a device."""
        sessions = json.loads(self.call("report"))["sessions"]
        return next(it for it in sessions if it["eid"] == eid)


def arguments():
    parser = argparse.ArgumentParser(description=__doc__.split("\n")[0])
    for name in ("--listen", "--connect", "--tty"):
        parser.add_argument(name)
    parser.add_argument("--unit", type=int, default=64, help="the transmission unit")
    parser.add_argument("--tick", type=int, default=10, help="milliseconds of a unit of time")
    parser.add_argument("--ticks", type=int, default=100_000, help="the units that it lives")
    parser.add_argument("--start", type=int, help="the device to update, for an agent")
    parser.add_argument("command", nargs="+")
    return parser.parse_args()


def main():
    words = arguments()
    if words.tty:
        link = SerialLink(words.tty, words.unit)
    else:
        link = SocketLink(words.listen or words.connect, words.tick, words.listen is not None)
    node = Node(words.command, link)
    node.serve("restart")
    begun = time.monotonic()
    for unit in range(1, words.ticks + 1):
        node.unit(begun + unit * words.tick / 1000)
        if words.start and unit == 41:
            node.serve(f"start {words.start} 1")
        if words.start and unit > 41 and unit % 10 == 0:
            session = node.session(words.start)
            if session["cause"] or session["session"] == "Done":
                break
    if words.start:
        print(f"session {words.start} {session['session']} {session['cause'] or ''}".strip())
    node.process.stdin.close()
    node.process.wait()


if __name__ == "__main__":
    main()
