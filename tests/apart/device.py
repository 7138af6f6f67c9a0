#!/usr/bin/env python3
"""A small firmware device, written from the standards alone (DSP0236, DSP0240, DSP0253, DSP0267 1.0):

tests/apart/device.py (--listen PATH | --tty PATH) [OPTIONS] CONFIG EID STORE

Its descriptors and components are those of device EID in CONFIG, whose form the manual gives. What
it activates it writes into the folder STORE, as CLASS-IDENT.image. It ends with `Activated` and
status 0 after an activation, or with `Nothing` and status 1 after --seconds."""
import argparse
import os
import struct
import sys
import time
import zlib

sys.dont_write_bytecode = True
from wire import BASE, CONTROL, FIRMWARE, PLDM, Endpoint, SerialLink, Silent, SocketLink, transfer_flag

IDLE, LEARN, READY, DOWNLOAD, VERIFY, APPLY, ACTIVATE = range(7)
VERSION = b"\xf1\xf0\xf0\0"
NO_STAMP = 0xFFFFFFFF
# Completion codes of DSP0240 and DSP0267.
INVALID, BAD_LENGTH, UNKNOWN = b"\x02", b"\x03", b"\x05"
NOT_UPDATING, UPDATING, BAD_STATE, INCOMPLETE = b"\x80", b"\x81", b"\x84", b"\x85"
NOT_REQUIRED = b"\x8b"


def bits(numbers, size):
    """A field of bits, SIZE bytes long."""
    return sum(1 << number for number in numbers).to_bytes(size, "little")


def unpacked(form, fields):
    """The fields of a fixed form, and the text after them whose length the last one is; or None."""
    size = struct.calcsize("<" + form)
    if len(fields) < size:
        return None
    values = struct.unpack("<" + form, fields[:size])
    return (*values, fields[size:]) if len(fields) == size + values[-1] else None


class Part:
    """A component of the device: its index, and the stamp and text of what runs."""

    def __init__(self, index, stamp, text):
        self.index, self.stamp, self.text = index, stamp, text

    def verdict(self, stamp):
        """The response code to a component of this stamp."""
        if NO_STAMP in (stamp, self.stamp) or stamp > self.stamp:
            return 0
        return 1 if stamp == self.stamp else 2


def configured(config, eid):
    """The agent's identifier, and the descriptors and parts of a device, in a configuration."""
    agent, current, descriptors, parts = None, None, [], {}
    for line in open(config, encoding="utf-8"):
        words = line.split()
        if words[:1] == ["agent"]:
            agent = int(words[1])
        elif words[:1] == ["device"]:
            current = int(words[1])
        elif words[:1] == ["descriptor"] and current == eid:
            descriptors.append((int(words[1], 16), bytes.fromhex(words[2].strip("-"))))
        elif words[:1] == ["component"] and current == eid:
            kind, ident, index, stamp = map(int, words[1:5])
            parts[kind, ident] = Part(index, stamp, words[5].strip("-").encode())
    return agent, descriptors, parts


class Device(Endpoint):
    """The device: its state, the table that it was passed, and the images that it has applied."""

    state, previous, reason, tid = IDLE, IDLE, 0, 0
    table, count, key, force, activated = {}, 0, None, 0, False

    def answer(self, kind, head, fields):
        try:
            return self.answer_of(kind, head, fields)
        except IndexError:
            return BAD_LENGTH

    def answer_of(self, kind, head, fields):
        if kind == CONTROL:
            return self.control(head[0], fields)
        if head[0] == BASE:
            return self.base(head[1], fields)
        commands = {0x01: self.identifiers, 0x02: self.parameters, 0x10: self.request, 0x13: self.passed,
                    0x14: self.offered, 0x1A: self.activate, 0x1B: self.status, 0x1D: self.cancel}
        if head[0] != FIRMWARE or head[1] not in commands:
            return UNKNOWN
        return commands[head[1]](fields)

    def control(self, command, fields):
        """The control messages of MCTP."""
        if command == 1:
            return b"\0" + bytes((0 if fields[1] == self.eid else 0x10, self.eid, 0))
        if command == 2:
            return b"\0" + bytes((self.eid, 1, 0))
        if command == 4:
            return b"\0\x01\xf1\xf3\xf1\0" if fields[0] in (0xFF, CONTROL, PLDM) else b"\x80"
        return b"\0\x01" + bytes((PLDM,)) if command == 5 else UNKNOWN

    def base(self, command, fields):
        """The base commands of PLDM."""
        if command == 2:
            return b"\0" + bytes((self.tid,))
        if command == 3:
            if fields[5] not in (BASE, FIRMWARE):
                return b"\x83"
            return struct.pack("<BIB", 0, 0, 5) + VERSION + zlib.crc32(VERSION).to_bytes(4, "little")
        if command == 4:
            return b"\0" + bits((BASE, FIRMWARE), 8)
        if command == 5:
            known = {BASE: (2, 3, 4, 5), FIRMWARE: (1, 2, 0x10, 0x13, 0x14, 0x1A, 0x1B, 0x1D)}
            return b"\0" + bits(known[fields[0]], 32) if fields[0] in known else b"\x83"
        return UNKNOWN

    def identifiers(self, fields):
        data = b"".join(struct.pack("<HH", kind, len(it)) + it for kind, it in self.descriptors)
        return b"\0" + struct.pack("<IB", len(data), len(self.descriptors)) + data

    def parameters(self, fields):
        """The parameters. If they aren't rich, they have no text of the set, no release dates, and
        self-contained activation alone."""
        text, date, methods = (b"set", b"20261129", 0x0E) if self.is_rich else (b"", b"", 2)
        data = struct.pack("<BIHBBBB", 0, 0, len(self.parts), bool(text), len(text), 0, 0) + text
        for (kind, ident), it in self.parts.items():
            data += struct.pack("<HHBIBB8s", kind, ident, it.index, it.stamp, 1, len(it.text), date)
            data += struct.pack("<IBB8xHI", 0, 0, 0, methods, 0) + it.text
        return data

    def request(self, fields):
        values = unpacked("IHBHBB", fields)
        if not values:
            return BAD_LENGTH
        if self.state != IDLE:
            return UPDATING
        if values[0] < 32 or values[1] == 0:
            return INVALID
        self.transfer, self.count, self.table, self.applied = values[0], values[1], {}, {}
        self.enter(LEARN)
        return bytes(4)

    def passed(self, fields):
        values = unpacked("BHHBIBB", fields)
        if not values or self.state != LEARN:
            return (NOT_UPDATING if self.state == IDLE else BAD_STATE) if values else BAD_LENGTH
        key, place = values[1:3], len(self.table) + 1
        if values[0] != transfer_flag(place, self.count) or key in self.table:
            return INVALID
        code = self.parts[key].verdict(values[4]) if key in self.parts else 6
        self.table[key] = code
        if place == self.count:
            self.enter(READY)
        return bytes((0, code != 0, code))

    def offered(self, fields):
        values = unpacked("HHBIIIBB", fields)
        if not values or self.state != READY:
            return (NOT_UPDATING if self.state == IDLE else BAD_STATE) if values else BAD_LENGTH
        key, stamp, size, force = values[:2], values[3], values[4], values[5] & 1
        code = self.parts[key].verdict(stamp) if key in self.table and key in self.parts else 6
        if code == 6 or (code and not force):
            return struct.pack("<BBBIH", 0, 1, code, 0, 0)
        self.key, self.size, self.force, self.image = key, size, force, b""
        self.label = stamp, values[-1]
        self.enter(DOWNLOAD)
        return struct.pack("<BBBIH", 0, 0, 0, force, 0)

    def activate(self, fields):
        if self.state != READY:
            return NOT_UPDATING if self.state == IDLE else BAD_STATE
        if any(code == 0 and key not in self.applied for key, code in self.table.items()):
            return INCOMPLETE
        if not self.applied:
            return NOT_REQUIRED
        for (kind, ident), (image, (stamp, text)) in self.applied.items():
            path = f"{self.store}/{kind}-{ident}.image"
            with open(f"{path}.new", "wb") as file:
                file.write(image)
            os.rename(f"{path}.new", path)
            self.parts[kind, ident] = Part(self.parts[kind, ident].index, stamp, text)
        self.activated = True
        self.enter(ACTIVATE)
        return bytes(3)

    def status(self, fields):
        is_busy = self.state in (DOWNLOAD, VERIFY, APPLY)
        auxiliary, flags = (0, self.force) if is_busy else (3, 0)
        head = bytes((0, self.state, self.previous, auxiliary, 0, 0x65, self.reason))
        return head + flags.to_bytes(4, "little")

    def cancel(self, fields):
        if self.state in (IDLE, ACTIVATE):
            return NOT_UPDATING if self.state == IDLE else BAD_STATE
        self.reason = 2
        self.enter(IDLE)
        return bytes(10)

    def enter(self, state):
        self.previous, self.state, self.moved = self.state, state, time.monotonic()

    def ask_agent(self, command, fields, state):
        """The fields of a good answer of the agent, or None. It may be silent, or cancel meanwhile."""
        try:
            reply = self.ask(PLDM, bytes((FIRMWARE, command)), fields)
        except Silent:
            return None
        if self.state != state:
            return None
        if reply[0]:
            self.serve(self.retry)
            return None
        return reply[1:]

    def work(self):
        """Does what the state asks for: a piece of the image, or the report of a step."""
        state = self.state
        if state == DOWNLOAD and len(self.image) < self.size:
            missing = self.size - len(self.image)
            length = max(32, min(self.piece, self.transfer, missing))
            data = self.ask_agent(0x15, struct.pack("<II", len(self.image), length), state)
            if data is not None and len(data) == length:
                self.image, self.moved = self.image + data[:missing], time.monotonic()
        elif state == DOWNLOAD and self.ask_agent(0x16, b"\0", state) is not None:
            self.enter(VERIFY)
        elif state == VERIFY and self.ask_agent(0x17, b"\0", state) is not None:
            self.enter(APPLY)
        elif state == APPLY and self.ask_agent(0x18, bytes(3), state) is not None:
            self.applied[self.key] = self.image, self.label
            self.enter(READY)

    def live(self, end, linger):
        """Lives until END, or until LINGER seconds after an activation."""
        while time.monotonic() < end and not self.activated:
            if self.state in (DOWNLOAD, VERIFY, APPLY):
                self.work()
            else:
                self.take(min(0.05, self.retry))
            if self.state != IDLE and time.monotonic() > self.moved + self.patience:
                self.reason = self.state + 2
                self.enter(IDLE)
        if self.activated:
            self.serve(linger)


def arguments():
    parser = argparse.ArgumentParser(description=__doc__.split("\n")[0])
    parser.add_argument("--listen", help="the socket on which it listens")
    parser.add_argument("--tty", help="the terminal of the serial line")
    parser.add_argument("--unit", type=int, default=64, help="the transmission unit")
    parser.add_argument("--tick", type=int, default=10, help="milliseconds of a unit of time")
    parser.add_argument("--retry", type=float, help="seconds until a request is sent again; 6 ticks")
    parser.add_argument("--patience", type=float, default=12, help="seconds after which an update ends")
    parser.add_argument("--seconds", type=float, default=120, help="the seconds that it lives")
    parser.add_argument("--linger", type=float, default=2, help="seconds that it answers after the end")
    parser.add_argument("--piece", type=int, default=200, help="the most bytes that it asks for at once")
    parser.add_argument("--reuse", action="store_true", help="give all requests one identifier")
    parser.add_argument("--rich", action="store_true", help="have texts, dates and methods of its own")
    parser.add_argument("config")
    parser.add_argument("eid", type=int)
    parser.add_argument("store")
    return parser.parse_args()


def main():
    words = arguments()
    agent, descriptors, parts = configured(words.config, words.eid)
    os.makedirs(words.store, exist_ok=True)
    if words.tty:
        link = SerialLink(words.tty, words.unit)
    else:
        link = SocketLink(words.listen, words.tick, True)
    device = Device(link, words.eid, agent, words.unit, words.retry or 6 * words.tick / 1000)
    device.descriptors, device.parts, device.store = descriptors, parts, words.store
    device.patience, device.piece = words.patience, words.piece
    device.reuses, device.is_rich = words.reuse, words.rich
    device.live(time.monotonic() + words.seconds, words.linger)
    if not device.activated:
        sys.exit("Nothing")
    print("Activated")


if __name__ == "__main__":
    main()
