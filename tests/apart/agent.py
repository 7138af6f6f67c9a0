#!/usr/bin/env python3
"""A small update agent, written from the standards alone (DSP0236, DSP0240, DSP0253, DSP0267 1.0):

tests/apart/agent.py (--socket PATH | --tty PATH) [--device EID] [OPTIONS] PACKAGE

It discovers the device, loads the components of the first record that is for it, and activates
them. It ends with `Done` and status 0, or with `Failed: WHY` and status 1. Without --device it asks
the physical address, 0, for the device's identifier, and all requests of discovery have to be
answered well. With --device the optional ones may be refused."""
import argparse
import struct
import sys
import time
import zlib

sys.dont_write_bytecode = True
from package import read_package
from wire import BASE, CONTROL, FIRMWARE, PLDM, Endpoint, SerialLink, Silent, SocketLink, transfer_flag

QUERY, PARAMETERS, REQUEST, PASS, UPDATE = 0x01, 0x02, 0x10, 0x13, 0x14
DATA, TRANSFERRED, VERIFIED, APPLIED, ACTIVATE, CANCEL = 0x15, 0x16, 0x17, 0x18, 0x1A, 0x1D
# Completion codes of DSP0267, and the one of DSP0240 for a device that isn't ready.
OUT_OF_RANGE, BAD_LENGTH, BAD_STATE, NOT_EXPECTED, RETRY_DATA = 0x82, 0x83, 0x84, 0x88, 0x89
NOT_READY, NOT_UPDATING = 0x04, 0x80
LEAST_TRANSFER, MOST_TRANSFER = 32, 512


class Failed(Exception):
    """Why the update failed."""


def need(holds, why):
    if not holds:
        raise Failed(why)


class Agent(Endpoint):
    """The agent, and what it sends now: a component, and how far the device is with it."""

    component, reached, moved = None, None, 0

    def answer(self, kind, head, fields):
        if (kind, head[0]) != (PLDM, FIRMWARE):
            return super().answer(kind, head, fields)
        self.moved = time.monotonic()
        if head[1] == DATA:
            return self.data(*struct.unpack("<II", fields)) if len(fields) == 8 else bytes((3,))
        steps = {TRANSFERRED: "transfer", VERIFIED: "verify", APPLIED: "apply"}
        return self.step(steps[head[1]], fields) if head[1] in steps else bytes((5,))

    def data(self, offset, length):
        """Serves a part of the image, with zeros after its end."""
        if self.reached != "download":
            return bytes((RETRY_DATA if self.reached == "offer" else NOT_EXPECTED,))
        if not LEAST_TRANSFER <= length <= MOST_TRANSFER:
            return bytes((BAD_LENGTH,))
        if offset + length > len(self.component.image) + LEAST_TRANSFER:
            return bytes((OUT_OF_RANGE,))
        return b"\0" + self.component.image[offset : offset + length].ljust(length, b"\0")

    def step(self, name, fields):
        """The device says that it ended a step; it may say so again."""
        order = ["download", "transfer", "verify", "apply"]
        if self.reached not in order or order.index(name) > order.index(self.reached) + 1:
            return bytes((NOT_EXPECTED,))
        if order.index(name) == order.index(self.reached) + 1:
            self.reached = name if fields[:1] == b"\0" else f"{name} failed with {fields.hex()}"
        return b"\0"

    def control(self, command, fields=b"", dest=None, tries=3):
        return self.ask(CONTROL, bytes((command,)), fields, tries, dest)

    def base(self, command, fields=b"", tries=3):
        return self.ask(PLDM, bytes((BASE, command)), fields, tries)

    def update(self, command, form="", *values, texts=b""):
        """The answer to a command of firmware update. An activation may take the device a while."""
        tries = 10 if command == ACTIVATE else 3
        fields = struct.pack("<" + form, *values) + texts
        return self.ask(PLDM, bytes((FIRMWARE, command)), fields, tries)

    def ready(self, command, *words, texts=b""):
        """The same, asked again while the device isn't ready for it."""
        end = time.monotonic() + self.patience
        while time.monotonic() < end:
            reply = self.update(command, *words, texts=texts)
            if reply[0] not in (NOT_READY, BAD_STATE):
                need(reply[0] == 0, f"command {command:02X}: code {reply[0]:02X}")
                return reply[1:]
            self.serve(self.retry)
        raise Failed(f"command {command:02X}: the device is never ready")


def patient(agent, dest=None):
    """The answer to Get Endpoint ID of a device that may still be starting."""
    end = time.monotonic() + agent.patience
    while True:
        try:
            return agent.control(2, dest=dest, tries=1)
        except Silent:
            need(time.monotonic() < end, "no endpoint answers")


def find(agent):
    """Finds the device, once it is up: without an identifier, at the physical address."""
    if agent.peer is None:
        reply = patient(agent, 0)
        need(reply[0] == 0 and len(reply) == 4, f"Get Endpoint ID: {reply.hex()}")
        agent.peer = reply[1]
        reply = agent.control(1, bytes((0, agent.peer)), dest=0)
        need(reply[0] == 0 and reply[2] == agent.peer, f"Set Endpoint ID: {reply.hex()}")
        need(reply[1] & 0x30 == 0, "Set Endpoint ID: the identifier is rejected")
    # (at the physical address a device may answer before it hears anything else)
    reply = patient(agent)
    need(reply[0] == 0 and len(reply) == 4, f"Get Endpoint ID: {reply.hex()}")
    need(reply[1] == agent.peer, "Get Endpoint ID: another identifier")


def discover(agent, is_strict):
    """Asks what the endpoint and its terminus have. If it isn't strict, optional parts may be refused."""
    for kind in (0xFF, CONTROL, PLDM):
        reply = agent.control(4, bytes((kind,)))
        missing = kind != 0xFF and not is_strict and reply == b"\x80"
        need(missing or (reply[0] == 0 and len(reply) == 2 + 4 * reply[1] > 2), f"versions: {reply.hex()}")
    reply = agent.control(5)
    need(reply[0] == 0 and PLDM in reply[2 : 2 + reply[1]], f"message types: {reply.hex()}")
    reply = agent.base(2)
    need(reply[0] == 0 and len(reply) == 2, f"GetTID: {reply.hex()}")
    reply = agent.base(4)
    types = int.from_bytes(reply[1:], "little")
    need(reply[0] == 0 and types >> BASE & 1 and types >> FIRMWARE & 1, f"types: {reply.hex()}")
    base_commands = commands_of(agent, BASE, is_strict)
    required = (2, 3, 4, 5) if is_strict else (2, 4, 5)
    need(all(base_commands >> it & 1 for it in required), "a base command is missing")
    commands = commands_of(agent, FIRMWARE, is_strict)
    wanted = (QUERY, PARAMETERS, REQUEST, PASS, UPDATE, ACTIVATE, CANCEL)
    need(all(commands >> it & 1 for it in wanted), "a command of firmware update is missing")


def commands_of(agent, kind, is_strict):
    """The commands of a PLDM type, as bits, at the first version that the device names."""
    reply, version = agent.base(3, struct.pack("<IBB", 0, 1, kind)), b"\xf1\xf0\xf0\0"
    if is_strict or reply != b"\x05":
        code, _, flag = struct.unpack("<BIB", reply[:6])
        data, check = reply[6:-4], int.from_bytes(reply[-4:], "little")
        need((code, flag) == (0, 5) and len(data) % 4 == 0 < len(data), f"version: {reply.hex()}")
        need(zlib.crc32(data) == check, f"version: the check is wrong: {reply.hex()}")
        version = data[:4]
    reply = agent.base(5, bytes((kind,)) + version)
    need(reply[0] == 0 and len(reply) == 33, f"commands: {reply.hex()}")
    return int.from_bytes(reply[1:], "little")


def descriptors_of(agent):
    """The device's descriptors, each its type and data."""
    reply = agent.update(QUERY)
    need(reply[0] == 0, f"identifiers: {reply.hex()}")
    length, count = struct.unpack("<IB", reply[1:6])
    data, found = reply[6:], []
    need(length == len(data), "identifiers: another length")
    for _ in range(count):
        kind, size = struct.unpack("<HH", data[:4])
        found.append((kind, data[4 : 4 + size]))
        data = data[4 + size :]
    need(not data, "identifiers: another count")
    return found


def indexes_of(agent):
    """The classification index of each component that the device has."""
    reply = agent.update(PARAMETERS)
    need(reply[0] == 0, f"parameters: {reply.hex()}")
    _, count, _, active, _, pending = struct.unpack("<IHBBBB", reply[1:11])
    at, found = 11 + active + pending, {}
    for _ in range(count):
        key, index, texts = reply[at : at + 4], reply[at + 4], reply[at + 10] + reply[at + 24]
        found[struct.unpack("<HH", key)] = index
        at += 39 + texts
    need(at == len(reply), "parameters: another length")
    return found


def offer(agent, record, indexes):
    """Begins an update with a record, and returns the components that the device takes."""
    count, text = len(record.components), record.version
    need(agent.update(CANCEL)[0] in (0, NOT_UPDATING), "an old update can't be ended")
    agent.ready(REQUEST, "IHBHBB", MOST_TRANSFER, count, 1, 0, 1, len(text), texts=text)
    taken = []
    for number, it in enumerate(record.components):
        flag = transfer_flag(number + 1, count)
        index = indexes.get((it.classification, it.identifier), 0)
        reply = agent.update(PASS, "BHHBIBB", flag, it.classification, it.identifier, index,
                             it.sent_stamp(), 1, len(it.version), texts=it.version)
        need(reply[0] == 0 and len(reply) == 3, f"PassComponentTable: {reply.hex()}")
        if reply[2] == 0 or (reply[2] in (1, 2) and it.options & 1):
            taken.append((it, index))
    need(taken, "nothing to update")
    return taken


def load(agent, it, index):
    """Loads a component: the device asks for its image, verifies it and applies it."""
    agent.component, agent.reached = it, "offer"
    reply = agent.ready(UPDATE, "HHBIIIBB", it.classification, it.identifier, index, it.sent_stamp(),
                        len(it.image), it.options & 1, 1, len(it.version), texts=it.version)
    need(reply[:1] == b"\0", f"UpdateComponent: {reply.hex()}")
    agent.reached, agent.moved = "download", time.monotonic()
    while agent.reached != "apply":
        agent.take(agent.retry)
        need("failed" not in agent.reached, agent.reached)
        need(time.monotonic() < agent.moved + agent.patience, f"nothing moves: {agent.reached}")


def update(agent, records):
    """Discovers the device and updates it."""
    is_strict = agent.peer is None
    find(agent)
    discover(agent, is_strict)
    descriptors = descriptors_of(agent)
    fit = [it for it in records if it.descriptors and all(d in descriptors for d in it.descriptors)]
    need(fit, "no record is for the device")
    try:
        for component, index in offer(agent, fit[0], indexes_of(agent)):
            load(agent, component, index)
        agent.ready(ACTIVATE, "B", 1)
    except Failed:
        agent.update(CANCEL)
        raise


def arguments():
    parser = argparse.ArgumentParser(description=__doc__.split("\n")[0])
    parser.add_argument("--socket", help="the socket on which the device listens")
    parser.add_argument("--tty", help="the terminal of the serial line")
    parser.add_argument("--eid", type=int, default=8)
    parser.add_argument("--device", type=int, help="the device's identifier")
    parser.add_argument("--unit", type=int, default=64, help="the transmission unit")
    parser.add_argument("--tick", type=int, default=10, help="milliseconds of a unit of time")
    parser.add_argument("--retry", type=float, help="seconds until a request is sent again; 6 ticks")
    parser.add_argument("--patience", type=float, default=15, help="seconds to wait for the device")
    parser.add_argument("--reuse", action="store_true", help="give all requests one identifier")
    parser.add_argument("package")
    return parser.parse_args()


def main():
    words = arguments()
    with open(words.package, "rb") as file:
        records = read_package(file.read())
    if words.tty:
        link = SerialLink(words.tty, words.unit)
    else:
        link = SocketLink(words.socket, words.tick, False)
    retry = words.retry or 6 * words.tick / 1000
    agent = Agent(link, words.eid, words.device, words.unit, retry)
    agent.patience, agent.reuses = words.patience, words.reuse
    try:
        update(agent, records)
    except (Failed, Silent) as why:
        sys.exit(f"Failed: {why}")
    print("Done")


if __name__ == "__main__":
    main()
