"""What agent.py and device.py share: packets and messages of MCTP (DSP0236), frames of a serial
line (DSP0253), stamped frames of a socket, and exchanges of requests and answers (DSP0240)."""
import dataclasses
import os
import select
import socket
import stat
import struct
import time
import tty

CONTROL, PLDM = 0, 1
BASE, FIRMWARE = 0, 5
FLAG, ESCAPE = 0x7E, 0x7D
# The units after which a packet is too old, and the seconds for which an answer is kept.
PACKET_LIFE, KEPT_SECONDS = 8, 5


class Silent(Exception):
    """The peer answered none of the tries of a request."""


@dataclasses.dataclass
class Packet:
    """A packet of MCTP: the fields of its header, and its body."""

    dest: int
    source: int
    is_first: bool
    is_last: bool
    sequence: int
    is_owner: bool
    tag: int
    body: bytes

    def encoded(self):
        flags = self.is_first << 7 | self.is_last << 6 | self.sequence << 4
        flags |= self.is_owner << 3 | self.tag
        return bytes((1, self.dest, self.source, flags)) + self.body


def packet_of(data):
    """The packet that DATA is, or None."""
    if len(data) < 5 or data[0] & 15 != 1:
        return None
    flags = data[3]
    first, last, owner = flags >> 7 & 1, flags >> 6 & 1, flags >> 3 & 1
    return Packet(data[1], data[2], bool(first), bool(last), flags >> 4 & 3, bool(owner), flags & 7,
                  data[4:])


def packets_of(message, unit, dest, source, owner_and_tag):
    """The packets of a message."""
    pieces = [message[at : at + unit] for at in range(0, len(message), unit)]
    for number, piece in enumerate(pieces):
        is_last = number + 1 == len(pieces)
        yield Packet(dest, source, number == 0, is_last, number % 4, *owner_and_tag, piece)


def transfer_flag(place, count):
    """The flag of PassComponentTable for a component's place, from 1, among COUNT."""
    return 5 if count == 1 else 1 if place == 1 else 4 if place == count else 2


class Assembler:
    """Puts messages together, each of one source and tag."""

    def __init__(self):
        self.held = {}

    def feed(self, packet):
        """The message that is whole with this packet, or None."""
        key = (packet.dest, packet.source, packet.is_owner, packet.tag)
        held, sequence = self.held.pop(key, (None, None))
        if packet.is_first:
            held, sequence = b"", packet.sequence
        if held is None or packet.sequence != sequence:
            return None
        message = held + packet.body
        if packet.is_last:
            return message
        self.held[key] = message, (sequence + 1) % 4
        return None


def check_sequence(data):
    """The frame check sequence of RFC 1662, not complemented."""
    check = 0xFFFF
    for byte in data:
        check ^= byte
        for _ in range(8):
            check = check >> 1 ^ (0x8408 if check & 1 else 0)
    return check


def frame_of(packet):
    """The frame of a serial line that holds a packet."""
    escaped = b"".join(
        bytes((ESCAPE, byte ^ 0x20)) if byte in (FLAG, ESCAPE) else bytes((byte,)) for byte in packet
    )
    head = bytes((1, len(packet)))
    check = check_sequence(head + packet)
    return bytes((FLAG,)) + head + escaped + check.to_bytes(2, "big") + bytes((FLAG,))


class FrameReader:
    """Reads frames out of the bytes of a serial line. A byte that fits no frame ends the frame."""

    def __init__(self, unit):
        self.longest = unit + 4
        self.step = self.seeking
        self.given = []

    def feed(self, data):
        """The packets of the frames that these bytes end."""
        self.given = []
        for byte in data:
            self.step = self.step(byte)
        return self.given

    def seeking(self, byte):
        return self.opened if byte == FLAG else self.seeking

    def opened(self, byte):
        return self.counting if byte == 1 else self.seeking(byte)

    def counting(self, byte):
        if not 5 <= byte <= self.longest:
            return self.seeking(byte)
        self.count, self.packet = byte, bytearray()
        return self.filling

    def filling(self, byte):
        if byte == ESCAPE:
            return self.escaped
        return self.opened if byte == FLAG else self.take(byte)

    def escaped(self, byte):
        return self.take(byte ^ 0x20) if byte in (0x5E, 0x5D) else self.seeking(byte)

    def take(self, byte):
        self.packet.append(byte)
        return self.high if len(self.packet) == self.count else self.filling

    def high(self, byte):
        self.check = byte << 8
        return self.low

    def low(self, byte):
        self.check |= byte
        return self.closing

    def closing(self, byte):
        if byte == FLAG and check_sequence(bytes((1, self.count)) + self.packet) == self.check:
            self.given.append(bytes(self.packet))
        return self.seeking(byte)


class Link:
    """What carries packets: bytes in and out of a file descriptor, and packets found in them."""

    def __init__(self):
        self.waiting = []

    def receive(self, seconds):
        """The next packet that comes within SECONDS, or None."""
        end = time.monotonic() + seconds
        while not self.waiting:
            rest = end - time.monotonic()
            if rest < 0:
                return None
            self.await_bytes(rest)
        return self.waiting.pop(0)


class SerialLink(Link):
    """A terminal, which is set raw, or a Unix socket with the frames of a serial line."""

    def __init__(self, path, unit):
        super().__init__()
        self.reader = FrameReader(unit)
        if stat.S_ISSOCK(os.stat(path).st_mode):
            line = socket.socket(socket.AF_UNIX)
            line.connect(path)
            self.line = line.detach()
        else:
            self.line = os.open(path, os.O_RDWR | os.O_NOCTTY)
            tty.setraw(self.line)

    def send(self, packet):
        frame = frame_of(packet)
        while frame:
            frame = frame[os.write(self.line, frame) :]

    def await_bytes(self, seconds):
        if select.select([self.line], [], [], seconds)[0]:
            data = os.read(self.line, 4096)
            if not data:
                raise Silent("the line ended")
            self.waiting += self.reader.feed(data)


class SocketLink(Link):
    """A stream socket on which each packet follows its length and the unit of its sending. It
    connects to PATH, and again when that connection ends; or it listens there, and takes the
    newest connection."""

    def __init__(self, path, tick, listens):
        super().__init__()
        self.path, self.tick = path, tick
        self.line, self.listener, self.buffer = None, None, b""
        if listens:
            self.listener = socket.socket(socket.AF_UNIX)
            self.listener.bind(path)
            self.listener.listen()

    def unit_now(self):
        """The number of the unit of time, from the machine's monotonic clock."""
        return time.monotonic_ns() // 1_000_000 // self.tick

    def send(self, packet):
        stamped = struct.pack("<HI", len(packet), self.unit_now()) + packet
        try:
            if self.line:
                self.line.sendall(stamped)
        except OSError:
            self.end_line()

    def end_line(self):
        self.line.close()
        self.line, self.buffer = None, b""

    def connect(self, seconds):
        """Connects, if that is possible now."""
        line = socket.socket(socket.AF_UNIX)
        try:
            line.connect(self.path)
            self.line = line
        except OSError:
            line.close()
            time.sleep(min(seconds, self.tick / 1000))

    def await_bytes(self, seconds):
        if not self.line and not self.listener:
            return self.connect(seconds)
        ready = select.select([it for it in (self.line, self.listener) if it], [], [], seconds)[0]
        if self.line in ready:
            self.read()
        if self.listener in ready:
            if self.line:
                self.end_line()
            self.line = self.listener.accept()[0]

    def read(self):
        try:
            data = self.line.recv(65536)
        except OSError:
            data = b""
        if not data:
            return self.end_line()
        self.buffer += data
        while len(self.buffer) >= 6:
            length, stamp = struct.unpack_from("<HI", self.buffer)
            if len(self.buffer) < 6 + length:
                break
            if self.unit_now() - stamp <= PACKET_LIFE:
                self.waiting.append(self.buffer[6 : 6 + length])
            self.buffer = self.buffer[6 + length :]


class Endpoint:
    """An endpoint with one peer: it asks the peer, and answers what the peer asks. The peer is None
    while its identifier isn't known. Each role has its own `answer`. An end that reuses gives all
    requests one tag and one instance identifier, which the standard allows after an answer."""

    reuses = False

    def __init__(self, link, eid, peer, unit, retry):
        self.link, self.eid, self.peer, self.unit, self.retry = link, eid, peer, unit, retry
        self.assembler, self.asked = Assembler(), 0
        self.open, self.reply = None, None
        self.kept, self.kept_at = (None, None), 0

    def send(self, message, dest, is_owner, tag):
        for packet in packets_of(message, self.unit, dest, self.eid, (is_owner, tag)):
            self.link.send(packet.encoded())

    def take(self, seconds):
        """Takes the next packet that comes within SECONDS. Returns whether one came."""
        data = self.link.receive(seconds)
        packet = packet_of(data) if data else None
        if packet and packet.dest in (self.eid, 0) and self.peer in (packet.source, None):
            message = self.assembler.feed(packet)
            if message and len(message) >= 3:
                self.hear(packet, message)
        return data is not None

    def hear(self, packet, message):
        """Answers a request, or keeps the answer to the open one."""
        if packet.is_owner and message[1] & 0xC0 == 0x80:
            return self.hear_request(packet, message)
        if not packet.is_owner and self.open and packet.tag == self.open[0]:
            if message.startswith(self.open[1]):
                self.reply = packet.source, message[len(self.open[1]) :]

    def hear_request(self, packet, message):
        key = packet.source, packet.tag, message
        if key != self.kept[0] or time.monotonic() - self.kept_at > KEPT_SECONDS:
            size = 3 if message[0] == CONTROL else 4
            head = message[:1] + bytes((message[1] & 0x1F,)) + message[2:size]
            self.kept = key, head + self.answer(head[0], head[2:], message[size:])
            self.kept_at = time.monotonic()
        self.send(self.kept[1], packet.source, False, packet.tag)

    def answer(self, kind, head, fields):
        """The bytes after the header in the answer to a request: KIND is the message type, HEAD the
        command, after the PLDM type if it has one. Here no command is known."""
        return bytes((5,))

    def ask(self, kind, head, fields=b"", tries=3, dest=None):
        """The answer's bytes after the header, of which the first is the completion code. The same
        request is sent TRIES times before the peer counts as silent."""
        instance, tag = (0, 0) if self.reuses else (self.asked % 32, self.asked % 8)
        self.asked += 1
        self.open, self.reply = (tag, bytes((kind, instance)) + head), None
        request = bytes((kind, 0x80 | instance)) + head + fields
        for _ in range(tries):
            self.send(request, self.peer if dest is None else dest, True, tag)
            end = time.monotonic() + self.retry
            while time.monotonic() < end:
                self.take(end - time.monotonic())
                if self.reply and self.reply[1]:
                    self.open = None
                    return self.reply[1]
        raise Silent(f"no answer to {kind} {head.hex()}")

    def serve(self, seconds):
        """Answers what the peer asks, for SECONDS."""
        end = time.monotonic() + seconds
        while time.monotonic() < end:
            self.take(end - time.monotonic())
