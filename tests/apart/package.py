"""Firmware update packages (DSP0267 1.0, header revision 1): read, and written for tests."""
import dataclasses
import struct
import zlib

IDENTIFIER = bytes.fromhex("F018878CCB7D49439800A02F059ACA02")


@dataclasses.dataclass
class Component:
    """A component: what a device knows it by, its options, its version and its image."""

    classification: int
    identifier: int
    stamp: int
    options: int
    version: bytes
    image: bytes

    def sent_stamp(self):
        """The comparison stamp as a device gets it: none, unless option bit 1 says to use it."""
        return self.stamp if self.options & 2 else 0xFFFFFFFF


@dataclasses.dataclass
class Record:
    """A device record: its descriptors (type and data), its version text, its components."""

    descriptors: list
    version: bytes
    components: list


class Cursor:
    """Reads a header from its start to its end."""

    def __init__(self, data):
        self.data, self.at = data, 0

    def bytes(self, count):
        if self.at + count > len(self.data):
            raise ValueError("the header is cut off")
        self.at += count
        return self.data[self.at - count : self.at]

    def fields(self, form):
        return struct.unpack("<" + form, self.bytes(struct.calcsize("<" + form)))


def read_package(data):
    """The records of a package, each with its components."""
    cursor = Cursor(data)
    identifier, revision, size = cursor.fields("16sBH")
    if (identifier, revision) != (IDENTIFIER, 1):
        raise ValueError("not a package of header revision 1")
    if zlib.crc32(data[: size - 4]) != int.from_bytes(data[size - 4 : size], "little"):
        raise ValueError("the header's checksum is wrong")
    _, bits, _, length = cursor.fields("13sHBB")
    cursor.bytes(length)
    records = [read_record(cursor, bits) for _ in range(*cursor.fields("B"))]
    components = [read_component(cursor) for _ in range(*cursor.fields("H"))]
    for record, bitmap in records:
        record.components = [it for n, it in enumerate(components) if bitmap[n // 8] >> n % 8 & 1]
    return [record for record, _ in records]


def read_record(cursor, bits):
    """The record at the cursor, without its components, and the bitmap of these."""
    _, count, _, _, length, data_length = cursor.fields("HBIBBH")
    bitmap, version = cursor.bytes(bits // 8), cursor.bytes(length)
    descriptors = []
    for _ in range(count):
        kind, size = cursor.fields("HH")
        descriptors.append((kind, cursor.bytes(size)))
    cursor.bytes(data_length)
    return Record(descriptors, version, []), bitmap


def read_component(cursor):
    classification, identifier, stamp, options, _, offset, size, _, length = cursor.fields(
        "HHIHHIIBB"
    )
    version, image = cursor.bytes(length), cursor.data[offset : offset + size]
    if len(image) < size:
        raise ValueError("an image is cut off")
    return Component(classification, identifier, stamp, options, version, image)


def written_package(records):
    """The package of these records. Each component is in one record."""
    components = [component for record in records for component in record.components]
    size, first = 0, 0
    middle = bytes((len(records),))
    for record in records:
        bits = sum(1 << first + n for n in range(len(record.components)))
        first += len(record.components)
        middle += written_record(record, bits.to_bytes((len(components) + 7) // 8, "little"))
    middle += struct.pack("<H", len(components))
    size = 36 + len(middle) + sum(22 + len(it.version) for it in components) + 4
    offset, infos = size, b""
    for it in components:
        infos += struct.pack("<HHIHHII", it.classification, it.identifier, it.stamp, it.options, 0,
                             offset, len(it.image))
        infos += bytes((1, len(it.version))) + it.version
        offset += len(it.image)
    bits = (len(components) + 7) // 8 * 8
    head = struct.pack("<16sBH13sHBB", IDENTIFIER, 1, size, b"", bits, 1, 0) + middle + infos
    images = b"".join(it.image for it in components)
    return head + zlib.crc32(head).to_bytes(4, "little") + images


def written_record(record, bitmap):
    rest = bitmap + record.version
    for kind, data in record.descriptors:
        rest += struct.pack("<HH", kind, len(data)) + data
    head = struct.pack("<BIBBH", len(record.descriptors), 0, 1, len(record.version), 0)
    return struct.pack("<H", 2 + len(head) + len(rest)) + head + rest
