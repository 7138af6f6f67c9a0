"""Packages (DSP0267 1.0) as Python writes them, the texts that ask for them, and what an update with one comes to."""
import struct
import zlib

IDENTIFIER = bytes.fromhex("F018878CCB7D49439800A02F059ACA02")
NO_STAMP = 0xFFFFFFFF


def text(rng):
    """A text of up to 255 bytes, most often a short one."""
    return rng.randbytes(rng.choice([0, 1, 2, 5, 12, rng.randrange(256)]))


def spelled(word):
    """A text as a word of the format."""
    if not word:
        return "-"
    plain = lambda b: 0x21 <= b <= 0x7E and b not in b"\\-"
    return "".join(chr(b) if plain(b) else f"\\x{b:02X}" for b in word)


def quoted(word):
    """A text as it is printed."""
    plain = lambda b: 0x20 <= b <= 0x7E and b not in b"\\\""
    return '"' + "".join(chr(b) if plain(b) else f"\\x{b:02X}" for b in word) + '"'


def written(release, version, records, components):
    """The bytes of the package."""
    bitmap = max(1, (len(components) + 7) // 8)
    body = bytes([len(records)])
    for flags, set_text, descriptors, uses in records:
        bits = bytearray(bitmap)
        for k in uses:
            bits[k // 8] |= 1 << k % 8
        part = bytes([len(descriptors)]) + struct.pack("<IBBH", flags, 1, len(set_text), 0) + bits + set_text
        for kind, data in descriptors:
            part += struct.pack("<HH", kind, len(data)) + data
        body += struct.pack("<H", len(part) + 2) + part
    body += struct.pack("<H", len(components))
    size = 36 + len(version) + len(body) + sum(22 + len(c[5]) for c in components) + 4
    offset = size
    for kind, ident, stamp, options, method, name, image in components:
        body += struct.pack("<HHIHHIIBB", kind, ident, stamp, options, method, offset, len(image), 1, len(name)) + name
        offset += len(image)
    head = IDENTIFIER + struct.pack("<BH", 1, size) + release + struct.pack("<HBB", 8 * bitmap, 1, len(version)) + version
    return head + body + struct.pack("<I", zlib.crc32(head + body)) + b"".join(c[6] for c in components)


def spec(folder, release, version, records, components):
    """The text that asks for it, whose images are in the folder."""
    lines = [f"version {spelled(version)}", f"release {release.hex()}"]
    for flags, set_text, descriptors, uses in records:
        lines.append(f"record {flags} {spelled(set_text)} {' '.join(str(k + 1) for k in uses) or '-'}")
        lines += [f"descriptor {kind:04X} {data.hex() or '-'}" for kind, data in descriptors]
    for place, (kind, ident, stamp, options, method, name, image) in enumerate(components):
        path = folder / f"{place}.image"
        path.write_bytes(image)
        lines.append(f"component {kind} {ident} {stamp} {options} {method} {spelled(name)} {path if image else '-'}")
    return "\n".join(lines) + "\n"


def config(devices, packages):
    """The configuration of an agent with these devices (identifier, descriptors, components) and the files of these packages."""
    none = "00000000-0000-0000-0000-000000000000"
    lines = [f"agent 8 {none}"]
    for eid, descriptors, components in devices:
        lines.append(f"device {eid} {none}")
        lines += [f"descriptor {kind:04X} {data.hex() or '-'}" for kind, data in descriptors]
        lines += [f"component {kind} {ident} 0 {stamp} {name.decode() or '-'} AA" for (kind, ident), (stamp, name) in components.items()]
    return "\n".join(lines + [f"package {path}" for path in packages]) + "\n"


def plan_fault(set_text, offered):
    """Why these components can't be planned, if they can't."""
    if len({c[:2] for c in offered}) < len(offered):
        return "DuplicateComponent"
    if len(offered) > 8:
        return "TooManyComponents"
    if any(len(c[6]) > 1048576 for c in offered):
        return "ImageTooLarge"
    if len(set_text) > 200 or any(len(c[5]) > 200 for c in offered):
        return "TextTooLong"
    return None


def offer(device, component):
    """What comes of a component that a device is offered, and its line."""
    kind, ident, stamp, options, _, name, image = component
    sent = stamp if options & 2 else NO_STAMP
    active, running = "- -", device.get((kind, ident))
    if running is None:
        word = "skip unsupported"
    else:
        active = f"{running[0]:08X} {quoted(running[1][:12])}"
        if NO_STAMP in (sent, running[0]) or sent > running[0]:
            word = "update"
        elif options & 1:
            word = "force"
        else:
            word = "skip identical" if sent == running[0] else "skip lower"
    line = f"component {kind} ident {ident} size {len(image)} stamp {sent:08X} version {quoted(name)} active {active} {word}\n"
    return word, line


def foretold(number, records, components, devices):
    """What an update of these devices with the package of this number comes to, as it is printed."""
    told = ""
    for eid, descriptors, running in devices:
        head = f"device {eid} package {number} record "
        fitting = [place for place, r in enumerate(records) if r[2] and all(d in descriptors for d in r[2])]
        if not fitting:
            told += head + "- set - NoRecord\n"
            for place, (_, _, wanted, _) in enumerate(records):
                lacked = next(((kind, data) for kind, data in wanted if (kind, data) not in descriptors), None)
                told += f"record {place + 1} "
                told += f"lacks descriptor {lacked[0]:04X} {lacked[1].hex().upper() or '-'}\n" if lacked else "has none\n"
            continue
        _, set_text, _, uses = records[fitting[0]]
        offered = [components[k] for k in uses]
        fault, lines = plan_fault(set_text, offered), [offer(running, c) for c in offered]
        word = f"Plan:{fault}" if fault else "Update" if any(w in ("update", "force") for w, _ in lines) else "NothingToUpdate"
        told += head + f"{fitting[0] + 1} set {quoted(set_text)} {word}\n"
        if not fault:
            told += "".join(line for _, line in lines)
    return told
