"""A trace as a capture (pcapng): an interface a host, each packet at its sender's as it is sent and at its receiver's
as it is delivered."""
import collections
import struct

RAW_IP = 101  # the link type: frames begin with their IP header
COMMENT, NAME, RESOLUTION, APPLICATION = 1, 2, 9, 4  # options
SECTION, INTERFACE, FRAME = 0x0A0D0D0A, 1, 6  # blocks


def block(kind, body):
    body += bytes(-len(body) % 4)
    return struct.pack("<II", kind, len(body) + 12) + body + struct.pack("<I", len(body) + 12)


def option(code, value):
    return struct.pack("<HH", code, len(value)) + value + bytes(-len(value) % 4)


def section():
    return block(
        SECTION, struct.pack("<IHHq", 0x1A2B3C4D, 1, 0, -1) + option(APPLICATION, b"export-trace") + option(0, b"")
    )


def interface(host):
    # times are counted in parts of a second: ten to the minus ninth
    return block(
        INTERFACE,
        struct.pack("<HHI", RAW_IP, 0, 0)
        + option(NAME, f"host{host}".encode())
        + option(RESOLUTION, b"\x09")
        + option(0, b""),
    )


def headers(sender, receiver, length, port):
    """The IP and UDP headers of a datagram of so many bytes. (A UDP checksum of 0: there is none.)"""
    addresses = bytes((10, 0, 0, sender + 1)) + bytes((10, 0, 0, receiver + 1))
    head = struct.pack(">BBHHHBBH", 0x45, 0, 28 + length, 0, 0, 64, 17, 0) + addresses
    total = sum(struct.unpack(">10H", head))
    total = (total & 0xFFFF) + (total >> 16)
    total = (total & 0xFFFF) + (total >> 16)
    return (
        head[:10]
        + struct.pack(">H", 0xFFFF - total)
        + head[12:]
        + struct.pack(">HHHH", port + sender, port + receiver, 8 + length, 0)
    )


class Capture:
    """The writer of a capture: tick times `tick_ns`, and a nanosecond more for each frame of the tick before it (an
    order, no time)."""

    def __init__(self, out, hosts, tick_ns, port):
        self.out, self.tick_ns, self.port, self.count = out, tick_ns, port, collections.Counter()
        self.out.write(section() + b"".join(interface(host) for host in range(hosts)))

    def put(self, tick, host, way, length, data, comment):
        """A frame at a host's interface: of so many bytes, of which these are there."""
        self.count[tick] += 1
        at = tick * self.tick_ns + self.count[tick]
        frame = headers(*way, length, self.port) + data
        head = struct.pack("<IIIII", host, at >> 32, at & 0xFFFFFFFF, len(frame), 28 + length)
        self.out.write(
            block(FRAME, head + frame + bytes(-len(frame) % 4) + option(COMMENT, comment.encode()) + option(0, b""))
        )


FATES = {
    "came": "",
    "lost": ", never delivered",
    "elsewhere": ", to a host in another process",
    "under way": ", under way at the end",
}


def put_capture(reader, out, tick_ns, port):
    """The whole of a trace, which is read here (its reader keeps payloads)."""
    frames = [
        (line.tick, line.packet, line.words) for line in reader if line.packet is not None or line.kind == "recv"
    ]
    capture = Capture(out, reader.hosts, tick_ns if tick_ns else reader.usual_tick_ns, port)
    for tick, packet, words in frames:
        if packet is None or packet.number is None:
            put_received(capture, tick, packet, words)
            continue
        data, way = packet.datagram(reader.wire, packet.tick + reader.settings["skew"]), (
            packet.sender,
            packet.receiver,
        )
        if words[0] == "send":
            capture.put(
                tick,
                packet.sender,
                way,
                packet.frame(reader.wire),
                data,
                f"packet {packet.number}{FATES[reader.fate(packet)]}",
            )
        else:
            comment = f"delivers {packet.number}, {tick - packet.tick} ticks under way"
            capture.put(tick, packet.receiver, way, packet.frame(reader.wire), data, comment)


def put_received(capture, tick, packet, words):
    """What came to a node from elsewhere: a packet, or bytes that are none."""
    head, _, more = words[3].partition("*")
    data = b"" if head in ("", "-") else bytes.fromhex(head)
    receiver, sender = int(words[1]), int(words[2])
    comment = f"from host {sender} in another process" if packet is not None else f"from host {sender}, no packet"
    capture.put(tick, receiver, (sender, receiver), len(data) + int(more or 0), data, comment)
