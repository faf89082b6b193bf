"""Packets: from a `send` line, and from the bytes of a datagram; and their bytes."""
from .grammar import KINDS, size_of

HEADER = 16  # bytes that each packet of version 1 has at least; with version 2 it has 8 more, its sender's clock
# How many bytes each kind of packet has beside its header (an ACK: one, and eight for each call behind the first).
SIZES = {"DATA": 20, "GRANT": 5, "RESEND": 9, "BUSY": 0, "CUTOFFS": 34, "UNKNOWN": 1, "NEED_ACK": 0}
WIDTHS = {"DATA": (4, 4, 2, 1), "GRANT": (4, 1), "RESEND": (4, 4, 1), "CUTOFFS": (2, *(4,) * 8), "UNKNOWN": (1,)}


class Packet:
    """A packet: what its `send` line tells, the tick and the line at which it was sent, and its deliveries.

    number       of the trace; None where no line of the trace sent it (it comes from a host elsewhere)
    sender, receiver, inc, kind, role, id
    level        7 where it isn't DATA
    rest         the words behind the call, but for the payload
    offset, size, length    of DATA: where its bytes begin, how many they are, and the message's; `offset` of a GRANT:
                            up to where
    payload      the word of its bytes; None where it isn't kept
    tick, line   at which it was sent (from elsewhere: at which it came)
    again        of DATA: how many of its bytes were sent before
    is_after_all of DATA: whether each byte of its message was sent before
    deliveries   pairs of a tick and a line, in order
    """

    __slots__ = (
        "number",
        "tick",
        "line",
        "sender",
        "receiver",
        "inc",
        "kind",
        "role",
        "id",
        "level",
        "offset",
        "size",
        "length",
        "rest",
        "payload",
        "again",
        "is_after_all",
        "deliveries",
    )

    def __init__(self, words, tick=0, line=0):
        self.number, self.tick, self.line = int(words[1]), tick, line
        sender, _, receiver = words[2].partition(">")
        self.sender, self.receiver, self.inc = int(sender), int(receiver), int(words[3])
        self.kind, self.role, self.id, self.deliveries = words[4], words[5], words[6], ()
        self.level, self.offset, self.size, self.length, self.again, self.is_after_all, self.payload = (
            7,
            0,
            0,
            0,
            0,
            False,
            None,
        )
        self.rest = words[7:13]
        if self.kind == "DATA":
            self.level, self.length, self.offset = int(words[7]), int(words[8]), int(words[9])
            self.payload, self.size = words[13], size_of(words[13])
        elif self.kind == "GRANT":
            self.offset = int(words[7])
        elif self.kind == "CUTOFFS":
            self.rest = words[7:]

    @property
    def came(self):
        """The tick of its first delivery, or None."""
        return self.deliveries[0][0] if self.deliveries else None

    @property
    def end(self):
        """Of DATA the offset behind its last byte."""
        return self.offset + self.size

    @property
    def message(self):
        """The message of which it is a piece: the call, the role of its sender, and of a response the life of its
        server."""
        return (self.id, self.role, self.inc if self.role == "s" else 0)

    def frame(self, wire=1):
        """How many bytes its datagram has."""
        return HEADER + (8 if wire == 2 else 0) + SIZES.get(self.kind, 1 + 8 * len(self.rest)) + self.size

    def fields(self):
        """What stands in its datagram between the header and the payload: pairs of a number and its width in bytes."""
        if self.kind == "DATA":
            acked = (0, 0) if self.rest[5] == "-" else tuple(int(it) for it in self.rest[5].split("."))
            return [
                *zip((int(it) for it in self.rest[1:5]), (4, 4, 2, 1)),
                (self.rest[5] != "-", 1),
                *((it, 4) for it in acked),
            ]
        if self.kind == "ACK":
            return [(1 + len(self.rest), 1), *((int(it), 4) for word in self.rest for it in word.split("."))]
        return list(zip((int(it) for it in self.rest), WIDTHS.get(self.kind, ())))

    def head(self, wire=1, clock=0):
        """The bytes of its datagram but for the payload; with version 2 its sender's clock at the sending is to be
        said."""
        _, inc, sequence = (int(it) for it in self.id.split("."))
        head = [
            (wire, 1),
            (KINDS.index(self.kind) + 1, 1),
            (self.role == "s", 1),
            (self.level, 1),
            (self.inc, 4),
            (inc, 4),
            (sequence, 4),
        ]
        numbers = head + ([(clock, 8)] if wire == 2 else []) + self.fields()
        return b"".join(int(it).to_bytes(width, "big") for it, width in numbers)

    def datagram(self, wire=1, clock=0):
        """Its bytes; of a thinned trace without the payload."""
        is_whole = self.payload and "*" not in self.payload and self.payload != "-"
        return self.head(wire, clock) + (bytes.fromhex(self.payload) if is_whole else b"")

    def flight(self, wire=1, skew=0):
        """Its sender, its receiver and its bytes, where a node sends it: the clock of a node's host is ahead by
        `skew`."""
        return self.sender, self.receiver, self.datagram(wire, self.tick + skew)


def head_length(kind, wire):
    """How many bytes of a datagram of this kind, by its number on the wire, tell which packet it is."""
    return (44 if wire == 2 else 36) if kind == 1 else None


def halves(word):
    """A `recv` line's bytes as the head of the datagram and its payload, both as words; no payload where it isn't
    DATA."""
    head, _, _ = word.partition("*")
    if len(head) < 2 * HEADER or head[:2] not in ("01", "02"):
        return word, ""
    length = head_length(int(head[2:4], 16), int(head[:2], 16))
    return (word, "") if length is None or len(head) < 2 * length else (word[: 2 * length], word[2 * length :])


def number_at(data, at, width):
    return int.from_bytes(data[at : at + width], "big")


def packet_in(sender, receiver, word, wire, tick=0, line=0):
    """The packet that this datagram is, from a host elsewhere; None where it is none. The word may be thinned behind
    its head."""
    head, payload = halves(word)
    begin = HEADER + (8 if wire == 2 else 0)
    data = b"" if head == "-" or "*" in head else bytes.fromhex(head)
    if len(data) < begin or not is_head(data, wire):
        return None
    kind, is_server = KINDS[data[1] - 1], data[2] == 1
    numbers = numbers_of(kind, data, begin)
    if numbers is None or not FITS[kind](numbers, is_server, size_of(payload or "-")):
        return None
    client, call = receiver if is_server else sender, f"{number_at(data, 8, 4)}.{number_at(data, 12, 4)}"
    head = ["send", "0", f"{sender}>{receiver}", str(number_at(data, 4, 4)), kind, "cs"[data[2]], f"{client}.{call}"]
    packet = Packet([*head, *words_of(kind, numbers, data[3], payload)], tick, line)
    packet.number, packet.deliveries = None, ((tick, line),)
    return packet


def is_head(data, wire):
    """Whether a header's numbers are in their ranges."""
    is_known = data[0] == wire and 1 <= data[1] <= len(KINDS) and data[2] <= 1 and data[3] <= HIGHEST
    in_time = wire == 1 or number_at(data, 16, 8) <= LAST_CLOCK
    return (
        is_known
        and in_time
        and (data[1] == 1 or data[3] == HIGHEST)
        and number_at(data, 4, 4) >= 1
        and number_at(data, 8, 4) >= 1
    )


def numbers_of(kind, data, begin):
    """The numbers of a kind's fields, which are used to the last byte; None where bytes are missing or too many."""
    widths = BODY.get(kind) if kind != "ACK" else (1,) + (4, 4) * ((len(data) - begin - 1) // 8)
    if len(data) != begin + sum(widths):
        return None
    found = []
    for width in widths:
        found.append(number_at(data, begin, width))
        begin += width
    return found


def fits_data(n, is_server, size):
    """Length, offset, version, service, flag, and the acknowledged call, which is 0 and 0 behind the flag 0."""
    is_acking = n[5] >= 1 if n[4] == 1 else n[4] == n[5] == n[6] == 0
    is_bare = n[3] == n[4] == 0
    return (
        1 <= n[0] <= LONGEST and 1 <= size <= 1400 and n[1] + size <= n[0] and is_acking and (is_bare or not is_server)
    )


BODY = {**WIDTHS, "DATA": (4, 4, 2, 1, 1, 4, 4), "BUSY": (), "NEED_ACK": ()}
HIGHEST, LONGEST, LAST_CLOCK = 7, 1000000, 1000000002000
# Of each kind whether its numbers are in their ranges, with the sender's role and the payload's size.
FITS = {
    "DATA": fits_data,
    "GRANT": lambda n, is_server, size: 1 <= n[0] <= LONGEST and n[1] <= HIGHEST,
    "RESEND": lambda n, is_server, size: n[0] < n[1] <= LONGEST and n[2] <= HIGHEST,
    "BUSY": lambda n, is_server, size: True,
    "CUTOFFS": lambda n, is_server, size: max(n[1:]) <= LONGEST,
    "UNKNOWN": lambda n, is_server, size: is_server and n[0] <= 1,
    "NEED_ACK": lambda n, is_server, size: is_server,
    "ACK": lambda n, is_server, size: not is_server
    and 1 <= n[0] <= 5
    and len(n) == 2 * n[0] - 1
    and all(it >= 1 for it in n[1::2]),
}


def words_of(kind, numbers, level, payload):
    """The words of a `send` line behind its call."""
    if kind == "DATA":
        return [str(level), *map(str, numbers[:4]), f"{numbers[5]}.{numbers[6]}" if numbers[4] else "-", payload]
    if kind == "ACK":
        return [f"{inc}.{sequence}" for inc, sequence in zip(numbers[1::2], numbers[2::2])]
    return list(map(str, numbers))
