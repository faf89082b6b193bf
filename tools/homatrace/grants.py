"""Who was granted what: the GRANTs of a trace as hosts sent them."""


class Granted:
    """A GRANT: at `tick` the host `by` lets `bytes` more of a message come, which is the request (`role` c) or the
    response (s) of the call `id`."""

    __slots__ = ("tick", "by", "sender", "id", "role", "offset", "bytes")

    def __init__(self, packet, more):
        self.tick, self.by, self.sender = packet.tick, packet.sender, packet.receiver
        self.id, self.offset, self.bytes = packet.id, packet.offset, more
        self.role = "c" if packet.role == "s" else "s"


def grants_of(reader):
    """The GRANTs of all packets that a reader has read, in order; one that raises nothing grants 0 bytes. Each life
    of a receiver begins anew."""
    tops, first = {}, reader.settings["unsched"] if reader.settings else 0
    for packet in reader.packets:
        if packet.kind == "GRANT":
            key = (packet.id, packet.role, packet.inc)
            top = tops.get(key, first)
            yield Granted(packet, max(0, packet.offset - top))
            tops[key] = max(top, packet.offset)


def rivals(grants, host, first, last, own):
    """To which calls but its own a host granted within these ticks: pairs of (id, role) with bytes, number of GRANTs,
    and ticks of the first and the last, the most bytes first."""
    found = {}
    for it in grants:
        if it.by == host and first <= it.tick <= last and it.id != own:
            bytes_so_far, number, begun, _ = found.get((it.id, it.role), (0, 0, it.tick, it.tick))
            found[it.id, it.role] = (bytes_so_far + it.bytes, number + 1, begun, it.tick)
    return sorted(found.items(), key=lambda item: (-item[1][0], item[1][2]))
