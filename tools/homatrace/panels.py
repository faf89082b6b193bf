"""The bytes of long messages beside a picture: as they are sent and arrive, how far their receiver grants, how far
their sender knows it."""


class Panel:
    """A message of more than `unsched` bytes in one life of its receiver: pairs of a line and what it changes."""

    def __init__(self, packet, unsched, life, line):
        self.id, self.role, self.length, self.life = packet.id, packet.role, packet.length, life
        self.sender, self.receiver, self.first, self.end = packet.sender, packet.receiver, line, None
        self.granted, self.known = [(line, unsched)], [(line, unsched)]
        self.sent, self.arrived, self.lost = [], [], []  # (line, packet); of `lost` GRANTs (line, offset)

    @property
    def title(self):
        return f"{'request' if self.role == 'c' else 'response'} {self.id}" + (
            f", life {self.life}" if self.life > 1 else ""
        )


def panels_of(reader, lines, calls):
    """The panels of a trace; from each restart of a receiver on its messages have further ones."""
    unsched, found, now = reader.settings["unsched"] if reader.settings else 0, [], {}

    def panel_of(packet, line):
        key = (packet.id, packet.role)
        if (
            packet.length > unsched
            and (not calls or packet.id in calls)
            and (key not in now or now[key].end is not None)
        ):
            before = now.get(key)
            now[key] = Panel(packet, unsched, before.life + 1 if before else 1, before.end if before else line)
            if before:
                # (what the sender was granted it knows as before)
                now[key].known = [(before.end, before.known[-1][1])]
            found.append(now[key])
        return now.get(key)

    for line in lines:
        packet = line.packet
        if line.kind == "restart":
            for panel in now.values():
                panel.end = line.number if panel.receiver == line.host and panel.end is None else panel.end
        elif packet is not None and packet.kind == "DATA":
            panel = panel_of(packet, line.number)
            if panel and line.kind == "send":
                panel.sent.append((line.number, packet))
            elif panel:
                panel.arrived.append((line.number, packet))
        elif packet is not None and packet.kind == "GRANT":
            panel = now.get((packet.id, "s" if packet.role == "c" else "c"))
            if panel and line.kind == "send" and panel.end is None:
                panel.granted.append((line.number, packet.offset))
                panel.lost += [(line.number, packet.offset)] if reader.fate(packet) == "lost" else []
            elif panel and line.kind != "send":
                panel.known.append((line.number, max(packet.offset, panel.known[-1][1])))
    return found
