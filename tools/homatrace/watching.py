"""What was under way over the ticks of a trace: live calls, bytes between hosts, bytes that receivers let come, waits
by level, idle links."""
import collections

from .calls import REFUSALS, joined

SUMS = ("live calls", "bytes under way", "bytes granted")


class Message:
    """A message at its receiver, of this life of its sender: its granted end, and which bytes have arrived."""

    def __init__(self, packet, unsched):
        self.receiver, self.inc, self.length = packet.receiver, packet.inc, packet.length
        self.granted, self.arrived, self.count = min(unsched, packet.length), [], 0
        self.told = (0, 0)  # what the sums have of it

    @property
    def missing(self):
        """How many bytes were granted and haven't arrived."""
        return max(0, self.granted - self.count)

    @property
    def waits(self):
        """Whether a part of it isn't granted."""
        return self.granted < self.length

    def add(self, start, end):
        self.arrived = joined(self.arrived, start, end)
        self.count = sum(high - low for low, high in self.arrived)


class Watch:
    """The sums over ticks: `take` each line of a reader, then `finish`. Only what goes to these hosts and is of these
    calls counts, where they are given."""

    def __init__(self, reader, hosts=None, calls=()):
        self.reader, self.hosts, self.calls = reader, hosts, set(calls)
        self.live, self.messages, self.arrival = set(), {}, None
        self.changes = []  # line, tick, sum, by how much
        self.received, self.waiting = (
            collections.Counter(),
            collections.Counter(),
        )  # in this tick; messages that wait for grants
        self.idle, self.bytes, self.frames = collections.Counter(), collections.Counter(), collections.Counter()
        self.seen = set()  # calls of the trace
        self.line = None

    def is_asked(self, host, call):
        return (self.hosts is None or host in self.hosts) and (not self.calls or call in self.calls)

    def change(self, name, more):
        if more:
            self.changes.append((self.line.number, self.line.tick, name, more))

    def take(self, line):
        if line.kind == "clock" and self.line:
            self.end_tick(line.tick - self.line.tick)
        self.settle(line)
        self.line = line
        if self.calls and line.call:
            self.seen.add(line.call)
        act = getattr(self, "take_" + line.kind, None)
        if act:
            act(line)

    def end_tick(self, ticks):
        """A link is idle in a tick in which its host received no DATA, and knew of a message that isn't granted
        whole."""
        for host, count in self.waiting.items():
            if count and not self.received[host]:
                self.idle[host] += ticks
        self.received.clear()

    def settle(self, line):
        """What came has arrived, unless this line, the next one, refuses it."""
        packet, self.arrival = self.arrival, None
        if packet is None or line.kind in REFUSALS:
            return
        message = self.message_of(packet)
        if message:
            message.add(packet.offset, packet.end)
            self.tell(message, message.missing, message.waits)

    def tell(self, message, missing, waits):
        self.change("bytes granted", missing - message.told[0])
        self.waiting[message.receiver] += waits - message.told[1]
        message.told = (missing, waits)

    def message_of(self, packet):
        """The message to which a piece adds; the first piece opens it, and so does that of a later life of its
        sender. None where the piece is of an earlier one, or of the response of a call that isn't live."""
        key, old = (packet.id, packet.role), self.messages.get((packet.id, packet.role))
        if packet.role == "s" and packet.id not in self.live or old and packet.inc < old.inc:
            return None
        if old is None or old.inc < packet.inc:
            self.end_message(key)
            self.messages[key] = Message(packet, self.reader.settings["unsched"])
        return self.messages[key]

    def end_message(self, key):
        """Its receiver, which had it perhaps, doesn't wait for the rest of it any more."""
        message = self.messages.pop(key, None)
        if message:
            self.tell(message, 0, 0)

    def take_call(self, line):
        if self.is_asked(line.client, line.id):
            self.live.add(line.id)
            self.change("live calls", 1)
        elif not self.calls or line.id in self.calls:
            # (its server may be asked for: a response is only of a call that is live)
            self.live.add(line.id)

    def end_call(self, call, host):
        if call in self.live:
            self.live.remove(call)
            self.change("live calls", -1 if self.is_asked(host, call) else 0)

    def take_done(self, line):
        self.end_call(line.id, line.client)
        self.end_message((line.id, "s"))

    take_fail = take_done

    def take_drop(self, line):
        self.end_message((line.id, "c"))

    def take_restart(self, line):
        for call in [call for call in self.live if int(call.partition(".")[0]) == line.host]:
            self.end_call(call, line.host)
        for key in [key for key, message in self.messages.items() if message.receiver == line.host]:
            self.end_message(key)

    def take_send(self, line):
        packet = line.packet
        if packet.kind == "GRANT" and self.is_asked(packet.sender, packet.id):
            message = self.messages.get((packet.id, "s" if packet.role == "c" else "c"))
            if message:
                message.granted = max(message.granted, packet.offset)
                self.tell(message, message.missing, message.waits)

    def take_deliver(self, line):
        packet = line.packet
        if packet is None or not self.is_asked(packet.receiver, packet.id):
            return
        self.frames[packet.receiver] += packet.frame(self.reader.wire)
        if packet.kind == "DATA":
            self.received[packet.receiver] += packet.size
            self.bytes[packet.receiver] += packet.size
            self.arrival = packet

    take_recv = take_deliver

    def data(self):
        """The DATA packets that the trace's own hosts sent, and that are asked for."""
        return [it for it in self.reader.packets if it.kind == "DATA" and self.is_asked(it.receiver, it.id)]

    def waits(self, first, last):
        """By level, of the packets that came within these ticks, the tick and how many it was under way."""
        found = collections.defaultdict(list)
        for it in self.data():
            if it.deliveries and first <= it.came <= last:
                found[it.level].append((it.came, it.came - it.tick))
        return dict(sorted(found.items(), reverse=True))

    def fates(self):
        found = collections.Counter(self.reader.fate(it) for it in self.data())
        return {fate: found[fate] for fate in ("came", "lost", "under way", "elsewhere")}

    def series(self):
        """Of each tick with a change the greatest value of each sum in it, as dictionaries with a `tick`. What is
        lost, or goes elsewhere, isn't under way here: nothing tells for how long."""
        changes = list(self.changes)
        for it in self.data():
            if self.reader.fate(it) in ("came", "under way"):
                changes.append((it.line, it.tick, "bytes under way", it.size))
                changes += [(line, tick, "bytes under way", -it.size) for tick, line in it.deliveries[:1]]
        now, rows = dict.fromkeys(SUMS, 0), []
        for _, tick, name, more in sorted(changes, key=lambda it: it[0]):
            if not rows or rows[-1]["tick"] != tick:
                rows.append({"tick": tick, **now})
            now[name] += more
            rows[-1][name] = max(rows[-1][name], now[name])
        return [*rows, {"tick": self.reader.tick, **now}] if rows and rows[-1]["tick"] < self.reader.tick else rows
