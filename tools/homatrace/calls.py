"""The calls of a trace, with the ticks of what happens to each, and what its time went for."""
from colours import PHASES as LOOKS

from .grammar import size_of

PHASES = tuple(LOOKS)  # of a call, in their order: a partition of its ticks from `call` to its end

# Behind a delivery these take it back: its bytes haven't arrived.
REFUSALS = ("full", "gaps", "stale")
# The columns of `export-trace calls`, in their order.
COLUMNS = (
    "call client server service request response start out there granted repair ran back response_repair end ticks "
    "state data grants resends busy again"
).split()


class Part:
    """One of a call's two messages: the ticks of what happens to it (None: it hasn't), while the call is live.

    out       its first byte is sent
    there     its first `unsched` bytes have arrived
    granted   its receiver sends the first GRANT for it (a receiver elsewhere: the first one comes)
    once      each byte of it was sent once
    mended    whether bytes were sent again after that, before the message was handed up
    """

    __slots__ = ("out", "there", "granted", "once", "mended", "arrived", "life")

    def __init__(self):
        self.out = self.there = self.granted = self.once = None
        self.mended, self.arrived, self.life = False, [], 0  # `arrived`: ranges, of this life of the sender

    def sent(self, packet, is_handed_up):
        self.out = packet.tick if self.out is None else self.out
        if packet.again < packet.size and packet.end == packet.length:
            self.once = packet.tick
        elif packet.is_after_all and not is_handed_up:
            self.mended = True

    def came(self, packet, tick, unsched):
        if self.there is None and packet.inc >= self.life:
            if packet.inc > self.life:
                self.life, self.arrived = packet.inc, []
            least = min(unsched, packet.length)
            self.arrived = joined(self.arrived, packet.offset, min(packet.end, least))
            if self.arrived[:1] == [(0, least)]:
                self.there = tick

    @property
    def repair(self):
        """The tick from which on only bytes that were sent before are sent; None where all came with the first
        sending."""
        return self.once if self.mended else None


def joined(ranges, start, end):
    """Ranges in order, of which none touch, with one more."""
    if start >= end:
        return ranges
    apart = [it for it in ranges if it[1] < start or it[0] > end]
    touched = [it for it in ranges if it[1] >= start and it[0] <= end]
    return sorted(apart + [(min([start, *(it[0] for it in touched)]), max([end, *(it[1] for it in touched)]))])


class Call:
    """A call: `id`, `client`, `server`, `service`, `request` and `response` (bytes; the response None where it isn't
    known), the tick `start`, the two messages `asked` and `answer`, the ticks `ran` (first) and `end`, and `state`:
    `done`, `timeout`, `forgotten`, `restart` (of its client), `open`.
    """

    __slots__ = (
        "id",
        "client",
        "server",
        "service",
        "request",
        "response",
        "start",
        "ran",
        "end",
        "state",
        "asked",
        "answer",
        "kinds",
        "again",
    )

    def __init__(self, line):
        self.id, self.client, self.server, self.service = line.id, line.client, line.server, line.service
        self.request, self.response, self.start = size_of(line.request), None, line.tick
        self.ran = self.end = None
        self.state, self.asked, self.answer, self.again = "open", Part(), Part(), 0
        self.kinds = {}  # packets by their kind, while it is live

    def part(self, packet):
        """The message of which a DATA packet is a piece."""
        return self.asked if packet.role == "c" else self.answer

    @property
    def ticks(self):
        return None if self.end is None else self.end - self.start

    def row(self):
        """What `export-trace calls` has of it, by `COLUMNS`."""
        kinds = [self.kinds.get(kind, 0) for kind in ("DATA", "GRANT", "RESEND", "BUSY")]
        return [
            self.id,
            self.client,
            self.server,
            self.service,
            self.request,
            self.response,
            self.start,
            self.asked.out,
            self.asked.there,
            self.asked.granted,
            self.asked.repair,
            self.ran,
            self.answer.out,
            self.answer.repair,
            self.end,
            self.ticks,
            self.state,
            *kinds,
            self.again,
        ]

    def phases(self, unsched, last):
        """What its time went for: names of `PHASES` with the tick at which each begins and ends; a call that is open
        ends at the last tick."""
        end, is_long, asked = last if self.end is None else self.end, self.request > unsched, self.asked
        there = (
            min((it for it in (asked.there, asked.granted) if it is not None), default=None) if is_long else self.ran
        )
        repair = self.ran if asked.repair is None else asked.repair
        times = [
            self.start,
            asked.out,
            there,
            asked.granted if is_long else self.ran,
            repair,
            self.ran,
            self.answer.out,
            end if self.answer.repair is None else self.answer.repair,
            end,
        ]
        for at in range(len(times) - 2, 0, -1):
            times[at] = times[at + 1] if times[at] is None else min(times[at], times[at + 1])
        for at in range(1, len(times)):
            times[at] = max(times[at], times[at - 1])
        return list(zip(PHASES, times, times[1:]))


class Calls:
    """All calls of a trace: `take` each line of a reader. `all` has them in order; of an id that comes again the
    later is another."""

    def __init__(self, reader):
        self.reader, self.all, self.live, self.arrival = reader, [], {}, None

    def take(self, line):
        if self.arrival and line.kind not in REFUSALS:
            part, packet, tick = self.arrival
            part.came(packet, tick, self.reader.settings["unsched"])
        self.arrival = None
        act = getattr(self, "take_" + line.kind, None)
        if act:
            act(line)

    def take_call(self, line):
        self.live[line.id] = call = Call(line)
        self.all.append(call)

    def take_run(self, line):
        call = self.live.get(line.id)
        if call:
            call.response = size_of(line.response)
            call.ran = line.tick if call.ran is None else call.ran

    def take_drop(self, line):
        if line.id in self.live:
            self.live[line.id].asked.arrived = []

    def take_done(self, line):
        call = self.live.get(line.id)
        if call:
            call.response = size_of(line.response)
            self.close(call, line.tick, "done")

    def take_fail(self, line):
        if line.id in self.live:
            self.close(self.live[line.id], line.tick, line.why)

    def take_restart(self, line):
        for call in list(self.live.values()):
            if call.client == line.host:
                self.close(call, line.tick, "restart")
            elif call.server == line.host:
                call.asked.arrived = []

    def close(self, call, tick, state):
        call.end, call.state = tick, state
        del self.live[call.id]

    def take_send(self, line):
        packet = line.packet
        call = self.live.get(packet.id)
        if call:
            self.note(call, packet)

    def note(self, call, packet):
        call.kinds[packet.kind] = call.kinds.get(packet.kind, 0) + 1
        if packet.kind == "DATA":
            call.again += packet.again
            call.part(packet).sent(packet, packet.role == "c" and call.ran is not None)
        elif packet.kind == "GRANT":
            part = call.asked if packet.role == "s" else call.answer
            part.granted = packet.tick if part.granted is None else part.granted

    def take_deliver(self, line):
        packet = line.packet
        call = self.live.get(packet.id) if packet is not None else None
        if call and packet.number is None:
            self.note(call, packet)
        if call and packet.kind == "DATA":
            # the next line tells whether it is refused
            self.arrival = call.part(packet), packet, line.tick

    take_recv = take_deliver
