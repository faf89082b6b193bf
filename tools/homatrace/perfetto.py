"""A trace as Chrome's JSON, which ui.perfetto.dev shows: a process a host, a slice a call with its phases, packets
with arrows, counters."""
import collections
import json

MARKS, SENDS, RECEIVES = 1, 2, 12  # threads of a host; of sends and receives one a level
SHOWN = ("run", "drop", "full", "gaps", "bury", "stale", "junk", "restart")


class Places:
    """Where a line is in time, in microseconds: those of one tick have parts of it, in their order (an order, no
    time)."""

    def __init__(self, tick_ns):
        self.tick, self.lines = tick_ns / 1000, collections.Counter()
        self.order = {}

    def note(self, tick, line):
        self.order[line] = self.lines[tick]
        self.lines[tick] += 1

    def width(self, tick):
        return self.tick / (self.lines[tick] + 1)

    def at(self, tick, line):
        return tick * self.tick + self.order[line] * self.width(tick)


def thread_names(hosts):
    for host in range(hosts):
        yield {"ph": "M", "name": "process_name", "pid": host, "args": {"name": f"host {host}"}}
        yield {"ph": "M", "name": "process_sort_index", "pid": host, "args": {"sort_index": host}}
        names = [(MARKS, "marks")] + [
            (first + level, f"{what}, level {level}")
            for first, what in ((SENDS, "sends"), (RECEIVES, "receives"))
            for level in range(8)
        ]
        for thread, name in names:
            yield {"ph": "M", "name": "thread_name", "pid": host, "tid": thread, "args": {"name": name}}


def packet_name(packet):
    return f"{packet.kind} {packet.id}" + (f" {packet.offset}+{packet.size}" if packet.kind == "DATA" else "")


def packet_events(packet, places, fate):
    """A slice where it is sent and one where it first comes, and an arrow between them."""
    name, number = packet_name(packet), packet.number
    if number is not None:
        there = {"pid": packet.sender, "tid": SENDS + packet.level, "ts": places.at(packet.tick, packet.line)}
        args = {"packet": number, "to": packet.receiver, "fate": fate}
        yield {"ph": "X", "name": name, "cat": packet.kind, "dur": places.width(packet.tick), "args": args, **there}
    if packet.deliveries:
        tick, line = packet.deliveries[0]
        here = {"pid": packet.receiver, "tid": RECEIVES + packet.level, "ts": places.at(tick, line)}
        args = (
            {"packet": number, "ticks": tick - packet.tick}
            if number is not None
            else {"from": packet.sender, "sent": "elsewhere"}
        )
        yield {"ph": "X", "name": name, "cat": packet.kind, "dur": places.width(tick), "args": args, **here}
    if number is not None and packet.deliveries:
        same = {"name": "packet", "cat": "packet", "id": number}
        yield {"ph": "s", **same, **there}
        yield {"ph": "f", "bp": "e", **same, **here}


def call_events(call, order, reader, tick):
    """A slice a call at its client, and its phases within; an id of its own, as one that comes again is another
    call."""
    same = {"cat": "call", "id": f"{call.id}#{order}", "pid": call.client, "tid": 0}
    end = reader.tick if call.end is None else call.end
    name = f"{call.id}: {call.request} bytes to host {call.server}"
    args = {
        "service": call.service,
        "request": call.request,
        "response": call.response,
        "ticks": call.ticks,
        "state": call.state,
    }
    args["RESENDs"] = call.kinds.get("RESEND", 0)
    yield {"ph": "b", "name": name, "ts": call.start * tick, "args": args, **same}
    for phase, first, last in call.phases(reader.settings["unsched"], reader.tick):
        if last > first:
            yield {"ph": "b", "name": phase, "ts": first * tick, **same}
            yield {"ph": "e", "name": phase, "ts": last * tick, **same}
    yield {"ph": "e", "name": name, "ts": end * tick, **same}


def counter_events(reader, tick):
    """Of each host the bytes that are under way to it, where they change; what is lost, or goes elsewhere, isn't
    counted."""
    changes = collections.defaultdict(collections.Counter)
    for packet in reader.packets:
        if reader.fate(packet) in ("came", "under way"):
            changes[packet.tick][packet.receiver] += packet.size
            if packet.deliveries:
                changes[packet.came][packet.receiver] -= packet.size
    sums = collections.Counter()
    for at, by_host in sorted(changes.items()):
        for host, more in sorted(by_host.items()):
            sums[host] += more
            yield {
                "ph": "C",
                "name": "bytes under way to it",
                "pid": host,
                "ts": at * tick,
                "args": {"bytes": sums[host]},
            }


def mark_event(line, places):
    call = "" if line.call is None else f" {line.call}"
    return {
        "ph": "i",
        "s": "p" if line.kind == "restart" else "t",
        "name": line.kind + call,
        "pid": line.host_at,
        "tid": MARKS,
        "ts": places.at(line.tick, line.number),
    }


def events_of(reader, calls, tick_ns):
    """All events of a trace, which is read here; `calls` takes its lines."""
    marks, lines = [], []
    for line in reader:
        calls.take(line)
        if line.packet is not None or line.kind in SHOWN:
            lines.append((line.number, line.tick))
        if line.kind in SHOWN:
            marks.append(line)
    places = Places(tick_ns if tick_ns else reader.usual_tick_ns)
    for number, tick in lines:
        places.note(tick, number)
    yield from thread_names(reader.hosts)
    yield from (mark_event(line, places) for line in marks)
    for packet in reader.packets + reader.strange:
        yield from packet_events(packet, places, reader.fate(packet) if packet.number is not None else None)
    for order, call in enumerate(calls.all):
        yield from call_events(call, order, reader, places.tick)
    yield from counter_events(reader, places.tick)


def put_perfetto(reader, calls, out, tick_ns):
    out.write('{"displayTimeUnit":"ns","traceEvents":[\n')
    for at, event in enumerate(events_of(reader, calls, tick_ns)):
        out.write((",\n" if at else "") + json.dumps(event, separators=(",", ":")))
    out.write("\n]}\n")
