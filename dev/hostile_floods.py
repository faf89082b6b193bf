"""Rows of dev/hostile for floods: a client whose calls never complete, beside another client's calls to the same server."""
import socket
import subprocess
import time

from hostile_nodes import Live, Sending, waits
from nodes import LOOPBACK, PROGRAM, free_ports, is_bound, memory, script_of, until

# Of each flood in a world: what its calls take of the server, the settings, the bytes of its requests, whether all of a request comes or its
# first packet alone, the bytes of the other client's requests, and after how many ticks it makes the next one. What the server sends to the flood
# never comes.
WORLDS = {
    "rows": (dict(seg=100, calls=1024), 101, False, 100, 2),
    "pages": (dict(unsched=1400, pages=64), 40000, False, 100, 2),
    "tombstones": (dict(seg=100, calls=1024), 100, True, 100, 2),
    "credit": (dict(seg=100, calls=1024, rate=1000, served=4096), 10000, True, 100, 2),
    "rows that rest": (dict(seg=100, unsched=100, window=1000, calls=1024), 101, False, 100, 2),
    "grants": (dict(seg=100, unsched=100, window=1000, calls=1024), 101, False, 1000, 10),
    "grants, to one at a time": (dict(seg=100, unsched=100, window=1000, calls=1024, overcommit=1), 101, False, 1000, 10),
}
# How many calls a tick each flood makes: so few that the server's tables hold them, and more. A turn lets 32 rows act, and a row whose rest never
# comes acts six times until it is dropped, so of six such calls a tick the table is full at last.
RATES = (
    ("rows", (5, 10, 60)), ("pages", (1, 3)), ("tombstones", (5, 60)), ("credit", (1, 10)), ("rows that rest", (1, 20)), ("grants", (1, 20)),
    ("grants, to one at a time", (1, 20)),
)
# Where all has come that was granted, a server asks for nothing: such a row goes once its message was granted to and nothing came of it. So a flood
# of them lasts, 24 ticks a row where no other client's message is shorter; of these floods there are figures alone.
LASTING = ("rows that rest", "grants, to one at a time")


class Span:
    """In which ticks the flood begins, its server restarts, it ends, and the other client makes its last call."""

    def __init__(self, minutes):
        self.begin, self.restart, self.end, self.last = (20, 120, 220, 300) if minutes < 1 else (40, 240, 440, 640)


class World:
    """A replay in which host 0 floods host 2 with so many calls a tick, and host 1 calls it now and then."""

    def __init__(self, replay, kind, a_tick, span):
        self.replay, self.a_tick, self.span = replay, a_tick, span
        _, self.size, self.is_whole, self.other, self.every = WORLDS[kind]
        self.waiting, self.begun, self.ended, self.live, self.tick, self.trace = [], {}, {}, set(), 0, replay.open()

    def carry(self, lines):
        for line in self.replay.carry(lines):
            self.trace.append(line)
            words = line.split(" ")
            if words[0] == "send" and self.comes(words):
                self.waiting.append(f"deliver {words[1]}")
            elif words[0] == "call":
                self.live.add(words[1])
                self.begun[words[1]] = self.tick
            elif words[0] in ("done", "fail"):
                self.live.discard(words[1])
                self.ended[words[1]] = line

    def comes(self, words):
        """Whether a packet is let through: all of the other client's, and of the flood's requests all or what comes first."""
        if words[6].startswith("1."):
            return True
        return words[4:6] == ["DATA", "c"] and (self.is_whole or words[9] == "0")

    def whole(self):
        for self.tick in range(1, self.span.last + 120):
            waiting, self.waiting = self.waiting, []
            self.carry(["tick", *waiting])
            if self.tick == self.span.restart:
                self.carry(["restart 2"])
            calls = [f"call 1 2 0 *{self.other}"] if self.tick % self.every == 1 and self.tick <= self.span.last else []
            if self.span.begin <= self.tick < self.span.end:
                room = 1024 - sum(it.startswith("0.") for it in self.live)
                calls += [f"call 0 2 0 *{self.size}"] * min(self.a_tick, room)
            if calls:
                self.carry(calls)
        self.trace += self.replay.end()

    def served(self, first, last):
        """Of the other client's calls of these ticks: how many there are, how many are done, and how many haven't ended."""
        own = [it for it, tick in self.begun.items() if it.startswith("1.") and first <= tick < last]
        done = sum(self.ended.get(it, "").startswith("done") for it in own)
        return len(own), done, sum(it not in self.ended for it in own)


def worlds(faults, chosen):
    """Each flood at several rates: every call of the other client ends; those before the flood and behind it, once its rows are gone, are all
    done, and those within it where nothing was full. `check` says yes to each trace."""
    span = Span(chosen.minutes)
    for kind, a_tick in ((kind, a_tick) for kind, rates in RATES for a_tick in rates):
        world = World(chosen.replay(WORLDS[kind][0]), kind, a_tick, span)
        world.whole()
        text = "".join(f"{it}\n" for it in world.trace).encode()
        verdict = subprocess.run([PROGRAM, "check"], input=text, capture_output=True).stdout.decode().strip()
        parts = ((0, span.begin - 2), (span.begin, span.restart), (span.restart, span.end), (span.end + 60, span.last + 1))
        before, within, behind, after = (world.served(*it) for it in parts)
        full, left = sum(line.startswith("full 2 ") for line in world.trace), world.served(0, span.last + 1)[2]
        what = f"{kind}, {a_tick} a tick"
        figure = (f"{what}: {within[1]} of {within[0]} done, {behind[1]} of {behind[0]} behind the server's restart, "
                  f"{after[1]} of {after[0]} behind the flood; `full` {full} times")
        yield before[0] == before[1] and (after[0] == after[1] or kind in LASTING), figure, figure
        yield left == 0 or kind in LASTING, f"{what}: {left} calls haven't ended"
        yield verdict == f"yes {len(world.trace)}", f"{what}: {verdict}"
        yield full > 0 or within[0] == within[1] or kind.startswith("grants"), f"{what}: {within[1]} of {within[0]} done, though nothing was full"


# ---- over sockets

# What the calls of a flood take of a server, the bytes of its requests, those that come of each, and how many come a second. Of more responses
# than the server's processor can print the system loses datagrams, those of the other client too.
SOCKETS = (("rows", 101, 100, (50, 1000)), ("pages", 1000000, 1400, (1, 100)), ("tombstones", 100, 100, (5, 1000)), ("responses", 1400, 1400, (100, 2000)))


def first_piece(seq, length, size):
    """The first bytes of a request of host 0, to service 0: the packet of docs/understand/protocol.md with another number, length and payload."""
    return bytes.fromhex("0101000700000001") + (1).to_bytes(4, "big") + seq.to_bytes(4, "big") + length.to_bytes(4, "big") + bytes(16) + bytes(size)


class Sender(Sending):
    """Sends requests that never complete from host 0's port to host 2's, so many a second."""

    def __init__(self, ports, a_second, length, size):
        super().__init__()
        self.ports, self.a_second, self.length, self.size = ports, a_second, length, size

    def run(self):
        with socket.socket(socket.AF_INET, socket.SOCK_DGRAM) as own:
            own.bind((LOOPBACK, self.ports[0]))
            begun = time.monotonic()
            while not self.is_over:
                due = int((time.monotonic() - begun) * self.a_second)
                while self.sent < due and not self.is_over:
                    own.sendto(first_piece(self.sent, self.length, self.size), (LOOPBACK, self.ports[2]))
                    self.sent += 1
                time.sleep(0.002)


def calls_of(lines, first, last):
    """Of the calls of host 1 in these ticks: how many there are, how many are done with their own bytes, and how many haven't ended."""
    tick, begun, ended = 0, {}, {}
    for line in lines:
        words = line.split(" ")
        if words[0] == "clock":
            tick = int(words[1])
        elif words[0] == "call":
            begun[words[1]] = (tick, words[4])
        elif words[0] in ("done", "fail"):
            ended[words[1]] = words[0] == "done" and words[2] == begun[words[1]][1]
    own = [it for it, (at, _) in begun.items() if first <= at < last]
    return len(own), sum(ended.get(it, False) for it in own), sum(it not in ended for it in own)


def grows(server, seconds):
    """What a server has asked for of memory when so many seconds are over, and when as many more are."""
    sizes = []
    for _ in range(2):
        time.sleep(seconds)
        sizes.append(memory(server.process, "VmData"))
    return sizes


def flooded(kind, a_second, length, size, ticks):
    """Two processes, a client and a server, under a flood that begins with them; at half of its time the server is killed, and another with the
    next incarnation takes its port. Yields as a row does."""
    ports, settings = free_ports(3), {"resend": 50, "life": 1000}
    with Live(script_of(ports, [f"at {k} call 1 2 0 {k:08x}" for k in range(10, ticks, 5)], here=[1], end=ticks + 600, **settings)) as client:
        with Live(script_of(ports, here=[2], end=10**6, **settings)) as server:
            until(lambda: is_bound(ports[1]) and is_bound(ports[2]))
            with Sender(ports, a_second, length, size):
                sizes = grows(server, ticks / 400)
                server.kill()
                with Live(script_of(ports, here=[2], end=10**6, inc=2, **settings)):
                    status = client.end()
    full, lines = sum(line.startswith("full 2 ") for line in server.lines()), client.lines()
    before, behind, every = calls_of(lines, 0, ticks // 2), calls_of(lines, ticks // 2, ticks), calls_of(lines, 0, ticks)
    took = waits(lines)
    figure = (f"{kind}, {a_second} a second: {before[1]} of {before[0]} done, and {behind[1]} of {behind[0]} behind the server's restart; "
              f"`full` {full} times, calls took {took[len(took) // 2] if took else '-'} ticks in the middle")
    yield status == 0 and every[2] == 0, f"{kind}, {a_second} a second: status {status}, {every[2]} calls haven't ended", figure
    # A response of 1,400 bytes is kept in each of up to 1,024 rows; of the other floods a row keeps nothing but its place.
    grown = sizes[1] - sizes[0]
    yield grown <= (3000 if kind == "responses" else 300), f"{kind}, {a_second} a second: the server's memory grew by {grown} KB"
    yield full > 0 or every[1] == every[0] or kind == "responses", f"{kind}, {a_second} a second: {every[1]} of {every[0]} done, though nothing was full"


def processes(faults, chosen):
    """Floods over sockets, of requests of which the rest never comes, and of whole ones whose response is never acknowledged."""
    ticks = 200 if chosen.minutes < 1 else 1600
    for kind, length, size, rates in SOCKETS:
        for a_second in rates[:1] if chosen.minutes < 1 else rates:
            yield from flooded(kind, a_second, length, size, ticks)
