"""One pass over a trace: its lines with their ticks, and the packets that they send and bring."""
import sys

from .grammar import FIELDS, LAST_LINES, NoTrace, grammar_of, is_line, patterns_of
from .packets import HEADER, Packet, halves, packet_in
from .settings import RANGES, settings_of

SHOWN = 80  # characters of a line that is none, in a message


class Line:
    """A line of a trace: `number` (from 1), `tick`, `words`, `kind` (its first word), and by its name each field of
    the grammar (`LINES`), a number where it is one. `packet`: what a `send` line sends, and what a `deliver` or
    `recv` line brings (None: the bytes of a `recv` are no packet).
    """

    __slots__ = ("number", "tick", "words", "packet")

    def __init__(self, number, tick, words, packet=None):
        self.number, self.tick, self.words, self.packet = number, tick, words, packet

    @property
    def kind(self):
        return self.words[0]

    def __getattr__(self, name):
        field = FIELDS[grammar_of(self.words)].get(name)
        if field is None:
            raise AttributeError(f"a line `{self.words[0]}` has no {name}")
        word = self.words[field[0]]
        return int(word) if field[1] in ("number", "host", "level") else word

    @property
    def call(self):
        """The call that the line is about, or None."""
        if self.packet is not None:
            return self.packet.id
        return next((word for word in self.words[1:3] if word.count(".") == 2), None)

    @property
    def hosts(self):
        """The hosts that the line is about: of a packet both, of a call's beginning both, else the one at which it
        is."""
        if self.packet is not None:
            return (self.packet.sender, self.packet.receiver)
        if self.words[0] == "call":
            return (self.client, self.server)
        at = self.host_at
        return () if at is None else (at,)

    @property
    def host_at(self):
        """The host at which the line is: the sender of a `send`, the receiver of a delivery, the client of a call;
        None where it is none's."""
        if self.packet is not None:
            return self.packet.sender if self.words[0] == "send" else self.packet.receiver
        if self.words[0] in ("call", "done", "fail"):
            return self.client
        return self.host if "host" in FIELDS[grammar_of(self.words)] and self.words[0] not in LAST_LINES else None

    @property
    def client(self):
        """Of a line about a call its client."""
        return int(self.call.partition(".")[0])

    def is_delivery(self):
        """Whether it brings a packet: of the trace, or from a host elsewhere (`packet.number` is None then)."""
        return self.packet is not None and self.words[0] != "send"


class Reader:
    """The lines of a trace, one after the other: iterate over it once. `source` gives texts, `name` is said in faults.

    settings, wire, hosts   from the first line on; None, 1 and 0 where the trace is a refusal alone
    tick                    of the line that was read last
    packets                 those of the trace, in the order of their numbers, without payloads unless `keep_payloads`
    strange                 those that came from hosts elsewhere
    last                    the last line, or None where the trace is cut off
    is_node                 whether it is a node's trace (it has a `recv` line, or begins at tick 0)
    elsewhere               behind the last line: the hosts that another process has; all hosts of a replay are here
    """

    def __init__(self, source, name="standard input", keep_payloads=False):
        self.source, self.name, self.keep_payloads = source, name, keep_payloads
        self.settings, self.wire, self.hosts, self.tick, self.last, self.count = None, 1, 0, 0, None, 0
        self.packets, self.strange, self.tops, self.is_node, self.longest = [], [], {}, False, 0
        self.patterns = patterns_of()
        self.here, self.elsewhere, self.unread, self.flying = set(), set(), [], {}

    def __iter__(self):
        for number, text in enumerate(self.source, 1):
            text = text[:-1] if text.endswith("\n") else text
            words = text.split(" ")
            self.check(number, text, words)
            self.count = number
            yield self.told(number, words)
        if self.count == 0:
            raise NoTrace(f"{self.name}: there is no line")
        # all hosts of a replay are here
        self.elsewhere = set(range(self.hosts)) - self.here if self.is_node else set()

    def check(self, number, text, words):
        if self.last is not None:
            self.refuse(number, "stands behind the last line of a trace", text)
        if not is_line(text, words, self.patterns):
            self.refuse(number, self.fault_of(text, words), text)
        if number == 1 and words[0] not in ("settings", "refused"):
            self.refuse(number, "is no line of a trace, which begins with its settings", text)
        if number > 1 and words[0] == "settings":
            self.refuse(number, "has settings, as the first one had", text)

    def fault_of(self, text, words):
        if text[:1] == "\ufeff":
            return "begins with a byte-order mark"
        if text.endswith("\r"):
            return "ends in a carriage return"
        return (
            f"names a host that isn't there (there are {self.hosts})"
            if is_line(text, words, patterns_of())
            else "is no line of a trace"
        )

    def refuse(self, number, why, text):
        head = text[:SHOWN].rstrip()
        shown = f": {head}" if head and head.isascii() and head.isprintable() else ""
        raise NoTrace(f"{self.name}: line {number} {why}{shown}")

    def told(self, number, words):
        """The line of these words, and what it changes."""
        kind = words[0]
        line = Line(number, self.tick, words)
        if kind == "clock":
            self.is_node = self.is_node or words[1] == "0"
            self.tick = line.tick = int(words[1])
        elif kind == "send":
            self.send(line)
        elif kind == "deliver":
            self.deliver(line)
        elif kind == "recv":
            self.receive(line)
        elif kind == "settings":
            self.settings = settings_of(words)
            if not all(low <= self.settings[name] <= high for name, (low, high) in RANGES.items()):
                self.refuse(number, "has a setting out of its range", " ".join(words))
            self.wire, self.hosts = self.settings["wire"], self.settings["hosts"]
            self.patterns = patterns_of(self.hosts)
        elif kind in LAST_LINES:
            self.last = line
        if kind not in ("recv", "clock"):
            self.here.add(line.host_at)
        return line

    def send(self, line):
        packet = Packet(line.words, self.tick, line.number)
        if packet.number != len(self.packets):
            self.refuse(line.number, f"sends packet {packet.number} where packet {len(self.packets)} should be", "")
        line.packet = packet
        self.packets.append(packet)
        self.note_again(packet)
        if self.unread is not None:
            self.unread.append((packet, packet.payload or ""))
        if not self.keep_payloads:
            packet.payload = None

    def note_again(self, packet):
        if packet.kind == "DATA":
            top = self.tops.get(packet.message, 0)
            packet.again, packet.is_after_all = max(0, min(top, packet.end) - packet.offset), top >= packet.length
            self.tops[packet.message] = max(top, packet.end)

    def deliver(self, line):
        # there is no `recv` in such a trace: which bytes fly needn't be known
        self.unread = None
        if int(line.words[1]) >= len(self.packets):
            self.refuse(line.number, f"delivers packet {line.words[1]} before it is sent", "")
        line.packet = self.packets[int(line.words[1])]
        self.came(line)

    def came(self, line):
        if not line.packet.deliveries:
            self.longest = max(self.longest, self.tick - line.packet.tick)
        line.packet.deliveries += ((self.tick, line.number),)

    def receive(self, line):
        """A node's trace has `recv` where that of a replay has `deliver`: it brings the last packet with these bytes
        that was sent to that host by that sender; where no line of the trace sent one, a packet from a host
        elsewhere, or none."""
        self.is_node = True
        self.here.add(line.host)
        if self.unread is None:
            self.refuse(line.number, "receives, and a line before it delivers: a trace has one of the two", "")
        for packet, payload in self.unread:
            head = packet.head(self.wire, packet.tick + self.settings["skew"]).hex()
            self.flying[packet.sender, packet.receiver, head, payload] = packet.number
        self.unread = []
        word = line.words[3]
        if word.startswith("*") and int(word[1:]) >= HEADER:
            why = "this is a node's trace, thinned without the heads of its datagrams: thin the whole one anew"
            raise NoTrace(f"{self.name}: {why}")
        number = self.flying.get((line.sender, line.host, *halves(word)))
        if number is not None:
            line.packet = self.packets[number]
            self.came(line)
        else:
            line.packet = packet_in(line.sender, line.host, word, self.wire, self.tick, line.number)
            if line.packet is not None:
                self.note_again(line.packet)
                self.strange.append(line.packet)

    @property
    def usual_tick_ns(self):
        """How long a tick is where nobody says it: a node's is 10 ms; one of a replay is that of 1,500 bytes at 10
        Gbit/s."""
        return 10000000 if self.is_node else 1200

    @property
    def is_cut(self):
        """Whether there is no last line."""
        return self.count > 0 and self.last is None

    def fate(self, packet):
        """What became of a packet: `came`, `elsewhere` (it was sent to a host elsewhere, and nothing here tells),
        `under way` at the end, or `lost`: never delivered, and longer ago than the longest flight of the trace."""
        if packet.deliveries:
            return "came"
        if packet.receiver in self.elsewhere:
            return "elsewhere"
        return "under way" if self.tick - packet.tick <= self.longest else "lost"


def opened(name):
    """The texts of a file, or of standard input where the name is `-`; bytes that are no text make lines that no
    trace has."""
    file = sys.stdin.fileno() if name == "-" else name
    return open(file, encoding="utf-8", errors="surrogateescape", newline="\n", closefd=name != "-")


def name_of(name):
    return "standard input" if name == "-" else name
