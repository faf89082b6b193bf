"""What a picture of a trace shows, in rows: each event that is drawn has a height of its own, so that no two labels
meet."""
import bisect

from .grammar import LAST_LINES
from .words import line_words, packet_words

TICK, MARK, SEND, PIECE, COME, FOLD = 16, 16, 19, 5, 8, 30  # heights of rows
FOLDED = 3  # so many ticks without an event, one behind the other, are one broken line
MOST_TIMES = 3  # by the tick a picture may be so many times as high as by the event


class Event:
    """What happens at a host in a line, and is drawn: `kind` is `mark`, `send`, `piece` (it goes on with the packet
    sent before) or `come`."""

    __slots__ = ("line", "tick", "host", "kind", "packet", "text", "room", "y", "is_first")

    def __init__(self, line, host, kind, room, text=""):
        self.line, self.tick, self.host, self.kind, self.packet = line.number, line.tick, host, kind, line.packet
        self.text, self.room, self.y, self.is_first = text, room, 0, True


class Scene:
    """The events of a trace between two ticks, of some hosts or of one call, with their heights. Where hosts aren't
    chosen, those with an event are shown."""

    def __init__(self, reader, lines, chosen):
        self.reader, self.chosen = reader, chosen
        ends = self.ends_of_calls(lines)
        asked = chosen.hosts if chosen.hosts is not None else sorted(ends) if chosen.calls else None
        self.around = ends
        self.events = [it for it in self.all_events(lines) if self.is_shown(it, asked)]
        self.hosts = asked if asked is not None else self.hosts_with_events()
        self.label_stubs()
        self.is_by_tick, self.folds, self.ticks, self.height = False, [], [], 0
        self.place()

    # ---- which events

    def ends_of_calls(self, lines):
        """The hosts at the ends of the calls that are asked for."""
        found = set()
        for line in lines if self.chosen.calls else []:
            if line.call in self.chosen.calls:
                found |= set(line.hosts)
        return found

    def is_asked(self, line):
        """Whether a line is of the call, or ends what its hosts had."""
        if not self.chosen.calls or line.call in self.chosen.calls:
            return True
        return line.kind == "restart" and line.host in self.around

    def all_events(self, lines):
        """Those of the calls that are asked for, with their words."""
        before = None
        for line in lines:
            if line.kind in ("settings", "clock", *LAST_LINES) or not self.is_asked(line):
                continue
            if line.kind == "send":
                goes_on = before is not None and self.goes_on(before, line)
                yield Event(line, line.host_at, "piece" if goes_on else "send", PIECE if goes_on else SEND)
                before = line
            elif line.is_delivery():
                yield Event(line, line.host_at, "come", COME)
            else:
                yield Event(line, line.host_at, "mark", MARK, line_words(line))
                before = None

    @staticmethod
    def goes_on(before, line):
        """Whether a packet is the next piece of the one before it, so that one label serves both."""
        one, other = before.packet, line.packet
        same = (one.kind, one.sender, one.receiver, one.message, one.level) == (
            other.kind,
            other.sender,
            other.receiver,
            other.message,
            other.level,
        )
        return same and one.kind == "DATA" and one.end == other.offset and before.tick == line.tick

    def is_shown(self, event, asked):
        if not self.chosen.first <= event.tick <= self.chosen.last:
            return False
        ends = {event.host} if event.packet is None else {event.packet.sender, event.packet.receiver}
        return asked is None or not ends.isdisjoint(asked)

    def hosts_with_events(self):
        found = {it.host for it in self.events}
        found |= {it.packet.receiver for it in self.events if it.packet is not None and it.kind != "come"}
        return sorted(found - self.reader.elsewhere)

    # ---- their words

    def label_stubs(self):
        """Labels of packets: at their sending; at their coming where that isn't shown."""
        shown = {it.line for it in self.events if it.host in self.hosts}
        runs, run = {}, None
        for it in self.events:
            if it.kind in ("send", "piece"):
                run = it if it.kind == "send" or run is None else run
                runs.setdefault(run.line, []).append(it.packet)
        for it in self.events:
            if it.kind == "send" and it.host in self.hosts:
                packets = runs[it.line]
                it.text = packet_words(it.packet, (packets[-1].end, len(packets))) + self.fate_words(packets)
            elif it.kind == "come" and (it.packet.number is None or it.packet.line not in shown):
                it.text, it.room = self.origin_words(it), MARK
        # a packet between hosts that aren't shown has no row
        self.events = [it for it in self.events if it.host in self.hosts]

    def fate_words(self, packets):
        """What became of packets of one run, where their arrows don't show it."""
        first, fates = packets[0], [self.reader.fate(it) for it in packets]
        said = []
        if first.receiver not in self.hosts:
            where = " in another process" if first.receiver in self.reader.elsewhere else ""
            said.append(f", to host {first.receiver}{where}")
        for fate, words in (("lost", "lost"), ("under way", "under way at the end")):
            many = fates.count(fate)
            said += [f", {words}" if many == len(packets) else f", {many} {words}"] if many else []
        late = {it.came for it in packets if it.came is not None and it.came > self.chosen.last}
        said += [f", comes at tick {min(late)}"] if late and first.receiver in self.hosts else []
        return "".join(said)

    def origin_words(self, event):
        packet = event.packet
        if packet.number is None:
            return f"from host {packet.sender} in another process: {packet_words(packet)}"
        if packet.sender not in self.hosts:
            return f"from host {packet.sender}: {packet_words(packet)}"
        return f"sent at tick {packet.tick}: {packet_words(packet)}"

    # ---- their heights

    def place(self):
        """Heights by the tick where the trace has ticks, and that doesn't make the picture far too high; else by the
        event."""
        by_tick = {}
        for it in self.events:
            by_tick.setdefault(it.tick, []).append(it)
        rooms = {tick: TICK + sum(it.room for it in events) for tick, events in by_tick.items()}
        spans = self.spans(sorted(by_tick))
        fullest = max(rooms.values(), default=TICK)
        lone = sum(fullest for first, last in spans if first == last)
        has_time = self.reader.tick > 0 and len(by_tick) > 1
        usual = "tick" if has_time and lone <= MOST_TIMES * sum(rooms.values()) else "event"
        self.is_by_tick = (self.chosen.height or usual) == "tick"
        y = 0
        for first, last in spans:
            if first != last or first not in by_tick and first > max(by_tick):
                self.folds.append((first, last, y + FOLD / 2))
                y += FOLD
                continue
            self.ticks.append((first, y + TICK / 2))
            at = y + TICK
            for it in by_tick.get(first, []):
                at += it.room
                it.y = at - 4
            y += fullest if self.is_by_tick else max(TICK, rooms.get(first, TICK))
        self.height = y
        self.starts = [it.line for it in self.events]

    def spans(self, ticks):
        """The ticks that have a height, as pairs of equal numbers, and runs of ticks without an event, as pairs of
        the first and the last."""
        if not ticks:
            return []
        found, end = [], min(self.reader.tick, self.chosen.last)
        for tick, behind in zip(ticks, [*ticks[1:], end + 1]):
            found.append((tick, tick))
            if behind - tick - 1 >= (FOLDED if tick < ticks[-1] else 1):
                found.append((tick + 1, behind - 1))
            else:
                found += [(it, it) for it in range(tick + 1, behind)]
        return found

    def y_at(self, line):
        """The height of a line: that of the last event up to it."""
        at = bisect.bisect_right(self.starts, line) - 1
        return self.events[at].y if at >= 0 else 0
