"""The SVG of a scene: hosts as lines, time downwards, packets as slanted arrows, and a label for each event beside
the picture.

Labels of the first host stand left of its line, those of all others right of the last line, each in its event's row:
no arrow and no other label goes through one. A dotted leader joins a label with its event.
"""
import math
from html import escape

from colours import PACKETS, SIGNS, look_of

GAP = 200  # pixels between the lines of two hosts
TOP = 64
PANEL, PANEL_GAP = 130, 34  # the width of a message's panel, and what is between two
STUB = 46  # how far a packet to a host that isn't drawn is drawn
LETTER = 0.6  # of a letter's height its width, as a label takes it
SIZE = 11  # of a label's letters
INK, QUIET, LINE, GRID, PALE = "#222222", "#6b6b6b", "#555555", "#e4e4e4", "#bbbbbb"
RED = SIGNS["lost"].light
KNOWN = "#7a3fa0"


def width_of(text, size=SIZE):
    return LETTER * size * len(text)


def label(x, y, text, fill=INK, anchor="start", size=SIZE, kind="label"):
    place = f'x="{x:.1f}" y="{y:.1f}" text-anchor="{anchor}"'
    return f'<text class="{kind}" {place} font-size="{size}" fill="{fill}">{escape(text)}</text>'


def line(kind, x1, y1, x2, y2, stroke, more=""):
    return f'<line class="{kind}" x1="{x1:.1f}" y1="{y1:.1f}" x2="{x2:.1f}" y2="{y2:.1f}" stroke="{stroke}" {more}/>'


def box(kind, x, y, width, height, fill, more=""):
    place = f'x="{x:.1f}" y="{y:.1f}" width="{width:.1f}" height="{height:.1f}"'
    return f'<rect class="{kind}" {place} fill="{fill}" {more}/>'


def ring(kind, x, y, stroke):
    return f'<circle class="{kind}" cx="{x:.1f}" cy="{y:.1f}" r="4" fill="none" stroke="{stroke}" stroke-width="1.5"/>'


def curve(kind, points, stroke, dash):
    path = " ".join(f"{x:.1f},{y:.1f}" for x, y in points)
    look = f'stroke="{stroke}" stroke-width="2" stroke-dasharray="{dash}"'
    return f'<polyline class="{kind}" points="{path}" fill="none" {look}/>'


def cross(kind, x, y):
    strokes = [line("stroke", x - 4, y + by, x + 4, y - by, RED, 'stroke-width="2.2"') for by in (-4, 4)]
    return f'<g class="{kind}">{"".join(strokes)}</g>'


def fold_words(first, last):
    return f"{first} to {last}" if first < last else f"{first}"


class Drawing:
    """The lines and labels of a picture."""

    def __init__(self, scene, panels):
        self.scene, self.reader, self.hosts = scene, scene.reader, scene.hosts
        self.unsched = self.reader.settings["unsched"] if self.reader.settings else 0
        self.panels = [it for it in panels if self.has_row(it)]
        lefts = [width_of(it.text) for it in scene.events if it.text and it.host == self.hosts[0]]
        rights = [width_of(self.right_text(it)) for it in scene.events if it.text and it.host != self.hosts[0]]
        numbers = [fold_words(first, last) for first, last, _ in scene.folds] + [str(tick) for tick, _ in scene.ticks]
        self.ruler = 22 + max([30, *(width_of(it, 10) for it in numbers)])
        self.left = self.ruler + max(max(lefts, default=0), 30) + 24
        self.x = {host: self.left + at * GAP for at, host in enumerate(self.hosts)}
        self.right = self.x[self.hosts[-1]]
        alone = STUB + 10 if len(self.hosts) == 1 else 0
        self.edge = self.right + max(max(rights, default=0) + 30, 60) + alone
        self.bottom = TOP + scene.height
        self.width = self.edge + sum(PANEL + PANEL_GAP for _ in self.panels) + 20
        self.marks, self.texts = [], []

    def has_row(self, panel):
        """Whether something of a message is in the picture, which is of one of its ends."""
        shown = set(self.scene.starts)
        is_near = panel.sender in self.hosts or panel.receiver in self.hosts
        return is_near and any(line in shown for line, _ in panel.sent + panel.arrived)

    def right_text(self, event):
        """A label right of the picture says its host, but that of the last line."""
        return event.text if event.host == self.hosts[-1] else f"host {event.host}: {event.text}"

    @property
    def size(self):
        return self.width, self.bottom + 40 + self.legend_height()

    # ---- the whole

    def text(self):
        self.draw_ticks()
        self.draw_hosts()
        for event in self.scene.events:
            self.draw_event(event)
        for at, panel in enumerate(self.panels):
            self.draw_panel(panel, self.edge + at * (PANEL + PANEL_GAP))
        if self.reader.last and self.scene.chosen.last >= self.reader.tick:
            self.texts.append(label(self.left, self.bottom + 16, " ".join(self.reader.last.words)))
        legend = self.legend()
        width, height = self.size
        size = f'width="{width:.0f}" height="{height:.0f}"'
        head = [
            f'<svg xmlns="http://www.w3.org/2000/svg" {size} font-family="sans-serif">',
            '<rect width="100%" height="100%" fill="#ffffff"/>',
        ]
        return "\n".join([*head, *self.marks, *self.texts, *legend, "</svg>", ""])

    def draw_ticks(self):
        how = "each tick has one height" if self.scene.is_by_tick else "a row for each event: a slope is no time"
        self.texts.append(label(8, 18, how, QUIET, "start", 10, "note"))
        self.texts.append(label(self.ruler - 10, TOP - 16, "tick", QUIET, "end", 10, "note"))
        for tick, y in self.scene.ticks:
            self.marks.append(line("tick", self.ruler - 6, TOP + y, self.width - 10, TOP + y, GRID))
            self.texts.append(label(self.ruler - 10, TOP + y + 4, f"{tick}", QUIET, "end", 10, "note"))
        for first, last, y in self.scene.folds:
            path = f"M{self.ruler - 6:.1f} {TOP + y:.1f}" + " l6 -4 l6 8 l6 -4" * 2 + f" H{self.width - 10:.1f}"
            self.marks.append(f'<path class="fold" d="{path}" fill="none" stroke="{PALE}" stroke-dasharray="4 4"/>')
            self.texts.append(label(self.ruler - 10, TOP + y + 4, fold_words(first, last), QUIET, "end", 10, "note"))

    def draw_hosts(self):
        for host, x in self.x.items():
            self.marks.append(line("host", x, TOP - 8, x, self.bottom, LINE, 'stroke-width="1.5"'))
            self.texts.append(label(x, TOP - 16, f"host {host}", INK, "middle", 13, "note"))

    # ---- events

    def draw_event(self, event):
        x, y, packet = self.x[event.host], TOP + event.y, event.packet
        look = self.look(packet) if packet is not None else None
        if event.kind == "mark":
            self.draw_mark(event, x, y)
        elif event.kind == "come":
            self.draw_coming(event, x, y, look)
        else:
            self.draw_sending(event, x, y, look)
        if event.text:
            self.put_label(event, x, y)

    def look(self, packet):
        return look_of(packet.kind, packet.offset >= self.unsched)

    def draw_mark(self, event, x, y):
        """A dot, and for what failed a square, for a restart a bar."""
        if event.text.startswith("restart"):
            self.marks.append(box("mark restart", x - 7, y - 2, 14, 4, RED))
        elif event.text.startswith("failed"):
            self.marks.append(box("mark", x - 4, y - 4, 8, 8, RED))
        else:
            self.marks.append(f'<circle class="mark" cx="{x}" cy="{y:.1f}" r="3.5" fill="{INK}"/>')

    def put_label(self, event, x, y):
        """Beside the picture, in the row of its event."""
        fill = RED if event.text.endswith("lost") or event.text.startswith(("failed", "restart")) else INK
        if event.host == self.hosts[0]:
            self.texts.append(label(x - 10, y + 4, event.text, fill, "end"))
            return
        at = self.right + 10
        if x < self.right:
            self.marks.append(line("leader", x + 6, y, at - 2, y, PALE, 'stroke-dasharray="1 3"'))
        self.texts.append(label(at, y + 4, self.right_text(event), fill))

    def away(self, host):
        """Whether a stub of a host goes to the right: not from the last line, where labels are."""
        return 1 if host != self.hosts[-1] or len(self.hosts) == 1 else -1

    def arrow(self, kind, x1, y1, x2, y2, look, dashes=None):
        """A line with a head at its second end."""
        dash = dashes or " ".join(map(str, look.dash))
        self.marks.append(line(kind, x1, y1, x2, y2, look.light, f'stroke-width="1.6" stroke-dasharray="{dash}"'))
        angle = math.atan2(y2 - y1, x2 - x1)
        corners = [
            (x2 + 8 * math.cos(angle + turn), y2 + 8 * math.sin(angle + turn))
            for turn in (math.pi - 0.35, math.pi + 0.35)
        ]
        path = " ".join(f"{x:.1f},{y:.1f}" for x, y in [(x2, y2), *corners])
        self.marks.append(f'<polygon class="head" points="{path}" fill="{look.light}"/>')

    def draw_sending(self, event, x, y, look):
        """What doesn't come here: a stub to a host that isn't drawn, half an arrow with what became of it, or a line
        to the picture's end."""
        packet, dash = event.packet, " ".join(map(str, look.dash))
        stroke = f'stroke-width="1.6" stroke-dasharray="{dash}"'
        fate = self.reader.fate(packet)
        if packet.receiver not in self.x:
            self.arrow("stub", x, y, x + STUB * self.away(event.host), y + 6, look)
            return
        to = self.x[packet.receiver]
        if fate == "came":
            if packet.came > self.scene.chosen.last:
                self.marks.append(line("leaving", x, y, (x + to) / 2, self.bottom, look.light, stroke))
            return
        middle, height = (x + to) / 2, y + 12
        self.marks.append(line("lost" if fate == "lost" else "under-way", x, y, middle, height, look.light, stroke))
        if fate == "lost":
            self.marks.append(cross("undelivered", middle, height))
        else:
            self.marks.append(ring("ring", middle, height, look.light))

    def draw_coming(self, event, x, y, look):
        packet = event.packet
        if packet.number is None or packet.sender not in self.x:
            self.arrow("stub", x + STUB * self.away(event.host), y - 6, x, y, look)
            return
        start = (
            next((it for it in self.scene.events if it.line == packet.line and it.kind in ("send", "piece")), None)
            if event.text
            else None
        )
        from_x = self.x[packet.sender]
        if event.text and start is None:
            # it was sent before the picture begins
            self.arrow("entering", (from_x + x) / 2, TOP, x, y, look)
            return
        is_again = packet.deliveries[0][1] != event.line
        self.arrow("packet", from_x, TOP + self.scene.y_at(packet.line), x, y, look, "1.5 3" if is_again else None)

    # ---- panels

    def draw_panel(self, panel, left):
        def across(offset):
            return left + PANEL * min(offset, panel.length) / panel.length

        self.texts.append(label(left, TOP - 44, panel.title, INK, "start", 11, "note"))
        for offset, anchor in ((0, "start"), (panel.length // 2, "middle"), (panel.length, "end")):
            self.texts.append(label(across(offset), TOP - 14, f"{offset:,}", QUIET, anchor, 9, "note"))
            self.marks.append(line("scale", across(offset), TOP - 10, across(offset), self.bottom, GRID))
        self.texts.append(label(left, TOP - 29, "bytes", QUIET, "start", 9, "note"))
        frame = f'stroke="{PALE}"'
        self.marks.append(box("panel", left, TOP - 8, PANEL, self.bottom - TOP + 8, "none", frame))
        shown = set(self.scene.starts)
        for number, packet in panel.sent:
            if number in shown:
                self.marks.append(
                    self.bar("sent", across(packet.offset), across(packet.end), number, self.look(packet).light)
                )
        for number, packet in panel.arrived:
            if number in shown:
                self.marks.append(self.bar("arrived", across(packet.offset), across(packet.end), number, INK))
        until = panel.end if panel.end is not None else self.scene.starts[-1] + 1
        self.steps("known", panel.known, until, across, KNOWN, "3 2")
        self.steps("granted", panel.granted, until, across, PACKETS["GRANT"].light, "")
        for number, offset in panel.lost:
            if number in shown:
                self.marks.append(cross("lost-grant", across(offset), TOP + self.scene.y_at(number)))

    def bar(self, kind, start, end, number, fill):
        y = TOP + self.scene.y_at(number)
        return box(kind, start, y - 2.5, max(1.0, end - start), 5, fill)

    def steps(self, kind, values, until, across, stroke, dash):
        """A curve of steps, each from its line on."""
        points = []
        for (number, value), after in zip(values, [number for number, _ in values[1:]] + [until]):
            points += [(across(value), TOP + self.scene.y_at(number)), (across(value), TOP + self.scene.y_at(after))]
        self.marks.append(curve(kind, points, stroke, dash))

    # ---- the legend

    def entries(self):
        """What stands in the legend: words, and how their sample is drawn."""
        kinds = {
            ("SCHEDULED" if it.packet.kind == "DATA" and it.packet.offset >= self.unsched else it.packet.kind)
            for it in self.scene.events
            if it.packet is not None
        }
        found = [(look.words, "line", look.light, look.dash) for kind, look in PACKETS.items() if kind in kinds]
        fates = {
            self.reader.fate(it.packet)
            for it in self.scene.events
            if it.kind in ("send", "piece") and it.packet.receiver in self.x
        }
        found += [("lost", "cross", RED, ())] if "lost" in fates else []
        found += [("under way at the end", "ring", INK, ())] if "under way" in fates else []
        found += (
            [("restart", "bar", RED, ())] if any(it.text.startswith("restart") for it in self.scene.events) else []
        )
        found += [("ticks in which nothing happens here", "fold", PALE, ())] if self.scene.folds else []
        if self.panels:
            found += [
                ("in panels: sent, in its colour", "box", PACKETS["SCHEDULED"].light, ()),
                ("arrived", "box", INK, ()),
            ]
            found += [
                ("granted by the receiver", "line", PACKETS["GRANT"].light, ()),
                ("known to the sender", "line", KNOWN, (3, 2)),
            ]
        return found

    def rows(self):
        """The legend's entries with their places, in lines that aren't wider than the picture."""
        x, row = self.ruler, 0
        for it in self.entries():
            width = 36 + width_of(it[0], 10) + 14
            if x > self.ruler and x + width > self.width:
                x, row = self.ruler, row + 1
            yield x, row, it
            x += width

    def legend_height(self):
        return 18 * (1 + max((row for _, row, _ in self.rows()), default=0)) + 10

    def legend(self):
        for x, row, (words, kind, fill, dash) in self.rows():
            y = self.bottom + 40 + 18 * row
            yield self.sample(kind, x, y, fill, dash)
            yield label(x + 34, y + 4, words, INK, "start", 10, "note")

    @staticmethod
    def sample(kind, x, y, fill, dash):
        """How a thing of the legend is drawn."""
        if kind == "line":
            stroke = f'stroke-width="2" stroke-dasharray="{" ".join(map(str, dash))}"'
            return line("sample", x, y, x + 28, y, fill, stroke)
        if kind == "cross":
            return cross("sample", x + 20, y)
        if kind == "ring":
            return ring("sample", x + 20, y, fill)
        if kind == "fold":
            path = f"M{x:.1f} {y:.1f} l6 -4 l6 8 l6 -4 h10"
            return f'<path class="sample" d="{path}" fill="none" stroke="{fill}"/>'
        return box("sample", x + 12, y - 3, 16, 5, fill) if kind == "box" else box("sample", x + 8, y - 2, 18, 4, fill)
