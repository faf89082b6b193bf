"""How long calls took beside what they take alone: ranks, and a picture of them over length."""
import math
from html import escape

from .figures import head_of, key_line, polyline

EDGES = [100, 300, 1000, 3000, 10000, 30000, 100000, 300000, 1000000]
RANKS = (("p50", 0.5), ("p90", 0.9), ("p99", 0.99), ("p99.9", 0.999), ("most", 1.0))
PARTS = 10  # of all calls by their length, each a point of a curve
STEPS = (1, 2, 5)
# Curves differ by their dashes and by the shape of their points as well as by colour.
CURVES = (
    ("#0072b2", "", "circle"),
    ("#d55e00", "6 3", "square"),
    ("#009e73", "2 3", "triangle"),
    ("#b5498c", "9 3 2 3", "diamond"),
    ("#7a6a00", "4 2", "circle"),
    ("#444444", "1 2", "square"),
)


def nearest(values, share):
    """Of values in order the least that this share of them doesn't exceed."""
    return values[max(0, min(len(values), math.ceil(share * len(values))) - 1)]


def rank(values, share):
    """The same, or None where there are too few values for it to mean something: 10 for p90, 100 for p99."""
    least = 1 if share in (0.5, 1.0) else round(1 / (1 - share))
    return nearest(values, share) if len(values) >= least else None


def alone_ticks(call, alone, rate):
    """How many ticks a call takes alone, where one of a packet each way takes `alone`."""
    return max(1, alone + math.ceil(call.request / rate) + math.ceil((call.response or 0) / rate) - 2)


class Point:
    """Some of the calls of a trace, of lengths that follow each other: where they stand, how many they are, p50 and
    p99."""

    def __init__(self, x, values):
        self.x, self.count, values = x, len(values), sorted(values)
        self.ranks = {"p50": nearest(values, 0.5), "p99": nearest(values, 0.99)}


def points_of(trace, by_share):
    """The points of a trace's curve: tenths of its calls by length, or the ranges of lengths that have calls."""
    done = sorted((call for call in trace.calls if call.state == "done"), key=lambda call: getattr(call, trace.by))
    value = (lambda call: call.ticks) if trace.alone is None else trace.slowdown
    if by_share:
        parts = [done[len(done) * at // PARTS : len(done) * (at + 1) // PARTS] for at in range(PARTS)]
        return [Point((at + 0.5) / PARTS, [value(call) for call in part]) for at, part in enumerate(parts) if part]
    ranges = [
        (high, [call for call in done if low < getattr(call, trace.by) <= high])
        for low, high in zip([0, *EDGES], EDGES)
    ]
    return [Point(high, [value(call) for call in part]) for high, part in ranges if part]


def steps_between(low, high):
    """Round numbers from below the least to above the most, for an axis by logarithms."""
    found, power = [], 10 ** math.floor(math.log10(low))
    while not found or found[-1] < high:
        found += [step * power for step in STEPS]
        power *= 10
    first = max((it for it in found if it <= low), default=found[0])
    last = min(it for it in found if it >= high)
    return [it for it in found if first <= it <= last]


class Figure:
    """p50 and p99 beside each other, over the share of calls up to a length, or over length; heights by their
    logarithms."""

    WIDTH, HEIGHT, LEFT, TOP, GAP = 380, 270, 70, 70, 60

    def __init__(self, traces, x, title):
        self.traces, self.by_share, self.title = traces, x == "share", title
        self.points = [points_of(trace, self.by_share) for trace in traces]
        values = [max(it.ranks[name], 0.1) for points in self.points for it in points for name in it.ranks] or [1]
        self.steps = steps_between(min(values), max(values))
        longest = max((it.x for points in self.points for it in points), default=EDGES[0])
        self.edges = [edge for edge in EDGES if edge <= longest]

    def x(self, value):
        if self.by_share:
            return self.WIDTH * value
        low, high = math.log10(self.edges[0] / 2), math.log10(self.edges[-1])
        return self.WIDTH * (math.log10(value) - low) / (high - low)

    def y(self, value):
        low, high = math.log10(self.steps[0]), math.log10(self.steps[-1])
        return self.HEIGHT * (1 - (math.log10(max(value, self.steps[0])) - low) / max(high - low, 0.1))

    def axes(self, left, name):
        what = "ticks" if self.traces[0].alone is None else "slowdown"
        yield f'<text x="{left}" y="{self.TOP - 10}" font-weight="bold">{name} of {what}</text>'
        for step in self.steps:
            y = self.TOP + self.y(step)
            yield f'<line x1="{left}" x2="{left + self.WIDTH}" y1="{y:.1f}" y2="{y:.1f}" stroke="#dddddd"/>'
            yield f'<text x="{left - 8}" y="{y + 4:.1f}" text-anchor="end">{step:g}</text>'
        for at, label, length in self.marks():
            x, y = left + self.x(at), self.TOP + self.HEIGHT
            yield f'<line x1="{x:.1f}" x2="{x:.1f}" y1="{self.TOP}" y2="{y}" stroke="#eeeeee"/>'
            yield f'<text x="{x:.1f}" y="{y + 16}" text-anchor="middle">{label}</text>'
            yield f'<text x="{x:.1f}" y="{y + 31}" text-anchor="middle" fill="#6b6b6b">{length}</text>'
        shares = (
            "share of calls up to a length; below it the length in bytes"
            if self.by_share
            else f"{self.traces[0].by} of up to so many bytes"
        )
        x, y = left + self.WIDTH / 2, self.TOP + self.HEIGHT + 52
        yield f'<text x="{x}" y="{y}" text-anchor="middle">{shares}</text>'

    def marks(self):
        """The places along the axis; where it goes by shares with the lengths of the first trace."""
        if not self.by_share:
            return [(edge, f"{edge:,}", "") for edge in self.edges]
        trace = self.traces[0]
        lengths = sorted(getattr(call, trace.by) for call in trace.calls if call.state == "done") or [0]
        return [(share / 10, f"{share * 10}%", f"{nearest(lengths, share / 10):,}") for share in range(0, 11, 2)]

    def shape(self, kind, x, y, colour, is_filled):
        """A point: hollow where there are too few calls for p99."""
        style = f'fill="{colour if is_filled else "#ffffff"}" stroke="{colour}" stroke-width="1.5"'
        if kind == "circle":
            return f'<circle class="point" cx="{x:.1f}" cy="{y:.1f}" r="3.5" {style}/>'
        corners = {
            "square": [(-3, -3), (3, -3), (3, 3), (-3, 3)],
            "triangle": [(0, -4), (4, 3), (-4, 3)],
            "diamond": [(0, -4.5), (4.5, 0), (0, 4.5), (-4.5, 0)],
        }
        path = " ".join(f"{x + dx:.1f},{y + dy:.1f}" for dx, dy in corners[kind])
        return f'<polygon class="point" points="{path}" {style}/>'

    def curves(self, left, name):
        for points, (colour, dashes, shape) in zip(self.points, CURVES):
            places = [(left + self.x(it.x), self.TOP + self.y(it.ranks[name]), it.count) for it in points]
            path = " ".join(f"{x:.1f},{y:.1f}" for x, y, _ in places)
            yield polyline(path, colour, dashes, 1.8)
            for x, y, count in places:
                yield self.shape(shape, x, y, colour, name == "p50" or count >= 100)

    def legend(self, top):
        for at, (trace, (colour, dashes, shape)) in enumerate(zip(self.traces, CURVES)):
            y = top + 20 * at
            done = trace.states["done"]
            failed = sum(trace.states[state] for state in ("timeout", "forgotten"))
            name = escape(f"{trace.reader.name}: {done:,} calls done, {failed:,} failed")
            yield key_line(self.LEFT, y, 34, colour, dashes)
            yield self.shape(shape, self.LEFT + 17, y, colour, True)
            yield f'<text x="{self.LEFT + 42}" y="{y + 4}">{name}</text>'
        y, hollow = top + 20 * len(self.traces) + 4, "hollow: of fewer than 100 calls, p99 is the slowest one"
        yield f'<text x="{self.LEFT}" y="{y}" fill="#6b6b6b">{hollow}</text>'

    def text(self):
        second = self.LEFT + self.WIDTH + self.GAP
        width, foot = second + self.WIDTH + 50, self.TOP + self.HEIGHT + 84
        height = foot + 20 * len(self.traces) + 20
        title = escape(self.title or "How long calls took, by their length")
        lines = [*head_of(width, height), f'<text x="{self.LEFT}" y="28" font-size="15">{title}</text>']
        for left, name in ((self.LEFT, "p50"), (second, "p99")):
            lines += self.axes(left, name)
            lines += self.curves(left, name)
        return "\n".join([*lines, *self.legend(foot), "</svg>", ""])
