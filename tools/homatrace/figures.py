"""Pictures of sums over ticks: panels one above the other, with axes."""
from html import escape

from colours import PACKETS, SIGNS

# Of levels 0 to 7: colours that differ in brightness as well, and dashes.
LEVELS = (
    ("#000000", "1 3"),
    ("#7a4a00", "8 3"),
    ("#b8860b", ""),
    ("#009e73", "5 3"),
    ("#0072b2", "2 2"),
    ("#56b4e9", ""),
    ("#cc79a7", "6 2 2 2"),
    ("#d55e00", ""),
)
PARTS = 200  # of the ticks, for the greatest of each
TEXT, QUIET, GRID = "#222222", "#6b6b6b", "#e4e4e4"


def round_step(span, parts):
    """A round number by which a span has about so many parts."""
    step = 1
    while span / step > parts:
        step = step * 2 if str(step)[0] in "15" else step * 5 // 2
    return step


def colour_of(name):
    look = {"text": TEXT}.get(name) or PACKETS.get(name) or SIGNS.get(name)
    return look if isinstance(look, str) else look.light


def polyline(points, colour, dashes, width):
    stroke = f'stroke="{colour}" stroke-width="{width}" stroke-dasharray="{dashes}"'
    return f'<polyline class="curve" points="{points}" fill="none" {stroke}/>'


def key_line(x, y, width, colour, dashes):
    """A piece of a curve, in a legend."""
    stroke = f'stroke="{colour}" stroke-width="1.8" stroke-dasharray="{dashes}"'
    return f'<line x1="{x}" x2="{x + width}" y1="{y}" y2="{y}" {stroke}/>'


def head_of(width, height):
    """The first lines of a picture: its size and its ground."""
    size = f'width="{width}" height="{height}"'
    yield f'<svg xmlns="http://www.w3.org/2000/svg" {size} font-family="sans-serif" font-size="12">'
    yield '<rect width="100%" height="100%" fill="#ffffff"/>'


class Curves:
    """Panels over the same ticks."""

    LEFT, WIDTH, HEIGHT, STEP, TOP = 90, 780, 100, 150, 70

    def __init__(self, first, last):
        self.first, self.last, self.lines, self.rows = first, last, [], 0

    def x(self, tick):
        return self.LEFT + self.WIDTH * (tick - self.first) / (self.last - self.first)

    def panel(self, name, most):
        """The axes of the next panel; its height from 0 to the most."""
        top, most = self.TOP + self.STEP * self.rows, max(1, most)
        self.rows += 1
        step = round_step(most, 4)
        self.lines.append(f'<text x="{self.LEFT}" y="{top - 10}" fill="{TEXT}">{escape(name)}</text>')
        for value in range(0, most + 1, step):
            y = top + self.HEIGHT * (1 - value / most)
            self.lines.append(
                f'<line x1="{self.LEFT}" x2="{self.LEFT + self.WIDTH}" y1="{y:.1f}" y2="{y:.1f}" stroke="{GRID}"/>'
            )
            self.lines.append(
                f'<text x="{self.LEFT - 6}" y="{y + 4:.1f}" text-anchor="end" fill="{QUIET}">{value:,}</text>'
            )
        for tick in self.ticks():
            x = self.x(tick)
            self.lines.append(f'<line x1="{x:.1f}" x2="{x:.1f}" y1="{top}" y2="{top + self.HEIGHT}" stroke="{GRID}"/>')
        return lambda tick, value: f"{self.x(tick):.1f},{top + self.HEIGHT * (1 - value / most):.1f}"

    def ticks(self):
        step = round_step(self.last - self.first, 10)
        return range(self.first + -self.first % step, self.last + 1, step)

    def curve(self, points, colour, dashes=""):
        self.lines.append(polyline(" ".join(points), colour, dashes, 1.4))

    def steps(self, name, colour, values):
        """A sum that stays until it changes."""
        most = max((value for _, value in values), default=0)
        at, points, before = self.panel(f"{name}; at most {most:,}", most), [], 0
        for tick, value in values:
            points += [at(tick, before), at(tick, value)]
            before = value
        self.curve(points, colour_of(colour))

    def levels(self, name, waits):
        """For each level the greatest wait of each part of the ticks, and a key."""
        width, curves = max(1, (self.last - self.first) / PARTS), {}
        for level, found in waits.items():
            parts = {}
            for tick, wait in found:
                part = int((tick - self.first) / width)
                parts[part] = max(wait, parts.get(part, 0))
            curves[level] = sorted(parts.items())
        at = self.panel(name, max((wait for parts in curves.values() for _, wait in parts), default=0))
        for level, parts in curves.items():
            self.curve([at(self.first + part * width, wait) for part, wait in parts], *LEVELS[level])
        self.key(curves)

    def key(self, levels):
        y = self.TOP + self.STEP * self.rows - 12
        for at, level in enumerate(levels):
            x, (colour, dashes) = self.LEFT + 96 * at, LEVELS[level]
            self.lines.append(key_line(x, y, 30, colour, dashes))
            self.lines.append(f'<text x="{x + 36}" y="{y + 4}" fill="{TEXT}">level {level}</text>')

    def text(self, title):
        foot = self.TOP + self.STEP * (self.rows - 1) + self.HEIGHT + 16
        for tick in self.ticks():
            self.lines.append(
                f'<text x="{self.x(tick):.1f}" y="{foot}" text-anchor="middle" fill="{QUIET}">{tick:,}</text>'
            )
        head = head_of(self.LEFT + self.WIDTH + 40, self.TOP + self.STEP * self.rows + 20)
        named = f'<text x="{self.LEFT}" y="28" font-size="15">{escape(title)}</text>'
        return "\n".join([*head, named, *self.lines, "</svg>", ""])
