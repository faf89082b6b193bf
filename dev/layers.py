"""The drawing of the crates by layers (docs/pictures/layers.svg), from crates.txt. `dev/draw-layers` is the tool; `dev/tidy` calls `problems`."""
import os

TOP = os.path.dirname(os.path.dirname(os.path.realpath(__file__)))
PICTURE = "docs/pictures/layers.svg"
DEFINITIONS = ("homa_plain", "trace_rules", "node_runs", "generated_runs")
# The way of a packet in a replay, from the bytes that come in to the bytes that go out.
WAY = ("homa_io", "text_lines", "written_lines", "homa_text", "script_lines", "homa_script", "homa_replay", "homa_world", "world_packets", "host_table",
       "homa_host", "homa_wire", "homa_server", "homa_client", "homa_in", "homa_out", "host_books", "host_state", "host_view", "homa_top", "homa")
KINDS = {
    "definitions": ("#dbe9f6", "#3a6ea5"),
    "laws, proved and without code": ("#efe6f7", "#8a6aa8"),
    "the way of a packet in a replay": ("#fbe3c8", "#c8641b"),
    "other code": ("#f0f0f0", "#9a9a9a"),
}
LETTER, HIGH, GAP, BETWEEN, MARGIN = 6.9, 24, 12, 46, 24


def crates():
    """The crates that are drawn, each with those drawn that it names."""
    named = {}
    with open(os.path.join(TOP, "crates.txt"), encoding="utf-8") as it:
        for line in it:
            if line.strip() and not line.startswith("#"):
                head, _, below = line.partition(":")
                named[head.split()[0]] = below.split()
    left_out = {n for n in named if n.endswith(("_tests", "_rows")) or n.startswith(("bench_", "example_", "test_"))}
    return {name: [d for d in below if d in named and d not in left_out] for name, below in named.items() if name not in left_out}


def all_below(name, named, found):
    for below in named[name]:
        if below not in found:
            found.add(below)
            all_below(below, named, found)
    return found


def reduced(named):
    """The lines that no other line implies."""
    below = {name: all_below(name, named, set()) for name in named}
    return {name: [d for d in names if not any(d in below[e] for e in names if e != d)] for name, names in named.items()}


def layers(named):
    """The crates layer by layer, the lowest first."""
    depth = {}

    def level(name):
        if name not in depth:
            depth[name] = 1 + max((level(below) for below in named[name]), default=-1)
        return depth[name]

    for name in named:
        level(name)
    return [[name for name in named if depth[name] == n] for n in range(max(depth.values()) + 1)]


def wide(name):
    return len(name) * LETTER + 14


def middles(row, width):
    """Where each crate of a layer has its middle: the layer is in the middle of the picture, with equal gaps."""
    room = width - sum(wide(name) for name in row)
    gap = min(room / (len(row) + 1), 60)
    at = (width - sum(wide(name) for name in row) - gap * (len(row) - 1)) / 2
    found = {}
    for name in row:
        found[name] = at + wide(name) / 2
        at += wide(name) + gap
    return found


def in_order(rows, lines, width):
    """Each layer ordered so that crates are near those that they are joined with, by a few sweeps up and down."""
    joined = {name: set(below) for name, below in lines.items()}
    for name, below in lines.items():
        for it in below:
            joined[it].add(name)
    rows = [list(row) for row in rows]
    for _ in range(12):
        for n in [*range(len(rows)), *reversed(range(len(rows)))]:
            where = {name: x for row in rows for name, x in middles(row, width).items()}
            rows[n].sort(key=lambda name: (sum(where[it] for it in joined[name]) / len(joined[name]) if joined[name] else where[name], name))
    return rows


def kind(name):
    if name in DEFINITIONS:
        return "definitions"
    if name.endswith("_laws") or name.startswith("trace_") or name in ("step_moves", "plain_sets", "check_verdict"):
        return "laws, proved and without code"
    return "the way of a packet in a replay" if name in WAY else "other code"


def picture():
    named = crates()
    lines = reduced(named)
    rows = layers(named)
    width = max(sum(wide(name) + GAP for name in row) for row in rows) + 2 * MARGIN
    rows = in_order(rows, lines, width)
    height = len(rows) * (HIGH + BETWEEN) + MARGIN + 40
    x = {name: at for row in rows for name, at in middles(row, width).items()}
    y = {name: height - 40 - (n + 1) * (HIGH + BETWEEN) + BETWEEN / 2 for n, row in enumerate(rows) for name in row}
    out = [f'<svg xmlns="http://www.w3.org/2000/svg" width="{width:.0f}" height="{height:.0f}" viewBox="0 0 {width:.0f} {height:.0f}" '
           'font-family="Helvetica, Arial, sans-serif" font-size="12">',
           "<title>The crates by layers: each stands above those that it names</title>", f'<rect width="{width:.0f}" height="{height:.0f}" fill="white"/>']
    for on_way in (False, True):
        for name, below in lines.items():
            for it in below:
                if (name in WAY and it in WAY) == on_way:
                    look = 'stroke="#c8641b" stroke-width="1.6"' if on_way else 'stroke="#b8b8b8" stroke-width="0.8"'
                    top, bottom = y[name] + HIGH, y[it]
                    bend = (bottom - top) / 2
                    out.append(f'<path d="M{x[name]:.1f} {top:.1f} C{x[name]:.1f} {top + bend:.1f} {x[it]:.1f} {bottom - bend:.1f} '
                               f'{x[it]:.1f} {bottom:.1f}" fill="none" {look}/>')
    for name in named:
        fill, edge = KINDS[kind(name)]
        out.append(f'<rect x="{x[name] - wide(name) / 2:.1f}" y="{y[name]:.1f}" width="{wide(name):.1f}" height="{HIGH}" rx="4" fill="{fill}" stroke="{edge}"/>')
        out.append(f'<text x="{x[name]:.1f}" y="{y[name] + 16:.1f}" text-anchor="middle">{name}</text>')
    at = MARGIN
    for words, (fill, edge) in KINDS.items():
        out.append(f'<rect x="{at}" y="{height - 30:.0f}" width="16" height="16" rx="3" fill="{fill}" stroke="{edge}"/>')
        out.append(f'<text x="{at + 22}" y="{height - 18:.0f}">{words}</text>')
        at += 60 + len(words) * 6.4
    return "\n".join([*out, "</svg>"]) + "\n"


def problems():
    path = os.path.join(TOP, PICTURE)
    if not os.path.isfile(path) or open(path, encoding="utf-8").read() != picture():
        yield f"{PICTURE}: not what crates.txt gives: run dev/draw-layers"
