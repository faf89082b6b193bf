"""The colours and lines by which pages and pictures tell things apart: one table for all of them.

Hues are those of Okabe and Ito, which most people who see red and green alike can still tell apart. Hue alone isn't
enough: to them RESEND and BUSY are one colour, and so are GRANT and ACK. So each kind has a line of its own as well.
"""
from typing import NamedTuple


class Look(NamedTuple):
    """How one thing is drawn: its name in a legend, its colour on a light and on a dark page, its dashes in pixels
    (none: a solid line)."""

    words: str
    light: str
    dark: str
    dash: tuple = ()


# Packets. DATA of the bytes that need no grant, and of those that need one, are told apart.
PACKETS = {
    "DATA": Look("DATA, unscheduled", "#0072b2", "#4a9fe0"),
    "SCHEDULED": Look("DATA, scheduled", "#56b4e9", "#aee0fb"),
    "GRANT": Look("GRANT", "#009e73", "#2cc295", (7, 3)),
    "RESEND": Look("RESEND", "#d55e00", "#ff8a3d"),
    "BUSY": Look("BUSY", "#b07d00", "#e0b040", (2, 2)),
    "UNKNOWN": Look("UNKNOWN", "#b5498c", "#e59ac8", (9, 2, 2, 2)),
    "CUTOFFS": Look("CUTOFFS", "#8a8f98", "#8a8f98", (5, 2, 1, 2, 1, 2)),
    "NEED_ACK": Look("NEED_ACK", "#8a8f98", "#8a8f98", (2, 3)),
    "ACK": Look("ACK", "#8a8f98", "#8a8f98"),
}

# What isn't a packet. The three in red differ by their shape: a cross, a square, a bar over the whole lane.
SIGNS = {
    "lost": Look("lost", "#d00000", "#ff5c5c"),
    "failed": Look("failed", "#d00000", "#ff5c5c"),
    "restart": Look("restart", "#d00000", "#ff5c5c"),
    "idle": Look("link idle while bytes wait", "#e69f00", "#e69f00"),
}

# What a call's time goes for, in the order of time. Each phase ends where the next one begins:
#   first byte out   from the call until the first DATA of the request is sent
#   unscheduled      until its first `unsched` bytes have arrived or a GRANT is sent; a short request: until it runs
#   waiting          until the first GRANT is sent for it
#   granted          until it runs, or until the repair begins
#   repair           from when each byte of the request was sent once, if bytes are then sent again, until it runs
#   served           until the first byte of the response is sent
#   response         until the call ends, or until the repair begins
#   response repair  from when each byte of the response was sent once, if bytes are sent again, until the call ends
PHASES = {
    "first byte out": Look("waits for its first byte out", "#b8bec6", "#8a929e"),
    "unscheduled": Look("unscheduled", "#0072b2", "#4a9fe0"),
    "waiting": Look("waits for grants", "#e69f00", "#e69f00"),
    "granted": Look("granted", "#56b4e9", "#aee0fb"),
    "repair": Look("repair", "#d55e00", "#ff8a3d"),
    "served": Look("served", "#009e73", "#2cc295"),
    "response": Look("response", "#cc79a7", "#e59ac8"),
    "response repair": Look("repair of the response", "#a8480a", "#d06a20"),
}


def look_of(kind, is_scheduled=False):
    """How a packet of this kind is drawn."""
    return PACKETS["SCHEDULED" if kind == "DATA" and is_scheduled else kind]
