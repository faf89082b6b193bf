"""What a line of a trace says, in words."""
from .grammar import LAST_LINES, size_of


def count(size):
    return "1 byte" if size == 1 else f"{size:,} bytes"


def message_of(packet):
    return f"{'request' if packet.role == 'c' else 'response'} {packet.id}"


def packet_words(packet, last=None):
    """A packet in a few words; of pieces that follow each other, where this is the first one, `last` is the last and
    how many they are."""
    rest = packet.rest
    if packet.kind == "DATA":
        end, pieces = (packet.end, 1) if last is None else last
        many = f", {pieces} packets" if pieces > 1 else ""
        return f"DATA {packet.offset}..{end} of {message_of(packet)}{many}, level {packet.level}"
    more = {
        "GRANT": lambda: f" up to {rest[0]}, level {rest[1]}",
        "RESEND": lambda: f" {rest[0]}..{rest[1]}",
        "UNKNOWN": lambda: ", it ran" if rest[0] == "1" else ", no record",
        "CUTOFFS": lambda: f", version {rest[0]}",
        "ACK": lambda: f" and {', '.join(rest)}" if rest else "",
    }.get(packet.kind, lambda: "")
    return f"{packet.kind} {packet.id}{more()}"


SAID = {
    "call": lambda it: f"call {it.id}: {count(size_of(it.request))} to host {it.server}, service {it.service}",
    "run": lambda it: f"run {it.id}" + (f", held for {it.hold} ticks" if it.hold else ""),
    "done": lambda it: f"done {it.id}: {count(size_of(it.response))}",
    "fail": lambda it: f"failed {it.id}: {it.why}",
    "restart": lambda it: f"restart, incarnation {it.inc}",
    "shift": lambda it: f"clock ahead by {it.lead}",
    "inject": lambda it: f"injected: {count(size_of(it.bytes))}",
    "junk": lambda it: "junk: no packet",
    "stale": lambda it: f"stale: sent at {it.at}, now {it.now}",
    "recv": lambda it: f"received {count(size_of(it.bytes))} from host {it.sender}",
    "drop": lambda it: f"gives up the request of {it.id}",
    "bury": lambda it: f"tombstone of {it.id} until tick {it.until}",
    "free": lambda it: f"record of {it.id} is free",
    "full": lambda it: f"full, {it.id} refused: {full_words(it)}",
    "gaps": lambda it: f"too many gaps in {it.id}: refused",
    "balance": lambda it: f"cutoffs anew, version {it.version}",
}


def full_words(line):
    if line.what == "rows":
        return f"{line.needed} of {line.limit} rows"
    return f"{line.needed} pages needed, {line.limit} free"


def line_words(line):
    """A line in words, but for those of packets."""
    if line.kind in LAST_LINES:
        return " ".join(line.words)
    return SAID[line.kind](line)
