"""The grammar of a trace's lines: what each has in which place, and what is no line."""
import functools
import re

from running import Refusal

# The lines that begin a block (an event each), and those that end a trace.
EVENTS = ("call", "deliver", "recv", "clock", "restart", "inject", "shift")
LAST_LINES = ("ok", "refused", "stalled", "stranger")
# The kinds of packets in the order of their numbers on the wire, from 1.
KINDS = ("DATA", "GRANT", "RESEND", "BUSY", "CUTOFFS", "UNKNOWN", "NEED_ACK", "ACK")

# What a word is, by the names that the tables below have for it; also a `host` below the setting `hosts`, a call's
# `id`, and the two hosts of a `way`.
NUMBER = r"(?:0|[1-9][0-9]{0,19})"
WORDS = {
    "number": NUMBER,
    "acked": rf"(?:-|{NUMBER}\.{NUMBER})",
    "role": "[cs]",
    "level": "[0-7]",
    "why": "(?:timeout|forgotten)",
    "what": "(?:rows|pages)",
    # a thinned word has its number of bytes behind a star, and the head of a datagram before it
    "bytes": rf"(?:-|[0-9a-f]+(?:\*{NUMBER})?|\*{NUMBER})",
}
BOUNDS = " ".join(f"bound{level}:number" for level in range(8))
# Of each line its fields, by their names, behind the first word.
LINES = {
    "call": "id:id server:host service:number request:bytes",
    "deliver": "number:number",
    "clock": "now:number",
    "restart": "host:host inc:number",
    "inject": "host:host bytes:bytes",
    "shift": "host:host lead:number",
    "junk": "host:host",
    "stale": "host:host at:number now:number",
    "run": "host:host id:id service:number request:bytes response:bytes hold:number",
    "done": "id:id response:bytes",
    "fail": "id:id why:why",
    "drop": "host:host id:id",
    "gaps": "host:host id:id",
    "free": "host:host id:id",
    "bury": "host:host id:id until:number",
    "full": "host:host id:id what:what needed:number limit:number",
    "balance": f"host:host version:number {BOUNDS}",
    "recv": "host:host sender:host bytes:bytes",
    "ok": "count:number",
    "stalled": "turns:number now:number",
    "stranger": "host:host sender:host bytes:bytes",
}
# What a `send` line has behind the call, by the packet's kind.
BODIES = {
    "DATA": "level:level length:number offset:number version:number service:number acked:acked payload:bytes",
    "GRANT": "offset:number priority:number",
    "RESEND": "first:number to:number priority:number",
    "BUSY": "",
    "NEED_ACK": "",
    "ACK": "",
    "CUTOFFS": f"version:number {BOUNDS}",
    "UNKNOWN": "reason:number",
}
STARTS = "(?:Empty|TooLong|SelfCall|CallsFull|SeqSpent)"
FAULT = (
    r"(?:LongLine|NotUtf8|UnknownWord|BadNumber|BadHex|Extra|Missing|NoGo|InputTooLong|NoSuchHost|NoSuchPacket"
    r"|NoSpare|ClockEnd|Decodes"
    rf"|Late {NUMBER} {NUMBER}|OutOfBand {NUMBER} {NUMBER}|Back {NUMBER} {NUMBER}"
    rf"|Start {STARTS}|Setting (?:OutOfRange [a-z]+|UnschedOverWindow|RateUnderSeg))"
)


class NoTrace(Refusal):
    """What is no trace, and why: the file, the line, what is wrong."""


def fields_of(text):
    """The names of fields with their places and what they are."""
    return {name: (at, kind) for at, (name, kind) in enumerate((word.split(":") for word in text.split()), 1)}


SENDS = {
    f"send {kind}": f"number:number way:way inc:number kind:{kind} role:role id:id {body}".rstrip()
    for kind, body in BODIES.items()
}
FIELDS = {name: fields_of(text) for name, text in {**LINES, **SENDS}.items()}
FIELDS["settings"], FIELDS["refused"] = {}, {"line": (1, "number"), "fault": (2, "word")}
# At which places a line has bytes, which are pairs of hex digits.
BYTES = {name: [at for at, kind in fields.values() if kind == "bytes"] for name, fields in FIELDS.items()}


@functools.lru_cache
def patterns_of(hosts=None):
    """The patterns of all lines; in a trace of so many hosts only those of lines about them."""
    host = NUMBER if hosts is None else "(?:" + "|".join(str(it) for it in reversed(range(hosts))) + ")"
    words = {**WORDS, "host": host, "id": rf"{host}\.{NUMBER}\.{NUMBER}", "way": f"{host}>{host}"}
    found = {}
    for name, text in {**LINES, **SENDS}.items():
        kinds = [word.split(":")[1] for word in text.split()]
        found[name] = " ".join([name.split()[0]] + [words.get(kind, kind) for kind in kinds])
    found["send ACK"] += rf"(?: {NUMBER}\.{NUMBER})*"
    found["settings"] = rf"settings(?: {NUMBER}){{13,15}}"
    found["refused"] = rf"refused {NUMBER} {FAULT}"
    return {name: re.compile(pattern) for name, pattern in found.items()}


def grammar_of(words):
    """By which name the tables have a line."""
    return f"send {words[4]}" if words[0] == "send" and len(words) > 4 else words[0]


def is_line(text, words, patterns):
    """Whether a text is a line of a trace, by these patterns."""
    name = grammar_of(words)
    pattern = patterns.get(name)
    return (
        pattern is not None and pattern.fullmatch(text) is not None and all(is_even(words[at]) for at in BYTES[name])
    )


def is_even(word):
    return len(word.partition("*")[0] if "*" in word else word) % 2 == 0 or word == "-"


def size_of(word):
    """How many bytes a word of a trace has; a thinned one tells it behind its star."""
    if word == "-":
        return 0
    head, _, many = word.partition("*")
    return len(head) // 2 + int(many or 0)
