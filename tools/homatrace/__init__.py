"""Traces, read in one place: what `tools/` know of a trace they know from here.

    from homatrace import Calls, Reader, opened

    reader = Reader(opened(name), name)         a file, or `-` for standard input; `opened` gives its lines
    calls = Calls(reader)
    for line in reader:                         in order, each by the whole grammar; NoTrace says the file, the line
                                                and why
        calls.take(line)
    reader.is_cut                               no last line: the trace was cut off, which a tool says in a line

A *line* has `number`, `tick`, `words`, `kind` (its first word), its fields by the names of `grammar.LINES`
(`line.until` of `bury`), and where it tells of a packet `packet`. `line.call`, `line.hosts` and `line.host_at` say
what it is about and where it is; `line.is_delivery()` is true of `deliver`, and of a `recv` that brings a packet. So
a node's trace and a replay's are read alike.

A *packet* (`packets.Packet`) has what its `send` line tells, `tick` and `line` of the sending, `deliveries` (pairs of
tick and line), `came` (the first tick or None), and `again`, of its bytes those that were sent before. `number` is
None where it comes from a host elsewhere: `packet_in` reads its bytes.

*Hosts elsewhere.* A trace with a `recv` line, or with a `clock 0`, is a node's. A host of it at which no line is has
another process: `reader.elsewhere`. `reader.fate(packet)` is `came`, `elsewhere` (sent there; nothing here tells
more), `under way` (at the end, for no longer than the longest flight of the trace) or `lost`.

A *thinned* trace has `*LENGTH` in place of a word of more than 16 hex digits. Of a datagram that a `recv` line tells,
the head stays, by which the packet is known: `HEAD*LENGTH`, where the head is 36 bytes of a DATA packet, 44 with
version 2, and LENGTH the number of bytes behind it. All other kinds of packets stay whole.

*Calls* (`calls.Calls`, `.all`): each with the ticks of what happens to it, `phases(unsched, last)` of `PHASES`, and
`row()` of `COLUMNS`, which is what `export-trace calls` prints. Times are ticks, None where a thing hasn't happened:

    start                       the call is made
    out, back                   the first byte of the request, of the response, is sent
    there                       the first `unsched` bytes of the request have arrived (a delivery with `full`, `gaps`
                                or `stale` behind it brings none)
    granted                     the server sends the first GRANT for it; where the server is elsewhere: the first one
                                comes
    repair, response_repair     each byte was sent once, and after that some are sent again, before the request runs
                                or the call ends; else None
    ran                         the service runs first
    end, state                  `done`, `timeout`, `forgotten`, `restart` (of its client), `open` (no end)
    data, grants, resends, busy packets of the call that are sent (from elsewhere: that come) while it is live
    again                       bytes sent that were sent before, while it is live

Of a later life of the server a response is another message: what was sent and arrived before doesn't count for it.
The phases are a partition of `start` to `end`, each until the next one begins (tools/colours.py says when); one that
never came begins where the next one does.

*Grants* (`grants.grants_of`, `grants.rivals`): who was granted what, and to whom a host granted while a call waited.
"""
from .calls import COLUMNS, PHASES, Call, Calls
from .grammar import EVENTS, KINDS, LAST_LINES, LINES, NoTrace, size_of
from .grants import grants_of, rivals
from .packets import HEADER, Packet, packet_in
from .reader import Line, Reader, name_of, opened
from .settings import RANGES, SETTINGS, USUAL, settings_from, settings_of

__all__ = (
    "COLUMNS Call Calls EVENTS HEADER KINDS LAST_LINES LINES Line NoTrace PHASES Packet RANGES Reader SETTINGS USUAL "
    "grants_of name_of opened packet_in rivals settings_from settings_of size_of"
).split()
