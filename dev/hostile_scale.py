"""Rows of dev/hostile for runs of up to ten million lines: time a line, memory, and what `check` keeps of packets and calls."""
import os
import select
import subprocess
import tempfile
import time

from nodes import PROGRAM, memory

# Of one call of 2 bytes each way and a tick: the lines of its schedule, and its events (`tick` is three). Its trace has ten lines: the call,
# its two packets as they are sent and come, the run, its end, the clock, the tombstone and its end. The last call has no tombstone, which the
# next one's request would bring, and the last 21 see no end of theirs, 21 ticks later; there are the first line and the last one besides.
CALL_LINES, CALL_EVENTS, CALL_TOLD = 4, 6, 10
NOT_TOLD = 1 + 21 - 2
# Of one call that nobody answers: it asks in each of 100 ticks, and then fails. Its packets, and the lines of its trace.
LOST_PACKETS, LOST_TOLD = 101, 204


def calls(count, version=1):
    """A schedule of so many calls between two hosts, one after the other; the first one's packets are 0 and 1."""
    yield b"wire %d\ngo\n" % version
    for first in range(0, count, 10000):
        lines = [b"call 0 1 0 6869\ndeliver %d\ndeliver %d\ntick\n" % (2 * k, 2 * k + 1) for k in range(first, min(count, first + 10000))]
        yield b"".join(lines)


def lost_calls(count):
    """A schedule of so many calls that nobody answers."""
    yield b"resend 1\ntries 100\ngo\n"
    for first in range(0, count, 10000):
        yield b"call 0 1 0 61\ntick 101\n" * min(10000, count - first)


def dated_calls(count):
    """The same, with packets of version 2, which tell their sender's clock."""
    return calls(count, 2)


def repeats(count):
    """A schedule in which one packet comes again and again."""
    yield b"life 100000\ngo\ncall 0 1 0 61\n"
    for first in range(0, count, 10000):
        yield b"deliver 0\n" * min(10000, count - first)


class Spent:
    """A run of the program over a file: its status, processor seconds, most kilobytes resident, lines and last line."""

    def __init__(self, word, given, keep=None):
        self.lines, self.last, self.memory, self.looked = 0, b"", 0, 0.0
        process = subprocess.Popen([PROGRAM, word], stdin=given, stdout=subprocess.PIPE)
        while True:
            self.look(process)
            if not select.select([process.stdout], [], [], 0.02)[0]:
                continue
            part = os.read(process.stdout.fileno(), 1 << 20)
            if not part:
                break
            self.lines += part.count(b"\n")
            self.last = (self.last + part)[-200:]
            if keep:
                keep.write(part)
        process.stdout.close()
        _, status, usage = os.wait4(process.pid, 0)
        self.status = process.returncode = os.waitstatus_to_exitcode(status)
        self.seconds = usage.ru_utime + usage.ru_stime
        self.last = self.last.decode().rstrip("\n").rsplit("\n", 1)[-1]

    def look(self, process):
        """Its most memory so far, up to a thousand times a second, since the shortest runs end in 20 ms; what wait4 tells would be that of this process,
        before the program's start."""
        if time.monotonic() < self.looked + 0.001:
            return
        self.looked = time.monotonic()
        try:
            self.memory = memory(process, "VmHWM")
        except (FileNotFoundError, StopIteration, ProcessLookupError):
            pass  # it is at its end


def both(parts):
    """The replay of a schedule, and `check` of its trace."""
    with tempfile.TemporaryFile() as schedule, tempfile.TemporaryFile() as trace:
        for part in parts:
            schedule.write(part)
        schedule.seek(0)
        replayed = Spent("replay", schedule, trace)
        trace.seek(0)
        return replayed, Spent("check", trace)


def flat(word, kind, small, large, lines, most=1.5):
    """Whether a line costs no more processor time in the larger run, with both figures."""
    each = [it.seconds / count * 1e9 for it, count in zip((small, large), lines)]
    return each[1] < most * each[0] + 100, f"{word} of {kind}: {each[0]:.0f} ns a line of {lines[0]:,}, {each[1]:.0f} of {lines[1]:,}"


def per_packet_and_call(calls_of, lost_of):
    """What `check` keeps of a packet and of a call, in bytes: of runs with other shares of both, (packets, calls, kilobytes) each."""
    (p1, c1, m1), (p2, c2, m2) = ([b - a for a, b in zip(*it)] for it in (calls_of, lost_of))
    of_packet = (m1 * c2 - m2 * c1) / (p1 * c2 - p2 * c1) * 1024
    return of_packet, (m1 * 1024 - of_packet * p1) / c1


# What is tried: its schedule, the lines of its trace a call, its packets a call, the bytes that the replay keeps of a call's old packets (five of
# each tick in which packets of version 1 were sent, with room for growth, and 16 of each packet of version 2), and its events.
KINDS = (
    ("calls", calls, CALL_TOLD, 2, 6, lambda k: k * CALL_EVENTS),
    ("calls of version 2", dated_calls, CALL_TOLD, 2, 2 * 17, lambda k: k * CALL_EVENTS),
    ("lost calls", lost_calls, LOST_TOLD, LOST_PACKETS, 6 * LOST_PACKETS, lambda k: k * (1 + 3 * 101)),
    ("repeats", repeats, 1, 0, 0, lambda k: k + 1),
)


def scale(faults, chosen):
    """Traces of a hundred thousand and of a million lines, or of a million and of ten with five minutes and more.

    What is looked at: the last lines, the time a line, and memory. The larger trace takes less than one and a half times the smaller one's time a line, and
    100 ns. A replay's memory grows by what is kept of old packets alone."""
    most, kept = 10000000 if chosen.minutes >= 5 else 1000000, {}
    for kind, parts, told, packets, old, events in KINDS:
        counts = [most // 10 // told, most // told]
        ran = [both(parts(count)) for count in counts]
        for (replayed, judged), count in zip(ran, counts):
            yield (replayed.status, replayed.last) == (0, f"ok {events(count)}"), f"replay of {count} {kind}: status {replayed.status}, {replayed.last}"
            yield (judged.status, judged.last) == (0, f"yes {replayed.lines}"), f"check of {count} {kind}: status {judged.status}, {judged.last}"
        for at, word in enumerate(("replay", "check")):
            is_flat, figure = flat(word, kind, ran[0][at], ran[1][at], [each[0].lines for each in ran])
            yield is_flat, figure, figure
        few, many = (it[0].memory for it in ran)
        figure = f"replay of {kind}: {few:,} KB resident, and {many:,} of ten times as many"
        yield many - few <= 300 + (counts[1] - counts[0]) * old / 1024, figure, figure
        kept[kind] = [(count * packets, count, it[1].memory) for count, it in zip(counts, ran)]
    of_packet, of_call = per_packet_and_call(kept["calls"], kept["lost calls"])
    few, many = (it[2] for it in kept["repeats"])
    figure = f"check keeps {of_packet:.0f} bytes a packet and {of_call:.0f} a call; of repeats it has {few:,} and {many:,} KB resident"
    yield many - few <= 300, figure, figure


def ten_million(faults, chosen):
    """A schedule of a million lines, or of ten million with five minutes and more."""
    count = (10000000 if chosen.minutes >= 5 else 1000000) // CALL_LINES
    with tempfile.TemporaryFile() as schedule:
        for part in calls(count):
            schedule.write(part)
        schedule.seek(0)
        it = Spent("replay", schedule)
    figure = f"{2 + count * CALL_LINES:,} lines, and {it.lines:,} of its trace: {it.seconds:.1f} s of a processor, {it.memory:,} KB resident"
    yield (it.status, it.last, it.lines) == (0, f"ok {count * CALL_EVENTS}", count * CALL_TOLD - NOT_TOLD), f"{figure}: status {it.status}, {it.last}", figure
