"""Rows of dev/hostile for datagrams that are no packets, in worlds in any state, and for those that are."""
import os
import random
import re
import shutil
import struct
import tempfile
import time
from subprocess import PIPE, Popen

from hostile_inputs import OTHER, builds, homa
from hostile_tasks import results
from nodes import PROGRAM

FRAMES = [bytes.fromhex(it.replace(" ", "")) for it in (
    "01010007 00000001 00000001 00000000 00000002 00000000 0000 00 00 00000000 00000000 6869", "01020107 00000001 00000001 00000000 0000000b 00",
    "01030007 00000001 00000001 00000000 00000000 00002710 03", "01060107 00000001 00000001 00000000 01", "01070107 00000001 00000001 00000000",
    "01080007 00000001 00000001 00000000 05 00000001 00000001 00000001 00000002 00000001 00000003 00000001 00000004",
    "01050107 00000001 00000001 00000001 0001 00000000 00000000 00000000 00000000 000f4240 00000003 00000003 00000001",
)]
# The same packets in version 2, sent at tick 3.
DATED = [b"\2" + it[1:16] + (3).to_bytes(8, "big") + it[16:] for it in FRAMES]
# How many bytes the fields of a kind have, in order; those of an ACK are a count and numbers of calls.
WIDTHS = {1: (4, 4, 2, 1, 1, 4, 4), 2: (4, 1), 3: (4, 4, 1), 5: (2, *(4,) * 8), 6: (1,), 7: (), 8: (1, *(4,) * 8)}
# Where the ranges of fields end, and one beyond; beside these what the bytes of a field hold at most.
ENDS = (0, 1, 2, 5, 6, 7, 8, 9, 1400, 1401, 999999, 1000000, 1000001, 1000000002000, 1000000002001)
# From so many minutes on: how many datagrams that are no packets come into a run, how many calls that has, how many of the packets that are drawn
# beside them are tried, and after how many runs there are enough. Below the first of them the time is over sooner.
SIZES = ((20, 1000000, 300, 1000, 10), (1, 20000, 60, 20, 500), (0, 2000, 60, 20, 1))


# ---- a decoder of our own, from the wire grammar


def number(data, at, size):
    return int.from_bytes(data[at : at + size], "big")


def is_data(role, body):
    if len(body) < 21 or len(body) > 1420:
        return False
    length, offset, flag = number(body, 0, 4), number(body, 4, 4), body[11]
    inc, seq = number(body, 12, 4), number(body, 16, 4)
    fits = 1 <= length <= 1000000 and offset + len(body) - 20 <= length and (role == 0 or body[10] == 0 and flag == 0)
    return fits and flag <= 1 and (inc >= 1 if flag else inc == seq == 0)


def is_ack(body):
    if not body or not 1 <= body[0] <= 5 or len(body) != 1 + 8 * (body[0] - 1):
        return False
    return all(number(body, at, 4) >= 1 for at in range(1, len(body), 8))


def is_packet(data, wire=1):
    """Whether these bytes are a packet of this version."""
    head = 16 if wire == 1 else 24
    if len(data) < head or data[0] != wire or not 1 <= data[1] <= 8 or data[2] > 1 or data[3] > 7:
        return False
    kind, role, body = data[1], data[2], data[head:]
    if kind != 1 and data[3] != 7 or number(data, 4, 4) == 0 or number(data, 8, 4) == 0:
        return False
    if wire == 2 and number(data, 16, 8) > 1000000002000:
        return False
    if kind == 1:
        return is_data(role, body)
    if kind == 2:
        return len(body) == 5 and 1 <= number(body, 0, 4) <= 1000000 and body[4] <= 7
    if kind == 3:
        return len(body) == 9 and number(body, 0, 4) < number(body, 4, 4) <= 1000000 and body[8] <= 7
    if kind == 5:
        return len(body) == 34 and all(number(body, at, 4) <= 1000000 for at in range(2, 34, 4))
    if kind == 6:
        return role == 1 and len(body) == 1 and body[0] <= 1
    if kind == 8:
        return role == 0 and is_ack(body)
    return not body and (kind == 4 or role == 1)


# ---- datagrams

# What is put in the place of four bytes.
EDGES = [struct.pack(">I", it) for it in (0, 1, 999999, 1000000, 1000001, 2**31, 2**32 - 1)]


def between(draw, least, most):
    return draw.choice((least, most, draw.randint(least, most)))


def big(*numbers):
    """Numbers with their widths in bytes, the highest byte first."""
    return b"".join(it.to_bytes(width, "big") for it, width in numbers)


def data_fields(draw, role):
    """The fields of a DATA packet, and its payload."""
    length = between(draw, 1, 1000000)
    size = min(length, draw.choice((1, 2, 1400, draw.randint(1, 60), draw.randint(1, 60), draw.randint(1, 60))))
    is_acking = role == 0 and draw.random() < 0.5
    call = (between(draw, 1, 2**32 - 1), between(draw, 0, 2**32 - 1)) if is_acking else (0, 0)
    service = 0 if role else draw.randrange(256)
    fields = ((length, 4), (between(draw, 0, length - size), 4), (between(draw, 0, 65535), 2), (service, 1), (is_acking, 1), (call[0], 4), (call[1], 4))
    return big(*fields) + draw.randbytes(size)


def fields_of(draw, kind, role):
    """What stands behind the header of a packet of this kind."""
    if kind == 1:
        return data_fields(draw, role)
    if kind == 2:
        return big((between(draw, 1, 1000000), 4), (draw.randrange(8), 1))
    if kind == 3:
        end = between(draw, 1, 1000000)
        return big((between(draw, 0, end - 1), 4), (end, 4), (draw.randrange(8), 1))
    if kind == 5:
        return big((between(draw, 0, 65535), 2), *((between(draw, 0, 1000000), 4) for _ in range(8)))
    if kind == 6:
        return big((draw.randrange(2), 1))
    count = draw.randint(1, 5) if kind == 8 else 0
    return big(*[(count, 1)][: count], *((between(draw, least, 2**32 - 1), 4) for _ in range(count - 1) for least in (1, 0)))


def a_packet(draw, wire):
    """A packet of this version, with fields that are drawn."""
    kind = draw.randint(1, 8)
    role = {6: 1, 7: 1, 8: 0}.get(kind, draw.randrange(2))
    level = draw.randrange(8) if kind == 1 else 7
    head = ((wire, 1), (kind, 1), (role, 1), (level, 1), (between(draw, 1, 2**32 - 1), 4), (between(draw, 1, 2**32 - 1), 4), (between(draw, 0, 2**32 - 1), 4))
    clock = ((between(draw, 0, 1000000002000), 8),) if wire == 2 else ()
    return big(*head, *clock) + fields_of(draw, kind, role)


def changed(draw, frames=FRAMES):
    """A frame with something of it changed."""
    part = draw.random
    data = bytearray(frames[int(part() * len(frames))])
    for _ in range((1, 1, 2, 5)[int(part() * 4)]):
        how, size = int(part() * 4), len(data)
        if how == 0 and size:
            data[int(part() * size)] ^= 1 << int(part() * 8)
        elif how == 1:
            del data[int(part() * (size + 1)) :]
        elif how == 2:
            data += draw.randbytes(1 + int(part() * 39))
        elif size >= 4:
            at = int(part() * (size - 3))
            data[at : at + 4] = EDGES[int(part() * len(EDGES))]
    return bytes(data)


def drawn(draw, count, wire):
    """Datagrams, of twenty one with random bytes and else a packet with something changed, until so many of them are no packets: these, and the packets."""
    frames, junk, packets = [*(FRAMES, DATED)[wire - 1], *(a_packet(draw, wire) for _ in range(count // 50))], [], []
    while len(junk) < count:
        it = draw.randbytes(int(draw.random() * 1501)) if draw.random() < 0.05 else changed(draw, frames)
        (packets if is_packet(it, wire) else junk).append(it)
    return junk, packets


def hex_of(data):
    return data.hex() or "-"


def injected(all_of, wire=1):
    """Whether a replay stays the same, line by line, when these datagrams, which are no packets, are injected."""
    lines = [f"inject 1 {hex_of(it)}" for it in all_of]
    told = homa(["replay"], (f"wire {wire}\ngo\n" + "\n".join(lines) + "\n").encode()).stdout.decode().splitlines()[1:]
    wanted = [line for it in all_of for line in (f"inject 1 {hex_of(it)}", "junk 1")] + [f"ok {len(all_of)}"]
    return told == wanted


def refused_as_packet(data, wire=1):
    told = homa(["replay"], f"wire {wire}\ngo\ninject 1 {data.hex()}\n".encode())
    return told.returncode == 2 and told.stdout.endswith(b"refused 3 Decodes\n")


def at_their_ends(frame):
    """A frame with each of its fields in turn where ranges of fields end, and one beyond."""
    widths, at = (1, 1, 1, 1, 4, 4, 4) + (8,) * (frame[0] - 1) + WIDTHS[frame[1]], 0
    for width in widths:
        most = 256**width - 1
        for value in sorted({it for it in (*ENDS, most - 1, most) if it <= most}):
            yield frame[:at] + value.to_bytes(width, "big") + frame[at + width :]
        at += width


def with_one_change(frame):
    """Each proper prefix of a frame, the frame with each of its bits flipped, with each byte and each field at its ends, with a byte more, and the frame."""
    yield from (frame[:n] for n in range(len(frame)))
    for at in range(len(frame)):
        yield from (frame[:at] + bytes([frame[at] ^ 1 << bit]) + frame[at + 1 :] for bit in range(8))
        yield from (frame[:at] + bytes([value]) + frame[at + 1 :] for value in (0, 1, 254, 255))
    yield from at_their_ends(frame)
    yield from (frame + b"\0", frame)


def prefixes_and_bits(faults, chosen):
    for wire in (1, 2) if chosen.minutes >= 1 else (1,):
        tried = sorted({it for frame in (FRAMES, DATED)[wire - 1] for it in with_one_change(frame)})
        junk = [it for it in tried if not is_packet(it, wire)]
        yield injected(junk, wire), f"one of {len(junk)} datagrams that are no packets of version {wire}", f"{len(junk):,} that are no packets of version {wire}"
        for it in tried:
            if is_packet(it, wire):
                yield refused_as_packet(it, wire), f"wire {wire}: inject {it.hex()}"


def every_length(faults, chosen):
    for wire in (1, 2):
        for byte in (b"\0", b"\xff"):
            yield injected([byte * n for n in range(1502)], wire), f"lengths 0 to 1,501 of {byte.hex()}, version {wire}"


# ---- worlds in any state

# The lines with which the events of a generated run begin in its trace.
EVENT = re.compile(rb"^(?=(?:clock|deliver|call) )", re.MULTILINE)


def mixed(draw, events, blocks, junk):
    """The events of a schedule and the blocks of its trace, with datagrams for its 32 hosts at places that are drawn: pairs, piece by piece."""
    places, at = sorted(int(draw.random() * (len(events) + 1)) for _ in junk), 0
    for place in range(len(events) + 1):
        first = at
        while at < len(places) and places[at] == place:
            at += 1
        hosts = [int(draw.random() * 32) for _ in range(first, at)]
        lines = [f"inject {host} {hex_of(it)}\n" for host, it in zip(hosts, junk[first:at])]
        yield "".join(lines).encode(), "".join(f"{line}junk {host}\n" for host, line in zip(hosts, lines)).encode()
        if place < len(events):
            yield events[place], blocks[place]


def other_than(program, words, given, wanted):
    """Where the output of a run over a file isn't what is in another one, or what its status is: nothing where it is all that, and 0."""
    for it in (given, wanted):
        it.seek(0)
    with Popen([program, *words], stdin=given, stdout=PIPE) as process:
        at = 0
        while part := process.stdout.read(1 << 20):
            other = wanted.read(len(part))
            if part != other:
                process.kill()
                return f"other output at byte {at + len(os.path.commonprefix([part, other]))}"
            at += len(part)
    if wanted.read(1) or process.returncode != 0:
        return f"status {process.returncode} behind byte {at}"
    return ""


def kept(given, seed):
    """The name of a file with a schedule that broke something."""
    name = os.path.join(tempfile.gettempdir(), f"hostile-{seed}.in")
    given.seek(0)
    with open(name, "wb") as it:
        shutil.copyfileobj(given, it)
    return name


def in_worlds(draw, seed, calls, junk, wire):
    """Datagrams that are no packets come into a generated run: in both builds it goes on as without them, each is junk for its host, and `check` says
    yes to the trace. What didn't hold."""
    settings, events = homa(["make", str(seed), str(calls)]).stdout.split(b"go\n", 1)
    settings += b"wire %d\ngo\n" % wire
    first, *blocks = EVENT.split(homa(["replay"], settings + events).stdout)
    events = events.splitlines(keepends=True)
    blocks[-1], _, count = blocks[-1].rpartition(b"ok ")
    if len(events) != len(blocks):
        return f"{len(events)} events, and {len(blocks)} blocks"
    with tempfile.TemporaryFile() as given, tempfile.TemporaryFile() as wanted:
        given.write(settings)
        wanted.write(first)
        lines = 2 + 2 * len(junk) + sum(it.count(b"\n") for it in blocks)
        for line, block in mixed(draw, events, blocks, junk):
            given.write(line)
            wanted.write(block)
        wanted.write(b"ok %d\n" % (int(count) + len(junk)))
        for program in (PROGRAM, OTHER) if os.path.exists(OTHER) else (PROGRAM,):
            why = other_than(program, ["replay"], given, wanted)
            if why:
                return f"{program}: {why}, of {kept(given, seed)}"
        wanted.seek(0)
        verdict = homa(["check"], None, stdin=wanted).stdout
        return "" if verdict == b"yes %d\n" % lines else f"check says {verdict} of the trace of {kept(given, seed)}"


def one_run(seed, k, size, calls, few):
    """Run k of a seed: what didn't hold of the datagrams that are no packets, how many packets there were, and the first few that
    differ, with whether each is refused."""
    wire, draw = 1 + k % 2, random.Random(f"datagrams {seed} {k}")
    junk, packets = drawn(draw, size, wire)
    why = in_worlds(draw, seed * 1000 + k, calls, junk, wire)
    return k, why, len(packets), [(it.hex(), refused_as_packet(it, wire)) for it in list(dict.fromkeys(packets))[:few]]


def numbered(chosen, minutes, most):
    """The numbers from 1 up to the most, or until these minutes are over; where the most is promised the time doesn't count."""
    until = time.monotonic() + minutes * 60
    for k in range(1, most + 1):
        if k > 1 and time.monotonic() > until and chosen.minutes < SIZES[0][0]:
            return
        yield k


def random_datagrams(faults, chosen):
    """In runs, until there are enough or a third of the time is over; of each run some of the packets are tried by themselves."""
    size, calls, few, most = next(it[1:] for it in SIZES if chosen.minutes >= it[0])
    runs, packets, tried = 0, 0, 0
    each = ((chosen.seed, k, size, calls, few) for k in numbered(chosen, chosen.minutes / 3, most))
    for k, why, those, refused in results(chosen.jobs, one_run, each):
        runs, packets, tried = runs + 1, packets + those, tried + len(refused)
        yield not why, f"run {k} of seed {chosen.seed}: {why}"
        for data, is_held in refused:
            yield is_held, f"wire {1 + k % 2}: inject {data}"
    yield True, "", f"{runs * size:,} that are no packets, in {runs} runs by {builds()}, and {tried:,} of the {packets:,} packets beside them; seed {chosen.seed}"
