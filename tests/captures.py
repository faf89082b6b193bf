"""What tshark reads of a capture, beside what a trace says that must be there."""
import random
import subprocess

from testing import TOP

SCRIPT = f"{TOP}/tools/homa.lua"
KINDS = ("DATA", "GRANT", "RESEND", "BUSY", "CUTOFFS", "UNKNOWN", "NEED_ACK", "ACK")
FIELDS = (
    "frame.comment frame.interface_name ip.src ip.dst udp.srcport udp.dstport udp.length homa.version homa.kind "
    "homa.role homa.level homa.inc homa.call_inc homa.seq homa.call homa.clock homa.length homa.offset homa.size "
    "homa.cutoffs homa.service homa.ack homa.ack_inc homa.ack_seq "
    "homa.prio homa.from homa.to homa.bound homa.reason homa.count homa.payload _ws.col.Info "
    "homa.again homa.malformed _ws.malformed _ws.lua.error udp.payload"
).split()
COMPARED = FIELDS[:-5]


def tshark(capture, *words, port=4000):
    """The rows of fields that tshark reads of a capture, and what it says beside."""
    command = [
        "tshark",
        "-n",
        "-X",
        f"lua_script:{SCRIPT}",
        "-o",
        f"homa.ports:{port}-{port + 31}",
        "-r",
        capture,
        *words,
        "-T",
        "fields",
        "-E",
        "separator=/t",
        "-E",
        "aggregator=,",
    ]
    for name in FIELDS:
        command += ["-e", name]
    it = subprocess.run(command, capture_output=True, text=True, check=False)
    said = [line for line in it.stderr.splitlines() if not line.startswith("Running as user")]
    return [dict(zip(FIELDS, line.split("\t"))) for line in it.stdout.split("\n")[:-1]], said + (
        [f"status {it.returncode}"] if it.returncode else []
    )


def info_of(words, size):
    """The Info column of the packet of a `send` line."""
    kind, rest = words[4], words[7:]
    more = {
        "DATA": lambda: f" {rest[2]}+{size} of {rest[1]}, level {rest[0]}",
        "GRANT": lambda: f" up to {rest[0]}, level {rest[1]}",
        "RESEND": lambda: f" {rest[0]}..{rest[1]}, level {rest[2]}",
        "CUTOFFS": lambda: f" version {rest[0]}",
        "UNKNOWN": lambda: [" no record", " ran and is forgotten"][int(rest[0])],
        "ACK": lambda: f" and {len(rest)} more" if rest else "",
    }.get(kind, lambda: "")
    return f"{kind} {words[5]} {words[6]}{more()}"


def fields_of(words, wire, clock):
    """What each field must be, from the words of a `send` line."""
    kind, rest, (_, inc, seq) = words[4], words[7:], words[6].split(".")
    sender, receiver = (int(it) for it in words[2].split(">"))
    size = len(rest[6]) // 2 if kind == "DATA" else 0
    body = {"DATA": 20 + size, "GRANT": 5, "RESEND": 9, "CUTOFFS": 34, "UNKNOWN": 1, "ACK": 1 + 8 * len(rest)}.get(
        kind, 0
    )
    it = {
        "homa.version": wire,
        "homa.kind": KINDS.index(kind) + 1,
        "homa.role": int(words[5] == "s"),
        "homa.level": rest[0] if kind == "DATA" else 7,
        "homa.inc": words[3],
        "homa.call_inc": inc,
        "homa.seq": seq,
        "homa.call": words[6],
        "ip.src": f"10.0.0.{sender + 1}",
        "ip.dst": f"10.0.0.{receiver + 1}",
        "udp.srcport": 4000 + sender,
        "udp.dstport": 4000 + receiver,
        "udp.length": 8 + 8 * wire + 8 + body,
        "_ws.col.Info": info_of(words, size),
    }
    if wire == 2:
        it["homa.clock"] = clock
    names = {
        "GRANT": ("offset", "prio"),
        "RESEND": ("from", "to", "prio"),
        "UNKNOWN": ("reason",),
        "CUTOFFS": ("cutoffs",),
    }.get(kind, ())
    it |= {f"homa.{name}": rest[at] for at, name in enumerate(names)}
    if kind == "CUTOFFS":
        it["homa.bound"] = ",".join(rest[1:])
    if kind == "ACK":
        it |= {
            "homa.count": 1 + len(rest),
            "homa.ack_inc": ",".join(w.split(".")[0] for w in rest),
            "homa.ack_seq": ",".join(w.split(".")[1] for w in rest),
        }
    if kind == "DATA":
        acked = ("0", "0") if rest[5] == "-" else rest[5].split(".")
        it |= {
            "homa.length": rest[1],
            "homa.offset": rest[2],
            "homa.size": size,
            "homa.cutoffs": rest[3],
            "homa.service": rest[4],
            "homa.ack": int(rest[5] != "-"),
            "homa.ack_inc": acked[0],
            "homa.ack_seq": acked[1],
            "homa.payload": rest[6],
        }
    return {name: str(value) for name, value in it.items()}


def frames_of(trace):
    """Of each frame that the capture of a trace must have: its interface, the begin of its comment, and its fields
    (of a `recv` that no line of the trace sent, its bytes). The trace is a replay's, or one of a node whose packets
    all come from elsewhere."""
    tick, sent, skew, wire = 0, {}, 0, 1
    for line in trace.splitlines():
        words = line.split(" ")
        if words[0] == "settings":
            skew, wire = [*map(int, words[14:]), *(0, 1)[len(words) - 14 :]]
        if words[0] == "clock":
            tick = int(words[1])
        if words[0] == "send":
            sent[words[1]] = fields_of(words, wire, tick + skew)
            yield f"host{words[2].split('>')[0]}", f"packet {words[1]}", sent[words[1]]
        elif words[0] == "deliver":
            it = sent[words[1]]
            yield f"host{int(it['udp.dstport']) - 4000}", f"delivers {words[1]},", it
        elif words[0] == "recv" and words[3] != "-":
            yield f"host{words[1]}", f"from host {words[2]} ", {"udp.payload": words[3]}


def differences(trace, rows):
    """Where what was read isn't what the trace says."""
    wanted = list(frames_of(trace))
    if len(rows) != len(wanted):
        yield f"{len(rows)} frames, wanted {len(wanted)}"
    for at, (row, (host, comment, fields)) in enumerate(zip(rows, wanted)):
        if row["frame.interface_name"] != host or not row["frame.comment"].startswith(comment):
            yield f"frame {at}: {row['frame.comment']} at {row['frame.interface_name']}, wanted {comment} at {host}"
        for name in COMPARED[2:] if "homa.kind" in fields else fields:
            if row[name] != fields.get(name, ""):
                yield f"frame {at}, {comment}: {name} is {row[name][:60]!r}, wanted {fields.get(name, '')[:60]!r}"
        if row["_ws.lua.error"] or row["_ws.malformed"] or row["homa.malformed"]:
            yield f"frame {at}, {comment}: {row['_ws.lua.error']} {row['_ws.malformed']} {row['homa.malformed']}"


# ---- a trace of packets of all kinds, by a draw


def any_body(draw, kind):
    """The words behind the call, of a packet of this kind and from this role; each number at its ends as well as
    between."""

    def number(least, most):
        return draw.choice((least, most, draw.randint(least, most)))

    if kind == "DATA":
        role, size = draw.choice("cs"), number(1, 1400)
        length = number(size, 1000000)
        offset = number(0, length - size)
        acked = f"{number(1, 2**32 - 1)}.{number(0, 2**32 - 1)}" if role == "c" and draw.random() < 0.5 else "-"
        service = number(0, 255) if role == "c" else 0
        return role, [number(0, 7), length, offset, number(0, 65535), service, acked, draw.randbytes(size).hex()]
    if kind == "RESEND":
        first = number(0, 999999)
        return draw.choice("cs"), [first, number(first + 1, 1000000), number(0, 7)]
    if kind == "ACK":
        return "c", [f"{number(1, 2**32 - 1)}.{number(0, 2**32 - 1)}" for _ in range(number(0, 4))]
    bodies = {
        "GRANT": ("cs", lambda: [number(1, 1000000), number(0, 7)]),
        "CUTOFFS": ("cs", lambda: [number(0, 65535), *(number(0, 1000000) for _ in range(8))]),
        "UNKNOWN": ("s", lambda: [number(0, 1)]),
        "BUSY": ("cs", list),
        "NEED_ACK": ("s", list),
    }
    roles, body = bodies[kind]
    return draw.choice(roles), body()


def drawn_trace(seed, wire, count=160, hosts=5):
    """Packets of all kinds, of which some come, some twice, some never, with a restart; no law holds of them, but
    each is a packet."""
    draw, lines, waiting, tick = (
        random.Random(seed),
        [f"settings {hosts} 1400 10000 10000 4 14000 4 5 20 1024 256 1024 0" + (" 3 2" if wire == 2 else "")],
        [],
        0,
    )
    for number in range(count):
        kind = KINDS[number % 8]
        role, body = any_body(draw, kind)
        sender, receiver = draw.sample(range(hosts), 2)
        call = (
            f"{sender if role == 'c' else receiver}.{draw.choice((1, 2, 2**32 - 1))}.{draw.choice((0, 7, 2**32 - 1))}"
        )
        lines.append(
            " ".join(
                map(
                    str,
                    [
                        "send",
                        number,
                        f"{sender}>{receiver}",
                        draw.choice((1, 3, 2**32 - 1)),
                        kind,
                        role,
                        call,
                        *body,
                    ],
                )
            )
        )
        waiting += [number] * draw.choice((0, 1, 1, 1, 2))
        if draw.random() < 0.5 and waiting:
            lines.append(f"deliver {waiting.pop(draw.randrange(len(waiting)))}")
        if draw.random() < 0.3:
            tick += 1
            lines.append(f"clock {tick}")
        if number == count // 2:
            lines.append("restart 1 2")
    return "\n".join([*lines, f"ok {count}"]) + "\n"
