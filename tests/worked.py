"""Worked traces: small enough that what must come of them was worked out by hand; and files to hold them."""
import itertools
import subprocess
import tempfile

from testing import same

from nodes import PROGRAM, free_ports, script_of

ROOM = tempfile.TemporaryDirectory()
NAMES = itertools.count()
HEAD = "settings 2 1400 10000 10000 4 14000 4 5 20 1024 256 1024 0"
# Two hosts, a payload byte rate of 1,400 a tick. Call 0.1.0 has 2 bytes each way and takes 3 ticks; call 0.1.1 has
# 1,400 each way and takes 6; call 1.1.0 fails. Packet 4 repeats bytes that packet 2 had; packets 1, 4 and 5 never
# come.
LONG = "00" * 1400
TRACE = (
    "\n".join(
        [
            "settings 2 1400 2000 1400 4 1400 4 5 20 1024 256 1024 0",
            "call 0.1.0 1 0 6869",
            "send 0 0>1 1 DATA c 0.1.0 7 2 0 0 0 - 6869",
            "call 1.1.0 0 0 61",
            "send 1 1>0 1 DATA c 1.1.0 7 1 0 0 0 - 61",
            "clock 1",
            f"call 0.1.1 1 0 {LONG}",
            f"send 2 0>1 1 DATA c 0.1.1 6 1400 0 0 0 - {LONG}",
            "deliver 0",
            "run 1 0.1.0 0 6869 6869 0",
            "send 3 1>0 1 DATA s 0.1.0 7 2 0 0 0 - 6869",
            "clock 2",
            f"send 4 0>1 1 DATA c 0.1.1 6 1400 0 0 0 - {LONG}",
            "clock 3",
            "deliver 3",
            "done 0.1.0 6869",
            "send 5 0>1 1 RESEND c 0.1.1 0 1400 0",
            "clock 4",
            "deliver 2",
            f"run 1 0.1.1 0 {LONG} {LONG} 0",
            f"send 6 1>0 1 DATA s 0.1.1 6 1400 0 0 0 - {LONG}",
            "clock 7",
            "deliver 6",
            f"done 0.1.1 {LONG}",
            "fail 1.1.0 timeout",
            "ok 11",
        ]
    )
    + "\n"
)
# A call of two bytes between two hosts of a node, at ticks 0 and 2; a datagram that is none, and one of a host
# elsewhere; and a second call, whose request is lost, or under way at the end: it was sent a tick before, and a
# packet took two.
REQUEST = "0101000700000001000000010000000000000002000000000000000000000000000000006869"
RESPONSE = "0101010700000001000000010000000000000002000000000000000000000000000000006869"
NODE = (
    "\n".join(
        [
            HEAD.replace("settings 2", "settings 3"),
            "clock 0",
            "call 0.1.0 1 0 6869",
            "send 0 0>1 1 DATA c 0.1.0 7 2 0 0 0 - 6869",
            f"recv 1 0 {REQUEST}",
            "run 1 0.1.0 0 6869 6869 0",
            "send 1 1>0 1 DATA s 0.1.0 7 2 0 0 0 - 6869",
            "clock 2",
            f"recv 0 1 {RESPONSE}",
            "done 0.1.0 6869",
            "recv 0 1 -",
            "junk 0",
            f"recv 1 2 {REQUEST}",
            "call 0.1.1 1 0 61",
            "send 2 0>1 1 DATA c 0.1.1 7 1 0 0 0 - 61",
            "clock 3",
            "ok 3",
        ]
    )
    + "\n"
)
# Host 0 of two processes: a call to host 1, and one from there.
HALF = (
    "\n".join(
        [
            HEAD,
            "clock 0",
            "call 0.1.0 1 0 6869",
            "send 0 0>1 1 DATA c 0.1.0 7 2 0 0 0 - 6869",
            f"recv 0 1 {REQUEST}",
            "run 0 1.1.0 0 6869 6869 0",
            "send 1 0>1 1 DATA s 1.1.0 7 2 0 0 0 - 6869",
            "clock 2",
            f"recv 0 1 {RESPONSE}",
            "done 0.1.0 6869",
            "clock 9",
            "ok 12",
        ]
    )
    + "\n"
)
# Requests of 30 bytes, of which 10 need no grant: the second is granted late; the first loses its last piece, and a
# RESEND brings it.
PHASES = (
    "\n".join(
        [
            "settings 3 10 30 10 4 30 4 5 99 1024 256 1024 0",
            "call 0.1.0 2 0 *30",
            "send 0 0>2 1 DATA c 0.1.0 7 30 0 0 0 - *10",
            "clock 1",
            "call 1.1.0 2 0 *30",
            "clock 2",
            "send 1 1>2 1 DATA c 1.1.0 7 30 0 0 0 - *10",
            "deliver 0",
            "send 2 2>0 1 GRANT s 0.1.0 30 0",
            "clock 4",
            "deliver 1",
            "clock 5",
            "deliver 2",
            "send 3 0>2 1 DATA c 0.1.0 0 30 10 0 0 - *10",
            "send 4 0>2 1 DATA c 0.1.0 0 30 20 0 0 - *10",
            "clock 7",
            "deliver 3",
            "clock 12",
            "send 5 2>0 1 RESEND s 0.1.0 20 30 0",
            "deliver 5",
            "send 6 0>2 1 DATA c 0.1.0 0 30 20 0 0 - *10",
            "clock 14",
            "deliver 6",
            "run 2 0.1.0 0 *30 *2 0",
            "clock 15",
            "send 7 2>0 1 DATA s 0.1.0 7 2 0 0 0 - *2",
            "send 8 2>1 1 GRANT s 1.1.0 30 0",
            "clock 18",
            "deliver 7",
            "done 0.1.0 *2",
            "deliver 8",
            "send 9 1>2 1 DATA c 1.1.0 0 30 10 0 0 - *10",
            "clock 20",
            "restart 1 2",
            "ok 9",
        ]
    )
    + "\n"
)


def path(end=".t"):
    return f"{ROOM.name}/{next(NAMES)}{end}"


def held(text):
    name = path()
    with open(name, "w", encoding="utf-8") as it:
        it.write(text)
    return name


def two_processes(calls, size, **settings):
    """The traces of two nodes, each with one host."""
    ports, running = free_ports(2), []
    for host in (0, 1):
        lines = [f"at {5 + k} call {host} {1 - host} 0 *{size}" for k in range(calls)]
        script = held(script_of(ports, lines, here=[host], end=45 + calls + 8 * calls * size // 14000, **settings))
        with open(script, encoding="utf-8") as it:
            running.append(subprocess.Popen([PROGRAM, "node"], stdin=it, stdout=subprocess.PIPE, text=True))
    traces = [it.communicate(timeout=100)[0] for it in running]
    same([it.returncode for it in running], [0, 0])
    return traces
