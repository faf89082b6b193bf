"""Traces that the tests of the page look at: worked out by hand, of the repository, or made by the program."""
import functools
import os
import re
import subprocess
import tempfile

from simulated import BUSY, MIXED, simulated
from testing import TOP, Skipped

from nodes import PROGRAM, free_ports, knows, script_of

ROOM = tempfile.TemporaryDirectory()
# Host 0 of two, whose other host is in another process: a call there and a call from there.
REQUEST = "0101000700000001000000010000000000000002000000000000000000000000000000006869"
RESPONSE = "0101010700000001000000010000000000000002000000000000000000000000000000006869"
HALF = f"""settings 2 1400 10000 10000 4 14000 4 5 20 1024 256 1024 0
clock 0
call 0.1.0 1 0 6869
send 0 0>1 1 DATA c 0.1.0 7 2 0 0 0 - 6869
recv 0 1 {REQUEST}
run 0 1.1.0 0 6869 6869 0
send 1 0>1 1 DATA s 1.1.0 7 2 0 0 0 - 6869
clock 2
recv 0 1 {RESPONSE}
done 0.1.0 6869
clock 9
ok 12
"""
# A call of 3,000 bytes, of which 1,000 need no grant. Its middle piece is lost, and sent again at tick 7.
REPAIRED = """settings 2 1000 3000 1000 4 3000 3 5 20 1024 256 1024 0
call 0.1.0 1 0 *3000
send 0 0>1 1 DATA c 0.1.0 7 3000 0 0 0 - *1000
clock 1
deliver 0
send 1 1>0 1 GRANT s 0.1.0 3000 0
clock 2
deliver 1
send 2 0>1 1 DATA c 0.1.0 0 3000 1000 0 0 - *1000
send 3 0>1 1 DATA c 0.1.0 0 3000 2000 0 0 - *1000
clock 3
deliver 3
clock 6
send 4 1>0 1 RESEND s 0.1.0 1000 2000 0
clock 7
deliver 4
send 5 0>1 1 DATA c 0.1.0 0 3000 1000 0 0 - *1000
clock 8
deliver 5
run 1 0.1.0 0 *3000 *8 0
send 6 1>0 1 DATA s 0.1.0 7 8 0 0 0 - *8
clock 9
deliver 6
done 0.1.0 *8
ok 20
"""
# Two calls to host 1. It grants the first one all bytes by and by, and the second one nothing.
IDLE = """settings 2 1000 3000 1000 4 3000 3 5 20 1024 256 1024 0
call 0.1.0 1 0 *3000
send 0 0>1 1 DATA c 0.1.0 7 3000 0 0 0 - *1000
call 0.1.1 1 0 *2000
send 1 0>1 1 DATA c 0.1.1 7 2000 0 0 0 - *1000
clock 1
deliver 0
send 2 1>0 1 GRANT s 0.1.0 2000 0
deliver 1
clock 2
deliver 2
send 3 0>1 1 DATA c 0.1.0 0 3000 1000 0 0 - *1000
clock 5
deliver 3
send 4 1>0 1 GRANT s 0.1.0 3000 0
deliver 4
send 5 0>1 1 DATA c 0.1.0 0 3000 2000 0 0 - *1000
clock 6
deliver 5
clock 7
clock 8
send 6 1>0 1 GRANT s 0.1.1 2000 0
ok 21
"""
# A schedule in which host 2 has pages for one of two messages.
FULL = """hosts 3
pages 3
go
call 0 2 0 *9000
call 1 2 0 *9000
deliver 0
deliver 7
tick
deliver 1
deliver 8
tick 4
"""

def read(*names):
    with open(os.path.join(TOP, *names), encoding="utf-8") as it:
        return it.read()


def thinned(text):
    """A trace with long bytes as their number; datagrams stay."""
    return re.sub(
        r"(?m)^(?!recv).*", lambda line: re.sub(r"[0-9a-f]{42,}", lambda it: f"*{len(it[0]) // 2}", line[0]), text
    )


def replayed(schedule):
    return thinned(
        subprocess.run([PROGRAM, "replay"], input=schedule, capture_output=True, text=True, check=False).stdout
    )


def made(seed, calls):
    """The trace of a generated run."""
    return replayed(
        subprocess.run([PROGRAM, "make", str(seed), str(calls)], capture_output=True, text=True, check=True).stdout
    )


def network(*lines):
    """The trace of an experiment, thinned."""
    return thinned(simulated(*lines))


def node_of_two(calls, size):
    """The trace of a node with host 0, while host 1 is in another process."""
    ports, running = free_ports(2), []
    for host in (0, 1):
        lines = [f"at {5 + k} call {host} {1 - host} 0 *{size}" for k in range(calls)]
        script = os.path.join(ROOM.name, f"script{host}")
        with open(script, "w", encoding="utf-8") as it:
            it.write(script_of(ports, lines, here=[host], end=120))
        with open(script, encoding="utf-8") as it:
            running.append(subprocess.Popen([PROGRAM, "node"], stdin=it, stdout=subprocess.PIPE, text=True))
    return [it.communicate(timeout=60)[0] for it in running][0]


# By name: those that are there in any case, and those that the program makes.
KEPT = {
    "lost grant": lambda: read("docs", "pictures", "lost-grant.out"),
    "restart": lambda: read("docs", "pictures", "restart.out"),
    "first": lambda: read("crates", "homa", "stdout"),
    "elsewhere": lambda: HALF,
    "repaired": lambda: REPAIRED,
}
MADE = {
    "generated": lambda: made(7, 300),
    "usual": lambda: network(*MIXED, "hosts 8", "measure 400", "resend 60", "loss 10000", "load 400"),
    "restarts": lambda: network(*MIXED, *BUSY, "measure 60"),
    "version 2": lambda: network(*MIXED, *BUSY, "measure 60", "wire 2", "skew 3"),
    "full": lambda: replayed(FULL),
    "gaps": lambda: network(*MIXED, "hosts 3", "seg 20", "resend 20", "loss 200000", "jitter 22500", "load 50", "measure 12"),
    "two processes": lambda: node_of_two(20, 20000),
}


@functools.cache
def trace(name):
    if name in MADE and not knows("replay", PROGRAM):
        raise Skipped("there is no program")
    return (KEPT.get(name) or MADE[name])()


def names_there():
    return [*KEPT, *(MADE if knows("replay", PROGRAM) else ())]
