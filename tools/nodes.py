"""What the tools share of nodes: scripts, ports, processes on loopback, and the datagrams that their traces tell of."""
import os
import socket
import subprocess
import sys
import time

from homatrace import Packet
from running import stop

TOP = os.path.dirname(os.path.dirname(os.path.abspath(__file__)))
PROGRAM = os.environ.get("HOMA", os.path.join(TOP, "crates", "homa", "out", "homa"))
LOOPBACK = "127.0.0.1"


def program():
    """The program that runs here: the one that HOMA names, or the one that `./homa` runs, built first if there is none."""
    if "HOMA" in os.environ:
        return PROGRAM
    it = subprocess.run([os.path.join(TOP, "homa"), "--which"], stdin=subprocess.DEVNULL, stdout=subprocess.PIPE, text=True)
    return it.stdout.strip() if it.returncode == 0 else PROGRAM


def name_program():
    """Begins this process again with HOMA set to the program that runs here, for the modules that read it."""
    if "HOMA" not in os.environ:
        os.environ["HOMA"] = program()
        os.execv(sys.executable, [sys.executable, *sys.argv])


def knows(word, program=PROGRAM):
    """Whether the program is there and has this command; one that hasn't says its usage, with status 1."""
    return os.path.exists(program) and subprocess.run([program, word], input=b"", capture_output=True).returncode != 1


def need(tool, word, program):
    """Ends the tool if the program isn't there, or hasn't this command."""
    if not os.path.exists(program):
        stop(tool, f"{program}: there is no such program", 127)
    if not knows(word, program):
        stop(tool, f"{program}: it has no command `{word}`")


def free_ports(count):
    """So many ports of this machine that nobody has bound."""
    sockets = [socket.socket(socket.AF_INET, socket.SOCK_DGRAM) for _ in range(count)]
    try:
        for it in sockets:
            it.bind((LOOPBACK, 0))
        return [it.getsockname()[1] for it in sockets]
    finally:
        for it in sockets:
            it.close()


def script_of(ports, lines=(), here=None, end=20, turns=1000000, inc=1, **settings):
    """A node script: a host at each port, those of `here` (all, where it isn't said) local, and these lines behind `go`."""
    settings = {"hosts": len(ports), **settings}
    head = [f"{name} {value}" for name, value in settings.items()]
    for host, port in enumerate(ports):
        head.append(f"local {host} {inc} {port}" if here is None or host in here else f"remote {host} {port}")
    return "\n".join([*head, f"end {end}", f"turns {turns}", "go", *lines]) + "\n"


def is_bound(port):
    """Whether somebody has bound this port, as the system's table says: trying it would keep a node from it."""
    with open("/proc/net/udp") as it:
        return any(line.split()[1].endswith(f":{port:04X}") for line in it.readlines()[1:])


def dropped(ports):
    """How many datagrams for these ports the system dropped, as their sockets' buffers were full: the last column of its table."""
    with open("/proc/net/udp") as it:
        rows = [line.split() for line in it.readlines()[1:]]
    return sum(int(row[-1]) for row in rows if int(row[1].rpartition(":")[2], 16) in ports)


def until(is_so, seconds=10, step=0.002):
    """Waits until something is so; whether it was in time."""
    last = time.monotonic() + seconds
    while not is_so():
        if time.monotonic() > last:
            return False
        time.sleep(step)
    return True


def memory(process, kind="VmRSS"):
    """The memory of a running process in kilobytes: what is resident, or `VmData`, what it has asked for, used or not."""
    with open(f"/proc/{process.pid}/status") as it:
        return int(next(line for line in it if line.startswith(f"{kind}:")).split()[1])


def flight_in(words):
    """The sender, the receiver and the bytes that a `recv` line has."""
    return int(words[2]), int(words[1]), b"" if words[3] == "-" else bytes.fromhex(words[3])


class Flow:
    """What a trace tells of datagrams: those that were sent, and of each that came how many ticks before it was sent."""

    def __init__(self, lines, wire=1, skew=0):
        self.sent, self.came, self.ages = [], [], []
        tick, last_sent = 0, {}
        for line in lines:
            words = line.split(" ")
            if words[0] == "clock":
                tick = int(words[1])
            elif words[0] == "send":
                datagram = Packet(words, tick).flight(wire, skew)
                self.sent.append(datagram)
                last_sent[datagram] = tick
            elif words[0] == "recv":
                datagram = flight_in(words)
                self.came.append(datagram)
                self.ages.append(tick - last_sent[datagram] if datagram in last_sent else None)


def answers(lines):
    """Of a trace the calls with their server, service and request, and the responses of those that are done."""
    calls, done = {}, {}
    for line in lines:
        words = line.split(" ")
        if words[0] == "call":
            calls[words[1]] = (int(words[2]), int(words[3]), words[4])
        elif words[0] == "done":
            done[words[1]] = words[2]
    return calls, done
