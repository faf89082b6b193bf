"""Rows of dev/hostile for `homa node` and `homa record`, over sockets of this machine."""
import os
import random
import shutil
import signal
import socket
import subprocess
import tempfile
import threading
import time

from nodes import LOOPBACK, PROGRAM, Flow, answers, dropped, free_ports, is_bound, memory, script_of, until

# With these the run of a script is the same each time: the clock goes on by a tick each loop turn, and no receive waits.
STEPS = {"STEP": 10000}


def smallest():
    """The smallest run of a node: a call between two of its hosts."""
    return script_of(free_ports(2), ["at 0 call 0 1 0 6869"], end=12).encode()


def calls_at(host, server, count, every=1, start=10, size=100):
    """So many calls from a host, each with a request of its own."""
    return [f"at {start + k * every} call {host} {server} 0 {request_of(k, size)}" for k in range(count)]


def request_of(k, size):
    return (k.to_bytes(4, "big") * (size // 4 + 1))[:size].hex()


class Live:
    """A process of `homa node` that runs, with what it prints. Its script is a file: a node reads as it goes, so a long one would fill a pipe."""

    def __init__(self, script):
        with tempfile.TemporaryFile() as given:
            given.write(script.encode())
            given.seek(0)
            self.process = subprocess.Popen([PROGRAM, "node"], stdin=given, stdout=subprocess.PIPE)
        self.told = b""
        self.reader = threading.Thread(target=self.read, daemon=True)
        self.reader.start()

    def __enter__(self):
        return self

    def __exit__(self, *_):
        self.kill()

    def kill(self):
        self.process.kill()
        self.end()

    def read(self):
        while part := os.read(self.process.stdout.fileno(), 1 << 20):
            self.told += part

    def end(self):
        self.reader.join()
        return self.process.wait()

    def lines(self):
        return self.told.decode().splitlines()

    def verdict(self):
        """What `check` says of the lines."""
        return subprocess.run([PROGRAM, "check"], input=self.told, capture_output=True).stdout.decode().strip()


def echoed(lines, client, count):
    """How many calls of a host ran once and are done with their own bytes."""
    calls, done = answers(lines)
    own = [id for id in calls if id.startswith(f"{client}.")]
    runs = [line.split(" ")[2] for line in lines if line.startswith("run ")]
    return sum(done.get(id) == calls[id][2] and runs.count(id) == 1 for id in own) if len(own) == count else 0


# ---- rows: each yields whether it held, what was tried, and some of them a figure


def failing_nets(faults, chosen):
    """Each call of the net fails in turn, and that one with all behind it: status 6, and a front of the whole run; one beyond the last isn't met."""
    for word in chosen.words:
        given = smallest()
        (*_, nets), whole = faults.count([word], given, **STEPS)
        for k in range(1, nets + 1):
            for more in ({}, {"FROM": 1}):
                got = faults.run([word], given, FAIL_NET=k, **more, **STEPS)
                yield got.returncode == 6 and whole.stdout.startswith(got.stdout), f"{word} FAIL_NET {k} {more}: status {got.returncode}"
        got = faults.run([word], given, FAIL_NET=nets + 1, **STEPS)
        yield nets > 0 and (got.returncode, got.stdout) == (0, whole.stdout), f"{word} FAIL_NET {nets + 1}, which isn't met"


def taken_ports(faults, chosen):
    """A port that another socket has, and one that an ordinary user may not have: status 6, and nothing printed."""
    least = least_port()
    said = [] if least > 1023 else [f"port 1023 isn't tried: an ordinary user may have the ports from {least} on"]
    for word in chosen.words:
        with socket.socket(socket.AF_INET, socket.SOCK_DGRAM) as taken:
            taken.bind((LOOPBACK, 0))
            (free,) = free_ports(1)
            got = subprocess.run([PROGRAM, word], input=script_of([free, taken.getsockname()[1]]).encode(), capture_output=True)
        yield (got.returncode, got.stdout) == (6, b""), f"{word} at a port in use: status {got.returncode}", *said
        if not said:
            got = as_ordinary(word, script_of([free, 1023]))
            yield (got.returncode, got.stdout) == (6, b""), f"{word} at port 1023 as an ordinary user: status {got.returncode}"


def least_port():
    """The least port that an ordinary user may have."""
    name = "/proc/sys/net/ipv4/ip_unprivileged_port_start"
    if not os.path.exists(name):
        return 1024
    with open(name) as it:
        return int(it.read())


def as_ordinary(word, script):
    """The run of a script as a user who isn't root: of a copy of the program, since that user may not see the folder that it stands in."""
    how = {"user": 65534, "group": 65534, "extra_groups": []} if os.getuid() == 0 else {}
    with tempfile.TemporaryDirectory() as folder:
        os.chmod(folder, 0o711)
        copy = shutil.copy(PROGRAM, folder)
        os.chmod(copy, 0o755)
        return subprocess.run([copy, word], input=script.encode(), capture_output=True, **how)


def long_datagrams(faults, chosen):
    """Datagrams of 1,501 and of 65,507 bytes from a host elsewhere come as their first 1,500 bytes and are junk."""
    ports = free_ports(3)
    with socket.socket(socket.AF_INET, socket.SOCK_DGRAM) as other:
        other.bind((LOOPBACK, ports[2]))
        live = Live(script_of(ports, calls_at(0, 1, 20), here=[0, 1], end=500))
        until(lambda: is_bound(ports[0]))
        for size in (1500, 1501, 65507):
            other.sendto(bytes(k % 251 for k in range(size)), (LOOPBACK, ports[0]))
        status = live.end()
    lines = live.lines()
    came = [k for k, line in enumerate(lines) if line.startswith("recv 0 2 ")]
    first = bytes(k % 251 for k in range(1500)).hex()
    yield len(came) == 3 and all(lines[k] == f"recv 0 2 {first}" and lines[k + 1] == "junk 0" for k in came), f"{len(came)} of 3 long datagrams came"
    yield status == 0 and echoed(lines, 0, 20) == 20, f"calls beside long datagrams: status {status}, {echoed(lines, 0, 20)} of 20 done"


def many_hosts(faults, chosen):
    """32 local hosts, with settings for the length of their loop turn: no datagram comes later than `life`."""
    made = [f"at {k} call {k % 32} {(k + 7) % 32} 2 *{1 + 50 * k}" for k in range(64)]
    for settings in ({"resend": 200, "life": 5000}, {"resend": 200, "life": 5000, "wire": 2}):
        live = Live(script_of(free_ports(32), made, end=600, **settings))
        status, lines = live.end(), live.lines()
        flow = Flow(lines, settings.get("wire", 1))
        calls, done = answers(lines)
        right = sum(bytes.fromhex(calls[id][2])[::-1].hex() == done[id] for id in done)
        yield status == 0 and lines[-1].startswith("ok ") and right == 64, f"32 hosts: status {status}, {right} of 64 calls done"
        oldest, turns = max((5001 if it is None else it for it in flow.ages), default=5001), int(lines[-1].split()[1])
        figure = f"{600 / turns:.0f} ticks a loop turn, oldest datagram {oldest}"
        yield oldest <= 5000, f"32 hosts: a datagram that came {oldest} ticks after it was sent", figure
        verdict = live.verdict()
        yield verdict == f"yes {len(lines)}", f"32 hosts: {verdict}"


def stopped_nodes(faults, chosen):
    """A node that is stopped or ended by a signal, input that is late or cut, and output or input that can't be had."""
    yield stopped()
    yield ended()
    yield late_input(), "a script whose second call comes late"
    script = script_of(free_ports(2), calls_at(0, 1, 50), end=120)
    got = subprocess.run([PROGRAM, "node"], input=script.rstrip().rpartition(" ")[0].encode(), capture_output=True)
    yield got.returncode == 2 and got.stdout.endswith(b"\nrefused 56 Missing\n"), f"a script that is cut in its last line: status {got.returncode}"
    for word in chosen.words:
        it = subprocess.Popen([PROGRAM, word], stdin=subprocess.PIPE, stdout=subprocess.PIPE)
        it.stdout.close()
        it.stdin.write(script.encode())
        it.stdin.close()
        yield it.wait() == 4, f"{word} to a closed pipe: status {it.returncode}"
        with open("/dev/full", "wb") as full:
            got = subprocess.run([PROGRAM, word], input=script.encode(), stdout=full)
        yield got.returncode == 4, f"{word} to a full disk: status {got.returncode}"
        folder = os.open("/", os.O_RDONLY)
        got = subprocess.run([PROGRAM, word], stdin=folder, capture_output=True)
        os.close(folder)
        yield (got.returncode, got.stdout) == (3, b""), f"{word} with a folder as input: status {got.returncode}"


def stopped():
    """SIGSTOP for 100 ms and SIGCONT, five times: the clock jumps, and the run goes on."""
    live = Live(script_of(free_ports(2), calls_at(0, 1, 50), end=400, life=1000))
    for _ in range(5):
        time.sleep(0.1)
        live.process.send_signal(signal.SIGSTOP)
        time.sleep(0.1)
        live.process.send_signal(signal.SIGCONT)
    status, done, said = live.end(), echoed(live.lines(), 0, 50), live.verdict()
    return status == 0 and done == 50 and said.startswith("yes "), f"stopped and continued: status {status}, {done} of 50 calls done, check says {said}"


def ended():
    """SIGTERM in the midst of a run: what was printed are whole lines, to which `check` says yes."""
    live = Live(script_of(free_ports(2), calls_at(0, 1, 50), end=3000, life=1000))
    is_running = until(lambda: b"\ndone " in live.told)
    live.process.send_signal(signal.SIGTERM)
    status, said = live.end(), live.verdict()
    is_right = is_running and status == -signal.SIGTERM and live.told.endswith(b"\n") and said.startswith("yes ")
    return is_right, f"SIGTERM: status {status}, check says {said}"


def late_input():
    """A node waits for its next line, and goes on when that comes: the clock has jumped, and both calls are done."""
    first, second = script_of(free_ports(2), ["at 0 call 0 1 0 6869", "at 1 call 0 1 0 6a6b"], end=300).rsplit("at ", 1)
    it = subprocess.Popen([PROGRAM, "node"], stdin=subprocess.PIPE, stdout=subprocess.PIPE, text=True)
    it.stdin.write(first)
    it.stdin.flush()
    time.sleep(0.2)
    it.stdin.write(f"at {second}")
    it.stdin.close()
    lines = it.stdout.read().splitlines()
    return it.wait() == 0 and "done 0.1.0 6869" in lines and "done 0.1.1 6a6b" in lines


class Sending(threading.Thread):
    """A thread that sends datagrams while a block of code runs, however that ends."""

    def __init__(self):
        super().__init__(daemon=True)
        self.sent, self.is_over = 0, False

    def __enter__(self):
        self.start()
        return self

    def __exit__(self, *_):
        self.is_over = True
        self.join()


class Flood(Sending):
    """Sends datagrams to the local hosts of a node, from a host elsewhere and from a socket that no script names."""

    def __init__(self, ports, draw, a_second, changed):
        super().__init__()
        self.ports, self.draw, self.a_second, self.changed = ports, draw, a_second, changed

    def datagram(self):
        """Random bytes, a changed packet, or one that speaks of a call under way."""
        how = self.draw.random()
        if how < 0.3:
            return self.draw.randbytes(self.draw.randrange(1501))
        data = self.changed(self.draw)
        if how > 0.6 and len(data) >= 16:
            data = data[:12] + self.draw.randrange(1000).to_bytes(4, "big") + data[16:]
        return data

    def run(self):
        elsewhere, unknown = (socket.socket(socket.AF_INET, socket.SOCK_DGRAM) for _ in range(2))
        elsewhere.bind((LOOPBACK, self.ports[2]))
        unknown.bind((LOOPBACK, 0))
        ready = [self.datagram() for _ in range(2000)]
        begun = time.monotonic()
        while not self.is_over:
            due = int((time.monotonic() - begun) * self.a_second)
            while self.sent < due and not self.is_over:
                self.draw.choice((elsewhere, unknown)).sendto(self.draw.choice(ready), (LOOPBACK, self.draw.choice(self.ports[:2])))
                self.sent += 1
            time.sleep(0.002)
        elsewhere.close()
        unknown.close()


class Trickle(Sending):
    """Sends a byte to a port so many times a second, one by one, from a port (0: any)."""

    def __init__(self, port, to, a_second):
        super().__init__()
        self.port, self.to, self.a_second = port, to, a_second

    def run(self):
        with socket.socket(socket.AF_INET, socket.SOCK_DGRAM) as it:
            it.bind((LOOPBACK, self.port))
            begun = time.monotonic()
            while self.a_second and not self.is_over:
                it.sendto(b"x", (LOOPBACK, self.to))
                self.sent += 1
                time.sleep(max(0.0, begun + self.sent / self.a_second - time.monotonic()))


def trickles(faults, chosen):
    """Datagrams that come one by one, 400 a second of a socket that no script names and 20 of a host elsewhere: loop turns stay short, of ten ticks in
    the mean at most. The longest one is a figure alone, since the machine may stand still for as long."""
    for known, unknown in ((250, 0), (0, 250), (20, 400)):
        ports = free_ports(3)
        live = Live(script_of(ports, calls_at(0, 1, 60, every=5), here=[0, 1], end=700, resend=50, life=1000))
        until(lambda: is_bound(ports[1]))
        with Trickle(ports[2], ports[0], known), Trickle(0, ports[0], unknown):
            status = live.end()
        lines, done = live.lines(), echoed(live.lines(), 0, 60)
        turns, took = int(lines[-1].split()[1]) if status == 0 else 0, waits(lines)
        what = (f"{known} a second of a host elsewhere, {unknown} of a stranger: status {status}, {done} of 60 calls done, {turns} loop turns, "
                f"the longest of {longest_turn(lines)} ticks")
        yield status == 0 and done == 60 and turns >= 70, what, f"{what}, calls took at most {took[-1] if took else '-'}"


def longest_turn(lines):
    """By how many ticks the clock of a node went on at most from one loop turn to the next."""
    clock = [int(line.split()[1]) for line in lines if line.startswith("clock ")]
    return max((b - a for a, b in zip(clock, clock[1:])), default=0)


def waits(lines):
    """Of the calls that are done how many ticks each took."""
    tick, begun, took = 0, {}, []
    for line in lines:
        words = line.split(" ", 2)
        if words[0] == "clock":
            tick = int(words[1])
        elif words[0] == "call":
            begun[words[1]] = tick
        elif words[0] == "done":
            took.append(tick - begun[words[1]])
    return sorted(took)


def sizes_of(process, seconds):
    """The memory of a process, five times a second, for so many seconds or until it ends: what it has asked for, and what is resident."""
    last = time.monotonic() + seconds
    while time.monotonic() < last:
        time.sleep(0.2)
        try:
            yield memory(process, "VmData"), memory(process)
        except (FileNotFoundError, StopIteration, ProcessLookupError):
            return


class Flooded:
    """The run of a node with two hosts, for so many seconds under foreign datagrams, and for ten more without them.

    It has the status, the lines, the memory under them, and how many datagrams the system dropped, as a socket's buffer was full."""

    def __init__(self, chosen, a_second, seconds, count):
        ports = free_ports(3)
        script = script_of(ports, calls_at(0, 1, count, every=5), here=[0, 1], end=int(seconds * 100) + 1000, resend=50, life=1000)
        with Live(script) as live:
            until(lambda: is_bound(ports[1]))
            with Flood(ports, random.Random(chosen.seed), a_second, chosen.changed) as flood:
                self.sizes = list(sizes_of(live.process, seconds))
            self.dropped = dropped(ports[:2])
            self.status = live.end()
        self.sent, self.lines = flood.sent, live.lines()

    def figure(self, right, count):
        first, took = [line.split(" ")[0] for line in self.lines], waits(self.lines)
        came = sum(line.startswith(("recv 0 2 ", "recv 1 2 ")) for line in self.lines)
        early, late = self.sizes[len(self.sizes) // 4][1], self.sizes[-2][1]
        return (f"{self.sent:,} foreign datagrams, {came:,} of a host elsewhere came, {first.count('junk'):,} junk, {self.dropped:,} dropped by the system: "
                f"{right} of {count} calls done in {took[len(took) // 2]} ticks, at most {took[-1]}; {early:,} KB resident at a quarter, {late:,} at the end")


def foreign_datagrams(faults, chosen):
    """A live node under foreign datagrams: each call runs once and is done with its own bytes, within its client's patience. Where the system dropped
    datagrams, since the node had too little of the processor, one may fail, and take longer: a client that hears of its server is patient anew. No memory
    is asked for behind the flood's first quarter (what was asked for at the opening is first written when it is used)."""
    seconds = min(60.0, max(4.0, chosen.minutes * 6))
    for a_second in (0, 200, 1000, 5000):
        count = int(seconds * 20)
        ran = Flooded(chosen, a_second, seconds, count)
        right, took, sizes = echoed(ran.lines, 0, count), waits(ran.lines), ran.sizes
        if not took or len(sizes) <= 8:
            yield False, f"{a_second} a second: status {ran.status}, {right} of {count} calls"
            continue
        timeouts = sum(line.startswith("fail 0.") and line.endswith(" timeout") for line in ran.lines)
        what = f"{a_second} a second: status {ran.status}, {right} of {count} calls, {timeouts} failed, {ran.dropped} datagrams dropped"
        for k in range(count):
            yield k < right or ran.dropped > 0 and k < right + timeouts, what
        yield ran.status == 0, what, ran.figure(right, count)
        # A call asks once in each of six turns that come when its patience is over or later, so it lasts that much longer where turns are late.
        most = 300 + 6 * longest_turn(ran.lines)
        yield ran.dropped > 0 or took[-1] <= most, f"{a_second} a second: a call took {took[-1]} ticks, which is beyond a client's patience of {most}"
        yield sizes[-2][0] == sizes[len(sizes) // 4][0], f"{a_second} a second: memory went from {sizes[len(sizes) // 4]} to {sizes[-2]} KB"
