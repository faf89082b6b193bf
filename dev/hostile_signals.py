"""Rows of dev/hostile for what stands around the program: signals, pipes, disks, files that are none, terminals, limits and words."""
import os
import pty
import resource
import signal
import subprocess
import tempfile
import time

from hostile_inputs import homa
from nodes import PROGRAM

SMALLEST = b"go\ncall 0 1 0 6869\ndeliver 0\ndeliver 1\n"
USAGE = b"usage: homa replay | make SEED CALLS | gen SEED CALLS | node | record | check | quiet N M\n"


def commands():
    """Each command but the nodes', and its input."""
    trace = homa(["replay"], SMALLEST).stdout
    return ((["replay"], SMALLEST), (["check"], trace), (["make", "7", "3"], b""), (["gen", "7", "3"], b""), (["quiet", "2", "2"], b""), ([], b""))


def limit(kind, most):
    """What sets a limit of the system in a process before its program starts."""
    return lambda: resource.setrlimit(kind, (most, most))


def closed_pipes():
    """The reader of a pipe is gone: status 4, whatever SIGPIPE would do; and of a long output what was read is a front."""
    for words, given in commands():
        lead, end = os.pipe()
        os.close(lead)
        got = subprocess.run([PROGRAM, *words], input=given, stdout=end)
        os.close(end)
        yield got.returncode == 4, f"{words} to a closed pipe: status {got.returncode}"
    whole = homa(["make", "7", "1000"]).stdout
    it = subprocess.Popen([PROGRAM, "make", "7", "1000"], stdout=subprocess.PIPE)
    told = it.stdout.read(5000)
    it.stdout.close()
    yield it.wait() == 4 and whole.startswith(told) and len(told) == 5000, f"a pipe that is closed while it is written to: status {it.returncode}"


def full_disks():
    """A disk without room: status 4. With room for 64 KB, and a file of at most 10,000 bytes: these, and then 4, or the system's signal."""
    for words, given in commands():
        with open("/dev/full", "wb") as full:
            got = subprocess.run([PROGRAM, *words], input=given, stdout=full)
        yield got.returncode == 4, f"{words} to a full disk: status {got.returncode}"
    whole = homa(["make", "7", "1000"]).stdout
    if os.getuid() == 0 and subprocess.run(["unshare", "-m", "true"], capture_output=True).returncode == 0:
        with tempfile.TemporaryDirectory() as folder:
            line = f"mount -t tmpfs -o size=64k none {folder} && {PROGRAM} make 7 1000 > {folder}/out; status=$?; cat {folder}/out; exit $status"
            got = subprocess.run(["unshare", "-m", "sh", "-c", line], capture_output=True)
        yield (got.returncode, got.stdout) == (4, whole[:65536]), f"a disk with 64 KB left: status {got.returncode}, {len(got.stdout)} bytes"
    for ignores, status in ((True, 4), (False, -signal.SIGXFSZ)):
        with tempfile.TemporaryFile() as out:
            got = subprocess.run([PROGRAM, "make", "7", "1000"], stdout=out, restore_signals=not ignores, preexec_fn=limit(resource.RLIMIT_FSIZE, 10000))
            out.seek(0)
            yield got.returncode == status and out.read() == whole[:10000], f"a file of at most 10,000 bytes: status {got.returncode}"


def as_usual():
    """Sets back the signals that a process in the background, or under nohup, is started without; it is called in it before its program starts."""
    for number in (signal.SIGINT, signal.SIGHUP):
        signal.signal(number, signal.SIG_DFL)


def sent_signals():
    """A signal ends a replay that waits for input: its number is the status, and what was printed are the lines up to there. Stopped and
    continued, it goes on."""
    whole = homa(["replay"], SMALLEST).stdout
    for number in (signal.SIGTERM, signal.SIGINT, signal.SIGHUP, signal.SIGKILL):
        it = subprocess.Popen([PROGRAM, "replay"], stdin=subprocess.PIPE, stdout=subprocess.PIPE, preexec_fn=as_usual)
        it.stdin.write(SMALLEST)
        it.stdin.flush()
        told = b"".join(it.stdout.readline() for _ in range(whole.count(b"\n") - 1))
        it.send_signal(number)
        told += it.communicate()[0]
        yield it.returncode == -number and told == whole[: whole.index(b"ok ")], f"{number.name}: status {it.returncode}, {len(told)} bytes"
    it = subprocess.Popen([PROGRAM, "replay"], stdin=subprocess.PIPE, stdout=subprocess.PIPE)
    for part in (SMALLEST[:10], SMALLEST[10:30], SMALLEST[30:]):
        it.send_signal(signal.SIGSTOP)
        it.send_signal(signal.SIGCONT)
        it.stdin.write(part)
        it.stdin.flush()
        time.sleep(0.05)
    told, _ = it.communicate()
    yield (it.returncode, told) == (0, whole), f"stopped and continued: status {it.returncode}"


def odd_inputs():
    """Inputs and outputs that are none: a folder, an input that is closed, or open for writing, or doesn't wait; an output that is closed."""
    folder = os.open("/", os.O_RDONLY)
    ready, late = os.pipe()
    os.set_blocking(ready, False)
    with open(os.devnull, "wb") as given:
        for what, words, how, wanted in (
            ("a folder as input", ["replay"], {"stdin": folder}, (3, b"")),
            ("a folder as input of check", ["check"], {"stdin": folder}, (3, b"")),
            ("an input that is open for writing", ["replay"], {"stdin": given}, (3, b"")),
            ("an empty input that doesn't wait", ["replay"], {"stdin": ready}, (3, b"")),
            ("an input that is closed", ["replay"], {"preexec_fn": lambda: os.close(0)}, (3, b"")),
            ("no input at all", ["replay"], {"stdin": subprocess.DEVNULL}, (2, b"refused 1 NoGo\n")),
            ("no input of check", ["check"], {"stdin": subprocess.DEVNULL}, (2, b"no 1 shape\n")),
        ):
            got = subprocess.run([PROGRAM, *words], stdout=subprocess.PIPE, **how)
            yield (got.returncode, got.stdout) == wanted, f"{what}: status {got.returncode}, {got.stdout[:80]}"
        for what, how in (("closed", {"preexec_fn": lambda: os.close(1)}), ("open for reading", {"stdout": folder})):
            got = subprocess.run([PROGRAM, "quiet", "2", "2"], **how)
            yield got.returncode == 4, f"an output that is {what}: status {got.returncode}"
    for it in (folder, ready, late):
        os.close(it)


def terminal(given, wanted):
    """A replay of what is typed at a terminal: its status and output."""
    lead, end = pty.openpty()
    it = subprocess.Popen([PROGRAM, "replay"], stdin=end, stdout=subprocess.PIPE)
    os.close(end)
    told = b""
    for part in given:
        os.write(lead, part)
        time.sleep(0.05)
    told, _ = it.communicate(timeout=60)
    os.close(lead)
    return (it.returncode, told) == wanted


def typed():
    """A schedule typed at a terminal, ended by Ctrl-D; in parts; its last line without a line feed, which takes two; a terminal that goes away."""
    whole = (0, homa(["replay"], SMALLEST).stdout)
    yield terminal([SMALLEST + b"\x04"], whole), "a terminal, and Ctrl-D"
    yield terminal([SMALLEST[:7], SMALLEST[7:25], SMALLEST[25:], b"\x04"], whole), "a terminal, in parts"
    yield terminal([SMALLEST[:-1], b"\x04", b"\x04", b"\x04"], whole), "a terminal, and Ctrl-D behind a line without a line feed"
    lead, end = pty.openpty()
    it = subprocess.Popen([PROGRAM, "replay"], stdin=end, stdout=subprocess.PIPE)
    os.close(end)
    os.write(lead, SMALLEST)
    told = b"".join(it.stdout.readline() for _ in range(whole[1].count(b"\n") - 1))
    os.close(lead)
    told += it.communicate(timeout=60)[0]
    # The system answers the read that waits by an error, and the next one, where none waits, as the input's end.
    front = whole[1][: whole[1].index(b"ok ")]
    yield (it.returncode, told) in ((3, front), whole), f"a terminal that goes away: status {it.returncode}"


def limits():
    """Little stack, little memory, and few open files: what fits runs, and else memory is what is missing."""
    for words, given in commands():
        whole = homa(words, given)
        got = homa(words, given, preexec_fn=limit(resource.RLIMIT_STACK, 256 << 10))
        yield (got.returncode, got.stdout) == (whole.returncode, whole.stdout), f"{words} with a stack of 256 KB: status {got.returncode}"
    made = homa(["make", "7", "300"]).stdout
    whole = homa(["replay"], made).stdout
    for size in range(6, 40, 4):
        got = homa(["replay"], made, preexec_fn=limit(resource.RLIMIT_AS, size << 20))
        is_right = got.stdout == whole if got.returncode == 0 else got.returncode == 5 and whole.startswith(got.stdout)
        yield is_right, f"a replay in {size} MB: status {got.returncode}"


def odd_words():
    """Words that are no command: the usage, and status 1."""
    for words in ([b"\xff\xfe"], [b"quiet", b"2", b"\xff"], [b""], [b"replay", b""], [b"x" * 100000], [b"quiet", b"2", b"2"] * 10000, [b"REPLAY"],
                  [b"quiet", b"+2", b"2"], [b"quiet", b"2 ", b"2"]):
        got = subprocess.run([os.fsencode(PROGRAM), *words], stdin=subprocess.DEVNULL, capture_output=True)
        yield (got.returncode, got.stdout) == (1, USAGE), f"words {words[:3]}: status {got.returncode}"


def outside(faults, chosen):
    for row in (closed_pipes, full_disks, sent_signals, odd_inputs, typed, limits, odd_words):
        yield from row()
