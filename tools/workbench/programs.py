"""Runs of `homa` and `homa-simulate`, each with bounds on time, memory and output. Nothing else is run, but
tools/explain on a line that was refused."""
import contextlib
import functools
import os
import re
import resource
import signal
import subprocess
import sys
import tempfile
import threading
import time
from typing import NamedTuple

TOOLS = os.path.dirname(os.path.dirname(os.path.abspath(__file__)))
TOP = os.path.dirname(TOOLS)
LONG = re.compile(rb"(?<= )[0-9a-f]{42,}(?=[ \n]|$)")
EXPLAINED = 20  # seconds that an explanation may take
SAID = 2000  # bytes of what a program says on standard error


class Bounds(NamedTuple):
    """What a run may take: seconds, by the clock and of processor time; bytes of memory; bytes that are kept."""

    seconds: int = 120
    memory: int = 2 << 30
    output: int = 64 << 20


@functools.cache
def program(name, variable):
    """Where a program is: what a variable of the environment names, or the one that the script at the project's top
    runs, which may build it first; None if there is none."""
    path = os.environ.get(variable) or os.path.join(TOP, name)
    if not (os.path.isfile(path) and os.access(path, os.X_OK)):
        return None
    if variable in os.environ:
        return path
    found = subprocess.run([path, "--which"], stdin=subprocess.DEVNULL, stdout=subprocess.PIPE, text=True, check=False)
    return found.stdout.strip() if found.returncode == 0 else None


def commands():
    """What can be run of each kind of text: programs with their words; each reads what the one before printed."""
    homa, simulate = program("homa", "HOMA"), program("homa-simulate", "HOMA_SIMULATE")
    found = {}
    if homa:
        found["schedule"] = [[homa, "replay"]]
    if simulate:
        found["experiment"] = [[simulate, "--progress", "figures"]]
        found["experiment-summary"] = [[simulate, "--progress", "summary"]]
    if simulate and homa:
        found["experiment-trace"] = [[simulate, "--progress", "schedule"], [homa, "replay"]]
    return found


def thinned(line):
    """A line of a trace with long bytes as their number; of datagrams the bytes are kept."""
    return line if line.startswith(b"recv") else LONG.sub(lambda it: b"*%d" % (len(it[0]) // 2), line)


class Run:
    """A text that is run, in a thread of its own. `state` is `running`, `done`, `refused`, `failed`, `ended` (as it was
    asked for) or `stopped` (by a bound)."""

    def __init__(self, kind, text, words, bounds=Bounds()):
        self.kind, self.text, self.words, self.bounds = kind, text, words, bounds
        self.state, self.why, self.line, self.status = "running", "", None, None
        self.output, self.size, self.lines, self.tick, self.begun = [], 0, 0, 0, time.monotonic()
        self.seconds, self.lock, self.processes, self.said = 0.0, threading.Lock(), [], tempfile.TemporaryFile()
        self.thread = threading.Thread(target=self.work, daemon=True)
        self.thread.start()

    def limit(self, process):
        """Bounds a program that was just begun. (Between fork and exec Python would run signal handlers of its own.)"""
        limits = {
            resource.RLIMIT_CPU: self.bounds.seconds,
            resource.RLIMIT_AS: self.bounds.memory,
            resource.RLIMIT_CORE: 0,
        }
        with contextlib.suppress(ProcessLookupError):
            for kind, most in limits.items():
                resource.prlimit(process.pid, kind, (most, most))

    def work(self):
        with tempfile.TemporaryFile() as given:
            given.write(self.text.encode())
            given.seek(0)
            why = f"it took longer than {self.bounds.seconds} seconds"
            timer = threading.Timer(self.bounds.seconds, self.stop, ["stopped", why])
            timer.start()
            try:
                self.begin(given)
                self.read(self.processes[-1].stdout)
                self.status = [it.wait() for it in self.processes][-1]
            except OSError as fault:
                self.stop("failed", fault.strerror)
            finally:
                timer.cancel()
            self.judge(self.said_so_far())

    def said_so_far(self):
        """The end of what the programs said on standard error."""
        size = os.fstat(self.said.fileno()).st_size
        text = os.pread(self.said.fileno(), SAID, max(0, size - SAID)).decode(errors="replace")
        return text.replace("\r", "\n").strip()

    def begin(self, given):
        source = given
        for words in self.words:
            with self.lock:
                if self.state != "running":
                    raise OSError(0, "it was ended")
                self.processes.append(
                    subprocess.Popen(
                        words,
                        stdin=source,
                        stdout=subprocess.PIPE,
                        stderr=self.said,
                        start_new_session=True,
                        cwd=TOP,
                    )
                )
                self.limit(self.processes[-1])
            if source is not given:
                source.close()  # the next program has it
            source = self.processes[-1].stdout

    def read(self, source):
        """Keeps what is printed, with the bytes of traces as their number."""
        for line in source:
            line = thinned(line)
            self.lines += 1
            self.size += len(line)
            if line.startswith(b"clock "):
                self.tick = int(line[6:])
            self.output.append(line)
            if self.size > self.bounds.output:
                self.stop("stopped", f"it printed more than {self.bounds.output >> 20} MB")
                return

    def stop(self, state, why):
        """Ends the programs, by their own groups; the first reason holds."""
        with self.lock:
            if self.state == "running":
                self.state, self.why = state, why
            for it in self.processes:
                # `poll` says nothing while another thread waits for the process, which may be gone by now
                if it.poll() is None:
                    with contextlib.suppress(ProcessLookupError):
                        os.killpg(it.pid, signal.SIGKILL)

    def judge(self, said):
        """Sets what came of it, unless it was ended."""
        seconds = time.monotonic() - self.begun
        verdict = self.verdict(said) if self.state == "running" else None
        with self.lock:
            self.seconds = seconds
            if self.state == "running" and verdict:
                self.why, self.line, self.state = *verdict[1:], verdict[0]

    def verdict(self, said):
        """What came of it, by its status, its last line and what it said: the state, why, the line that was refused."""
        last = self.output[-1].decode(errors="replace").strip() if self.output else ""
        if self.kind.startswith("experiment") and self.status == 2:
            found = re.search(r"line (\d+)", said)
            return "refused", said, int(found[1]) if found else None
        if match := re.fullmatch(r"refused (\d+) (.+)", last):
            # of an experiment it is a line of the schedule that was made of it
            is_own = self.kind == "schedule"
            return "refused", explained(self.text, last) if is_own else last, int(match[1]) if is_own else None
        if self.status:
            return "failed", said.splitlines()[-1] if said else f"it ended with status {self.status}", None
        return "done", "", None

    def told(self):
        """How far it is."""
        seconds = self.seconds or time.monotonic() - self.begun
        return {
            "state": self.state,
            "why": self.why,
            "line": self.line,
            "lines": self.lines,
            "tick": self.tick,
            "size": self.size,
            "seconds": round(seconds, 2),
            "said": self.said_so_far().rpartition("\n")[2],
        }


def explained(text, last):
    """Why a line of a schedule was refused, in words."""
    with tempfile.NamedTemporaryFile("w", suffix=".in", encoding="utf-8") as it:
        it.write(text)
        it.flush()
        try:
            said = subprocess.run(
                [sys.executable, os.path.join(TOOLS, "explain"), it.name],
                input=last,
                capture_output=True,
                text=True,
                timeout=EXPLAINED,
                check=False,
            )
        except (OSError, subprocess.TimeoutExpired):
            return last
    return (
        re.sub(r"^\d+: ", "", said.stdout.replace(f"{it.name}:", "")).replace(it.name, "the schedule").strip() or last
    )
