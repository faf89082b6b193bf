"""What test programs share: tests are functions, chosen by words in their names, and the last line counts them."""
import atexit
import os
import shutil
import signal
import sys
import tempfile
import time

TOP = os.path.dirname(os.path.dirname(os.path.abspath(__file__)))
sys.path[:0] = [os.path.join(TOP, it) for it in ("tools", "dev")]
from running import run

# What runs a tool: tools need the standard library alone, so they have no site-packages here. Python starts faster so.
PYTHON = [sys.executable, "-S"]

# A shell ignores Ctrl-C in what it runs in the background, and so would all that the tests start.
signal.signal(signal.SIGINT, signal.default_int_handler)


def put_python_first():
    """Makes `python3` this Python for all that the tests start: the first one of the PATH may be a slow script."""
    there = shutil.which("python3")
    if not there or os.path.realpath(there) != os.path.realpath(sys.executable):
        folder = tempfile.mkdtemp(prefix="python-")
        atexit.register(shutil.rmtree, folder)
        os.symlink(sys.executable, f"{folder}/python3")
        os.environ["PATH"] = f"{folder}:{os.environ['PATH']}"


put_python_first()


class Skipped(Exception):
    """Raised by a test that this machine can't run: it has the reason."""


def same(had, wanted):
    assert had == wanted, f"\n--- had\n{had}\n--- wanted\n{wanted}"


def outcome(test):
    """Runs a test: passed, failed or skipped, and why."""
    try:
        test()
    except Skipped as why:
        return "skipped", f"{test.__name__}: skipped: {why}"
    except Exception as why:
        return "failed", f"{test.__name__}: {type(why).__name__}: {why}"
    return "passed", None


def times():
    """The clock, and the processor time of this process and of those that it waited for."""
    return time.monotonic(), sum(os.times()[:4])


def spent(began):
    """The seconds since then, by the clock and of processors."""
    clock, used = (now - then for now, then in zip(times(), began))
    return f"{clock:6.1f} s, {used:6.1f} s of processors"


def count(name, tests, words):
    """Runs the tests whose names have one of the words; status 1 if one failed, 2 if none is chosen."""
    says_times, words = "--times" in words, [it for it in words if it != "--times"]
    chosen = [it for it in tests if not words or any(word in it.__name__ for word in words)]
    counts = {"passed": 0, "failed": 0, "skipped": 0}
    for test in chosen:
        began = times()
        how, why = outcome(test)
        counts[how] += 1
        if why:
            print(why, flush=True)
        if says_times:
            print(spent(began), f" {test.__name__}", flush=True)
    print(f"{name}: " + ", ".join(f"{many} {how}" for how, many in counts.items()))
    return 1 if counts["failed"] else 0 if chosen else 2


def run_tests(name, tests, doc):
    """Ends a test program: runs what its words choose, and exits with the status."""
    run(name, lambda: count(name, tests, sys.argv[1:]), doc=doc)
