"""What all tools share of how they end: their status, what they say of faults, and the ranges of their options.

A tool ends with `run("NAME", main)`. Its status then is the one that `main` returns, or
- 2 with the line `NAME: FILE: reason` if a file can't be read or written, or if `main` raises a `Refusal`;
- 127 if a program that it starts isn't there;
- 130 (by the signal itself) after Ctrl-C, 143 after SIGTERM, 129 after SIGHUP: first the programs that it started are
  ended, and `with` blocks are left;
- 141 if nobody reads its output any more.
Any other exception is a defect of the tool, and keeps its traceback.

A tool imports this module before all others: from there on Ctrl-C ends it without a traceback. Only Python's own start,
before the tool's first line, may still print one.
"""
import _signal

# Ctrl-C during the imports ends the tool at once; `run` sets a handler again. `_signal` is a part of Python's binary:
# `signal` is a file that imports others, and Ctrl-C during those would print a traceback.
if _signal.getsignal(_signal.SIGINT) is _signal.default_int_handler:
    _signal.signal(_signal.SIGINT, _signal.SIG_DFL)

import contextlib
import errno
import glob
import math
import os
import signal
import sys

# A write that fails for one of these reasons, and names no file, was a write to standard output.
FULL = (errno.ENOSPC, errno.EFBIG, errno.EDQUOT)
STREAMS = {"stdin": "standard input", "stdout": "standard output", "stderr": "standard error"}


class Refusal(Exception):
    """Why a tool can't do what it was asked for; `run` prints it and exits with status 2."""


class Ended(SystemExit):
    """Raised where SIGTERM or SIGHUP comes: it has the tool's status."""


class ClosedStream:
    """In place of a standard stream that was closed before the tool began: only its use is a fault."""

    def __init__(self, name):
        self.name = name

    def refuse(self, *_, **__):
        raise OSError(errno.EBADF, "it is closed", self.name)

    read = readline = readlines = write = writelines = fileno = __iter__ = refuse

    def flush(self):
        pass

    def isatty(self):
        return False

    @property
    def buffer(self):
        return self


def stop(tool, why, status=2):
    """Exits with a line on standard error."""
    try:
        print(f"{tool}: {why}", file=sys.stderr)
    except OSError:
        pass
    sys.exit(status)


def is_missing_program(fault):
    """Whether a program that the tool starts isn't there: `subprocess` raised this."""
    starter = sys.modules.get("subprocess")
    if not isinstance(fault, FileNotFoundError) or not starter:
        return False
    at = fault.__traceback__
    while at.tb_next:
        at = at.tb_next
    return at.tb_frame.f_code.co_filename == starter.__file__


def reason(fault):
    """An error of the system as `FILE: reason`."""
    name, why = fault.filename, fault.strerror or str(fault)
    if is_missing_program(fault):
        why = "there is no such program"
    elif name is None and fault.errno in FULL:
        name = STREAMS["stdout"]
    return why if name is None else f"{os.fsdecode(name) if isinstance(name, (str, bytes)) else name}: {why}"


def discard_output():
    """Python writes the rest of standard output as it exits: that goes nowhere."""
    os.dup2(os.open(os.devnull, os.O_WRONLY), 1)


def replace_closed_streams():
    """Opens descriptors 0, 1 and 2 if they are closed, so that no file takes their numbers."""
    taken = os.open(os.devnull, os.O_RDWR)
    while taken < 3:
        taken = os.dup(taken)
    os.close(taken)
    for name, text in STREAMS.items():
        if getattr(sys, name) is None:
            setattr(sys, name, ClosedStream(text))


def exit_by_signal(number):
    """Ends as the signal ends a program, so that a shell's loop ends too."""
    signal.signal(number, signal.SIG_DFL)
    os.kill(os.getpid(), number)


def descendants(process):
    """The processes that this one started, and those that they started."""
    found = []
    for path in glob.glob(f"/proc/{process}/task/*/children"):
        with contextlib.suppress(OSError), open(path, encoding="ascii") as it:
            found += map(int, it.read().split())
    return [below for child in found for below in (child, *descendants(child))]


def end(number, _):
    """Ends the tool with the programs that it started. (Ctrl-C reaches those by itself.)"""
    for process in descendants(os.getpid()):
        with contextlib.suppress(OSError):
            os.kill(process, signal.SIGTERM)
    raise Ended(128 + number)


def interrupt(number, _):
    """Ends the tool after its `with` blocks are left. A second Ctrl-C doesn't wait for those."""
    signal.signal(number, signal.SIG_DFL)
    raise KeyboardInterrupt


def handle_signals():
    sys.unraisablehook = end_unraised
    if signal.getsignal(signal.SIGINT) is signal.SIG_DFL:
        signal.signal(signal.SIGINT, interrupt)
    for number in (signal.SIGTERM, signal.SIGHUP):
        if signal.getsignal(number) is signal.SIG_DFL:
            signal.signal(number, end)


def end_unraised(fault):
    """Ends the tool where Python has no caller for the exception of a signal, as in the end of an object."""
    if issubclass(fault.exc_type, KeyboardInterrupt):
        exit_by_signal(signal.SIGINT)
    if issubclass(fault.exc_type, SystemExit):
        os._exit(fault.exc_value.code)
    sys.__unraisablehook__(fault)


def restore_signals():
    """Gives the signals their usual effect: what Python does at its exit can't be left without a traceback."""
    for number in (signal.SIGINT, signal.SIGTERM, signal.SIGHUP):
        if signal.getsignal(number) is not signal.SIG_IGN:
            signal.signal(number, signal.SIG_DFL)


def asks_for_help():
    return sys.argv[1:2] in (["-h"], ["--help"])


def raised_by_signal(fault):
    """The exception of a signal, if `fault` is that, or was raised while it went its way, as an import may do."""
    while fault is not None and not isinstance(fault, (KeyboardInterrupt, Ended)):
        fault = fault.__context__
    return fault


def status_of(main, doc):
    try:
        if doc and asks_for_help():
            print(doc.strip())
            return 0
        return main()
    except Exception as fault:
        if told := raised_by_signal(fault):
            raise told
        raise
    finally:
        sys.stdout.flush()


def outcome(tool, main, faults, doc):
    """The status of `main`, or of how it ended."""
    try:
        replace_closed_streams()
        handle_signals()
        return status_of(main, doc)
    except BrokenPipeError:
        discard_output()
        return 141
    except UnicodeDecodeError as fault:
        byte = fault.object[fault.start]
        stop(tool, f"the input isn't text: byte {byte:#04x} isn't UTF-8")
    except OSError as fault:
        discard_output()
        stop(tool, reason(fault), 127 if is_missing_program(fault) else 2)
    except (Refusal, *faults) as fault:
        stop(tool, fault)
    finally:
        restore_signals()


def run(tool, main, faults=(), doc=None):
    """Runs `main` and exits with its status. With `doc`, `--help` prints that text. `faults` are refusals too."""
    try:
        status = outcome(tool, main, faults, doc)
    except KeyboardInterrupt:
        exit_by_signal(signal.SIGINT)
    sys.exit(status)


def parser(tool, doc, **more):
    """What reads the words of a tool: it refuses wrong ones in one line, with status 2."""
    import argparse  # few tools read words by it, and its import takes longer than they do

    class OneLine(argparse.ArgumentParser):
        def error(self, message):
            stop(tool, message)

    return OneLine(prog=tool, description=doc, formatter_class=argparse.RawDescriptionHelpFormatter, **more)


def range_text(low, high, above):
    """The range of a number in words."""
    if above is not None:
        return f"above {above}" if high == math.inf else f"above {above} and at most {high}"
    return f"of at least {low}" if high == math.inf else f"from {low} to {high}"


def number(low=-math.inf, high=math.inf, kind=int, above=None):
    """An option's type: a number from `low` to `high`; with `above`, one above it."""
    import argparse

    def read(text):
        wanted = f"a {'whole ' if kind is int else ''}number {range_text(low, high, above)}"
        try:
            value = kind(text)
        except ValueError:
            raise argparse.ArgumentTypeError(f"`{text}` isn't {wanted}") from None
        if not math.isfinite(value) or not low <= value <= high or (above is not None and value <= above):
            raise argparse.ArgumentTypeError(f"`{text}` isn't {wanted}")
        return value

    return read
