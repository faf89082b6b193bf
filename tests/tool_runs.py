"""Runs of tools within the process of the tests, which is quick also where the machine is busy; and tools as
processes, for what only those have."""
import io
import os
import subprocess
import sys
import tempfile
from unittest import mock

from testing import PYTHON  # (it puts tools/ and dev/ on the path)

from modules import module, path_of
from running import run

LOADED = {}


class Ran:
    """What came of a run: its status, what it printed, as bytes and as text, and what it said."""

    def __init__(self, status, printed, said):
        self.returncode, self.printed, self.stderr = status, printed, said

    @property
    def stdout(self):
        return self.printed.decode()


def ran(tool, *words, text=None):
    """A run of a tool with these words and this standard input."""
    if tool not in LOADED:
        LOADED[tool] = module(tool)
    out, said, saved = io.TextIOWrapper(io.BytesIO(), "utf-8"), io.StringIO(), os.dup(1)
    with tempfile.TemporaryFile("w+", encoding="utf-8") as given:
        given.write(text or "")
        given.seek(0)
        try:
            with mock.patch.multiple(sys, argv=[tool, *words], stdin=given, stdout=out, stderr=said):
                run(tool, LOADED[tool].main)
        except SystemExit as end:
            status = end.code
        finally:
            # `run` sends what is left to nowhere where it ends by a fault
            os.dup2(saved, 1)
            os.close(saved)
    out.flush()
    return Ran(status or 0, out.buffer.getvalue(), said.getvalue())


def process(tool, *words):
    """The words of a tool as a process."""
    return [*PYTHON, path_of(tool), *words]


def in_shell(line, *words):
    """A line of a shell in which `"$@"` is a tool's process."""
    return subprocess.run(["sh", "-c", line, "sh", *words], capture_output=True, text=True, check=False)
