"""Worked schedules and experiments to begin with."""
import os

from .programs import TOP, commands

# By their names: files of the project, if they are there.
FILES = {"a lost grant": "docs/pictures/lost-grant.in", "a restart": "docs/pictures/restart.in"}
HELLO = """# Two bytes there, two bytes back. Ctrl-Enter runs it.
go
call 0 1 0 6869
deliver 0
deliver 1
"""
LOST = """# The first packet is lost: after `resend` ticks the client asks, and the call begins anew.
go
call 0 1 0 *3000
tick 5
deliver 3
tick
deliver 4
"""
RIVALS = """# Three clients call one server, which grants to the shortest first: who waits?
hosts 4
unsched 2000
window 4000
overcommit 1
go
call 1 0 1 *9000
call 2 0 1 *7000
call 3 0 1 *5000
deliver 0
deliver 1
deliver 2
deliver 3
deliver 4
deliver 5
tick 3
"""
REFUSED = """# Line 4 is refused: there is no host 7.
hosts 3
go
call 0 7 0 6869
"""
EXPERIMENT = """# A link at load 0.8, with one packet of a thousand lost.
hosts 8
workload 3
load 800
loss 1000
warm 100
measure 500
"""


def examples():
    """Each with its kind, its name and its text."""
    found = [("schedule", "one call", HELLO), ("schedule", "a lost packet", LOST), ("schedule", "three rivals", RIVALS)]
    for name, path in FILES.items():
        try:
            with open(os.path.join(TOP, path), encoding="utf-8") as it:
                found.append(("schedule", name, it.read()))
        except OSError:
            continue
    found.append(("schedule", "a line that is refused", REFUSED))
    if "experiment" in commands():
        found.append(("experiment", "a busy network with losses", EXPERIMENT))
    return [{"kind": kind, "name": name, "text": text} for kind, name, text in found]
