"""Traces of simulated networks, for tests: what `homa-simulate schedule | homa replay` prints of an experiment."""
import subprocess

from testing import Skipped

from nodes import PROGRAM
from workbench.programs import program

# Calls of up to 30,000 bytes, on links of 10 Gbit/s.
MIXED = ("size 1000 80", "size 5000 17", "size 30000 3", "load 800", "warm 0")
# Few of everything, so that all kinds of packets are sent; losses, repeats and restarts.
BUSY = ("hosts 5", "overcommit 2", "rebalance 8", "resend 20", "tries 8", "life 200", "served 40", "loss 100000",
        "repeat 50000", "jitter 15000", "load 200", "restart 2 150000", "restart 0 225000")


def simulator():
    """The path of the program `homa-simulate`; the test is skipped if there is none."""
    path = program("homa-simulate", "HOMA_SIMULATE")
    if path is None:
        raise Skipped("there is no homa-simulate")
    return path


def simulated(*lines):
    """The trace of an experiment of these lines."""
    made = subprocess.run([simulator(), "schedule"], input="\n".join([*lines, ""]), capture_output=True, text=True, check=False)
    assert made.returncode == 0, made.stderr
    ran = subprocess.run([PROGRAM, "replay"], input=made.stdout, capture_output=True, text=True, check=False)
    assert ran.returncode == 0, ran.stdout[-200:]
    return ran.stdout
