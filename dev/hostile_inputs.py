"""Rows of dev/hostile for inputs with something changed, and for two builds."""
import os
import random
import subprocess
import time

from faults import TOP
from hostile_nodes import STEPS, smallest
from nodes import PROGRAM

# The program as another compiler built it: the gate keeps the one of Rattle's own compiler beside that of LLVM.
OTHER = os.environ.get("HOMA_OTHER", os.path.join(TOP, "crates", "homa", "out", "homa.by-rattle"))


def homa(words, given=b"", program=PROGRAM, **how):
    return subprocess.run([program, *words], input=given, capture_output=True, **how)


def builds():
    """Which builds are compared."""
    return "both builds" if os.path.exists(OTHER) else "one build"


# ---- inputs with something changed


WORDS = (b"", b"0", b"1", b"00", b"-1", b"-", b"*1000001", b"*3", b"65536", b"4294967296", b"18446744073709551616", b"go", b"\xff", b"\0", b"x" * 70000)


def bent(draw, data):
    """An input with bytes, words or lines of it changed."""
    lines = data.split(b"\n")
    for _ in range(draw.choice((1, 1, 2, 8))):
        at, how = draw.randrange(len(lines)), draw.randrange(7)
        words = lines[at].split(b" ")
        word = draw.randrange(len(words))
        if how == 0:
            lines.insert(at, draw.choice(lines))
        elif how == 1 and len(lines) > 1:
            del lines[at]
        elif how == 2:
            other = draw.randrange(len(lines))
            lines[at], lines[other] = lines[other], lines[at]
        elif how == 3:
            words[word] = draw.choice(WORDS)
            lines[at] = b" ".join(words)
        elif how == 4 and words[word].isdigit():
            words[word] = b"%d" % max(0, int(words[word]) + draw.choice((-1, 1, 2, 1000)))
            lines[at] = b" ".join(words)
        elif how == 5 and lines[at]:
            place = draw.randrange(len(lines[at]))
            lines[at] = lines[at][:place] + draw.randbytes(1) + lines[at][place + 1 :]
        else:
            lines[at] += draw.choice((b" ", b"\r", b" 0", b"  ", b"\t", b" #"))
    return b"\n".join(lines)


def is_end(word, status, told):
    """Whether a run ended as its last line says: a schedule's or a script's with `ok`, `stalled` or `refused`, a verdict with yes or no. A node whose port
    can't be had has no line."""
    last = told.rsplit(b"\n", 2)[-2] if told.endswith(b"\n") else b""
    if word == "check":
        return {0: b"yes ", 2: b"no "}.get(status) == last[: 4 if status == 0 else 3]
    if word in ("node", "record") and status == 6:
        return told == b""
    firsts = {0: b"# ok " if word == "record" else b"ok ", 2: b"refused ", **({7: b"stalled "} if word in ("node", "record") else {})}
    return status in firsts and last.startswith(firsts[status])


def bent_inputs(faults, chosen):
    """Schedules, traces and scripts with something changed: the status is 0, 2 or, of a node, 7 or 6, the last line says the same, and `check` says
    yes to a replay's trace up to there."""
    draw, until, k = random.Random(f"bent {chosen.seed}"), time.monotonic() + chosen.minutes * 8, 0
    with open(os.path.join(TOP, "crates", "homa", "stdin"), "rb") as it:
        schedules = [it.read(), homa(["make", str(chosen.seed), "3"]).stdout]
    traces, scripts = [homa(["replay"], it).stdout for it in schedules], [smallest()]
    while k < 30 or time.monotonic() < until:
        k += 1
        for word, inputs, how in (("replay", schedules, {}), ("check", traces, {}), *((word, scripts, STEPS) for word in chosen.words)):
            given = bent(draw, draw.choice(inputs))
            got = faults.run([word], given, **how) if how else homa([word], given)
            yield is_end(word, got.returncode, got.stdout), f"{word} of input {k} of seed {chosen.seed}: status {got.returncode}, {got.stdout[-60:]}"
            if word == "replay" and got.stdout.startswith(b"settings "):
                verdict = homa(["check"], got.stdout).stdout
                yield verdict == b"yes %d\n" % got.stdout.count(b"\n"), f"check of input {k} of seed {chosen.seed}: {verdict}"
            if os.path.exists(OTHER) and not how:
                other = homa([word], given, OTHER)
                yield (other.returncode, other.stdout) == (got.returncode, got.stdout), f"{word} of input {k} of seed {chosen.seed}: the other build differs"
    yield True, "", f"{k:,} of each by {builds()}; seed {chosen.seed}"


def two_builds(faults, chosen):
    """Every command in both builds, of words that are drawn."""
    draw, until, k = random.Random(f"builds {chosen.seed}"), time.monotonic() + chosen.minutes * 4, 0
    while k < 5 or time.monotonic() < until:
        k += 1
        seed, count = str(draw.randrange(2**64)), str(draw.choice((1, 3, 30, 300)))
        schedule = homa(["make", seed, count])
        trace = homa(["replay"], schedule.stdout).stdout
        quiet = ["quiet", str(draw.randrange(1, 10**6)), "7"]
        runs = (["make", seed, count], b""), (["gen", seed, count], b""), (["replay"], schedule.stdout), (["check"], trace), (quiet, b""), (["no"], b"")
        for words, given in runs:
            got, other = homa(words, given), homa(words, given, OTHER)
            is_same = (got.returncode, got.stdout) == (other.returncode, other.stdout)
            yield is_same, f"{' '.join(words)} (seed {seed}, {count} calls): status {got.returncode} and {other.returncode}"
    yield True, "", f"{k} draws of words for each command; seed {chosen.seed}"
