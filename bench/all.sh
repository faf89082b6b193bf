#!/usr/bin/env bash
# Counts what the program costs, by kind of run and by length: instructions an event, page faults and the most memory. None of it
# depends on how busy the machine is, and none needs another program beside it, so a later change that costs is seen: run it
# before and after. Instructions are those of a run less those of an opening of as many hosts (of a check, which opens none, those
# of the whole run), divided by the events that the replay of the same run counts (`ok N`); of an opening and of quiet, where there
# are none, those of the whole run. Flat means that the last column of a kind is near 1. It needs valgrind and GNU time
# (/usr/bin/time).
# From the top, with the program of ./homa, HOMA or PROGRAM: bench/all.sh [MOST [PROGRAM]]   (MOST: the most events and calls, 100000)
set -eu
case ${1-} in
-h | --help) sed -n '2,/^set/s/^# \{0,1\}//p' "$0"; exit 0 ;;
esac
cd "$(dirname "$0")/.."
python3 - "${1:-100000}" "${2:-${HOMA:-$("$PWD/homa" --which)}}" <<'P'
import os, re, subprocess, sys, tempfile
most, homa = int(sys.argv[1]), sys.argv[2]
room = tempfile.TemporaryDirectory()
# A copy or a fill of many bytes by `rep` would count as an instruction for each byte.
plain = {**os.environ, "GLIBC_TUNABLES": "glibc.cpu.x86_rep_stosb_threshold=1000000000:glibc.cpu.x86_rep_movsb_threshold=1000000000"}

def counted(words, text):
    """The instructions of a run, its page faults, its most memory in MB, and what it printed."""
    file, kept = f"{room.name}/in", f"{room.name}/out"
    with open(file, "wb") as it:
        it.write(text)
    with open(file, "rb") as given, open(kept, "wb") as taken:
        it = subprocess.run(["valgrind", "--tool=cachegrind", "--cache-sim=no", "--cachegrind-out-file=/dev/null", homa, *words],
                            stdin=given, stdout=taken, stderr=subprocess.PIPE, env=plain, check=True)
    instructions = int(re.search(rb"I +refs: +([\d,]+)", it.stderr)[1].replace(b",", b""))
    with open(file, "rb") as given, open("/dev/null", "wb") as nowhere:
        it = subprocess.run(["/usr/bin/time", "-f", "%R %M", homa, *words], stdin=given, stdout=nowhere, stderr=subprocess.PIPE, check=True)
    faults, memory = it.stderr.split()[-2:]
    with open(kept, "rb") as it:
        return instructions, int(faults), int(memory) / 1024, it.read()

def events_of(text):
    found = re.search(rb"^ok (\d+)\n\Z", text[-40:], re.M)
    return int(found[1]) if found else 0

def row(name, events, instructions, faults, memory, first=None):
    each = instructions / events if events else instructions
    flat = f"{each / first:.2f}" if first else ""
    print(f"| {name} | {events or '-'} | {each:,.0f} | {faults:,} | {memory:.1f} | {flat} |", flush=True)
    return each

def go(hosts):
    return f"hosts {hosts}\ngo\n".encode()

def calls(n):
    lines, packet = [], 0
    for _ in range(n // 6):  # a call, two deliveries, and a tick of three events
        lines += ["call 0 1 0 *100", f"deliver {packet}", f"deliver {packet + 1}", "tick 1"]
        packet += 2
    return lines

kinds = {
    "calls of 100 bytes, two deliveries, a tick": calls,
    "one packet again and again": lambda n: ["call 0 1 0 *100"] + ["deliver 0"] * (n - 1),
    "turns": lambda n: ["turn 0"] * n,
    "injections": lambda n: ["inject 0 00"] * n,
}

print("| run | events | instructions an event | page faults | MB | to the first |\n|---|---|---|---|---|---|")
opening = {}
for hosts in (2, 32):
    instructions, faults, memory, _ = counted(["replay"], go(hosts))
    opening[hosts] = instructions
    row(f"opening of {hosts} hosts", 0, instructions, faults, memory)
for name, lines in kinds.items():
    n, first = 1000, None
    while n <= most:
        instructions, faults, memory, told = counted(["replay"], go(2) + "\n".join(lines(n)).encode() + b"\n")
        each = row(f"replay: {name}", events_of(told), instructions - opening[2], faults, memory, first)
        n, first = n * 10, first or each
first = {}
for n in (30, 300, 1000, 10000):
    if n * 10 > most:
        break
    instructions, faults, memory, schedule = counted(["make", "7", str(n)], b"")
    made = (f"make 7 {n}", instructions, faults, memory)
    instructions, faults, memory, trace = counted(["replay"], schedule)
    events = events_of(trace)
    for kind, of in (("replay of make", (instructions, faults, memory)), ("make", made[1:]), ("gen", counted(["gen", "7", str(n)], b"")[:3]),
                     ("check of its trace", counted(["check"], trace)[:3])):
        less = opening[32] if kind != "check of its trace" else 0
        each = row(f"{kind} 7 {n}", events, of[0] - less, of[1], of[2], first.get(kind))
        first.setdefault(kind, each)
for size in (2, 1000000):
    instructions, faults, memory, _ = counted(["quiet", str(size), str(size)], b"")
    row(f"quiet {size} {size}", 0, instructions, faults, memory)
P
