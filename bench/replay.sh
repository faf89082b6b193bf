#!/usr/bin/env bash
# Times the replay of schedules of four kinds, with both versions of the wire: processor time an event, less that of an empty
# schedule, and the most memory, for a hundredth of so many events, a tenth, and all. Flat means that no event costs more the
# longer a run is. Times are the least of five runs, as the system counts them for each process. What the start of a process
# takes differs by up to 1 ms on a busy machine: 1,000 ns an event for 1,000 events, and 10 ns for 100,000. Memory is that of
# one run more, by GNU time (/usr/bin/time).
# From the top, with the program built (./homa): bench/replay.sh [EVENTS]
set -eu
case ${1-1} in
-h | --help) sed -n '2,/^set/s/^# \{0,1\}//p' "$0"; exit 0 ;;
*[!0-9]* | "") echo "replay.sh: a number is wanted, not '$1'" >&2; exit 2 ;;
esac
cd "$(dirname "$0")/.."
export HOMA="${HOMA:-$("$PWD/homa" --which)}"
python3 - "${1:-1000000}" <<'P'
import os, subprocess, sys
most = int(sys.argv[1])
head = {1: "", 2: "wire 2\n"}

def calls(n):
    lines, packet = [], 0
    for _ in range(n // 6):  # a call, two deliveries, and a tick of three events
        lines += ["call 0 1 0 *100", f"deliver {packet}", f"deliver {packet + 1}", "tick 1"]
        packet += 2
    return lines

kinds = {
    "calls": calls,
    "one packet again and again": lambda n: ["call 0 1 0 *100"] + ["deliver 0"] * (n - 1),
    "turns": lambda n: ["turn 0"] * n,
    "injections": lambda n: ["inject 0 00"] * n,
}

def seconds(schedule):
    """The processor time of a replay."""
    with open("/dev/null", "wb") as nowhere:
        it = subprocess.Popen([os.environ["HOMA"], "replay"], stdin=subprocess.PIPE, stdout=nowhere)
        it.stdin.write(schedule)
        it.stdin.close()
        _, status, used = os.wait4(it.pid, 0)
    assert status == 0, status
    return used.ru_utime + used.ru_stime

def memory(schedule):
    """The most memory of a replay, in MB. (The system's count for a child begins with what this process has.)"""
    it = subprocess.run(["/usr/bin/time", "-f", "%M", os.environ["HOMA"], "replay"], input=schedule,
                        stdout=subprocess.DEVNULL, stderr=subprocess.PIPE, check=True)
    return int(it.stderr) / 1024

for wire in (1, 2):
    none = min(seconds((head[wire] + "go\n").encode()) for _ in range(20))
    for name, lines in kinds.items():
        told, n = [], most // 100
        while n <= most:
            schedule = (head[wire] + "go\n" + "\n".join(lines(n)) + "\n").encode()
            least = min(seconds(schedule) for _ in range(5))
            told.append(f"{n}: {(least - none) / n * 1e9:.0f} ns, {memory(schedule):.1f} MB")
            n *= 10
        print(f"version {wire}, {name}: " + "; ".join(told))
P
