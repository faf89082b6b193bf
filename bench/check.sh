#!/usr/bin/env bash
# Times the judgement of traces of three kinds: lines a second by processor time, less that of an empty input, bytes read a
# second, and the most memory, for traces of about 1,000 lines up to so many. Flat means that no line costs more the longer a
# trace is; memory may grow with the calls and packets that lines name. It needs GNU time (/usr/bin/time). From the top, with
# the program built (./homa): bench/check.sh [LINES]
set -eu
case ${1-1} in
-h | --help) sed -n '2,/^set/s/^# \{0,1\}//p' "$0"; exit 0 ;;
*[!0-9]* | "") echo "check.sh: a number is wanted, not '$1'" >&2; exit 2 ;;
esac
cd "$(dirname "$0")/.."
export HOMA="${HOMA:-$("$PWD/homa" --which)}"
python3 - "${1:-1000000}" <<'P'
import os, subprocess, sys
most, homa = int(sys.argv[1]), os.environ["HOMA"]

def calls(bytes, per):
    def schedule(lines):
        out, packet = ["go"], 0
        for _ in range(max(1, lines // per)):
            out += [f"call 0 1 1 *{bytes}", f"deliver {packet}", f"deliver {packet + 1}", "tick 1"]
            packet += 2
        return out
    return schedule

kinds = {
    "calls of 1 byte, delivered at once": calls(1, 8),
    "one packet delivered again and again": lambda n: ["go", "call 0 1 1 00"] + ["deliver 0"] * n,
    "calls of 1,000 bytes": calls(1000, 8),
}

def check(trace):
    with subprocess.Popen(["/usr/bin/time", "-f", "%U %S %M", homa, "check"], stdin=subprocess.PIPE, stdout=subprocess.PIPE,
                          stderr=subprocess.PIPE) as it:
        said, told = it.communicate(trace)
    assert said.startswith(b"yes ") or not trace, said
    user, system, memory = told.split()[-3:]
    return float(user) + float(system), int(memory)

none = min(check(b"")[0] for _ in range(5))
for name, schedule in kinds.items():
    n = 1000
    while n <= most:
        trace = subprocess.run([homa, "replay"], input="\n".join(schedule(n)).encode(), capture_output=True).stdout
        seconds, memory = min(check(trace) for _ in range(3))
        lines = trace.count(b"\n")
        packets = trace.count(b"\nsend ")
        seconds -= none
        speed = "too quick to time"
        if seconds > 0.04:
            speed = f"{lines / seconds / 1e6:.2f} million lines and {len(trace) / seconds / 1e6:.0f} MB a second"
        print(f"{name}: {lines} lines with {packets} packets: {speed}, {memory // 1024} MB")
        n *= 10
P
