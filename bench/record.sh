#!/usr/bin/env bash
# Records a run of so many calls of 100 bytes between two hosts over loopback, beside a plain run of the same script: processor
# time a call, the memory at each quarter of the run, and whether the recording's replay is done with each call and judged yes.
# A tick has 20 calls, so 100,000 calls take 50 seconds, twice. From the top, with the program built (./homa) or named by HOMA:
# bench/record.sh [CALLS]
set -eu
case ${1-1} in
-h | --help) sed -n '2,/^set/s/^# \{0,1\}//p' "$0"; exit 0 ;;
*[!0-9]* | "") echo "record.sh: a number is wanted, not '$1'" >&2; exit 2 ;;
esac
cd "$(dirname "$0")/.."
export HOMA="${HOMA:-$("$PWD/homa" --which)}"
PYTHONPATH=tools exec python3 - "${1:-100000}" <<'P'
import os, subprocess, sys, tempfile, time
from nodes import PROGRAM, free_ports, knows, memory, script_of
count, room = int(sys.argv[1]), tempfile.TemporaryDirectory()
folder = room.name
if not knows("record"):
    sys.exit(f"{PROGRAM} isn't built, or has no command `record`")
EACH, SIZE = 20, 100
SETTINGS = dict(calls=1024, served=4096, pages=4096, rate=1000000, life=20, tries=20)
ticks = count // EACH
given = script_of(free_ports(2), [f"at {k // EACH} call {k % 2} {1 - k % 2} 0 *{SIZE}" for k in range(count)], end=ticks + 60, **SETTINGS)

def run(word):
    with open(f"{folder}/script", "w") as it:
        it.write(given)
    with open(f"{folder}/script") as source, open(f"{folder}/{word}", "w") as out:
        it = subprocess.Popen([PROGRAM, word], stdin=source, stdout=out)
    begun, sizes = time.monotonic(), []
    while True:
        pid, status, used = os.wait4(it.pid, os.WNOHANG)
        if pid:
            break
        try:
            sizes.append(memory(it))
        except (StopIteration, FileNotFoundError):
            pass
        time.sleep(0.1)
    assert status == 0, f"{word} ended with status {status >> 8}"
    spent = used.ru_utime + used.ru_stime
    quarters = ", ".join(f"{sizes[min(len(sizes) - 1, len(sizes) * k // 4)] / 1024:.1f}" for k in (1, 2, 3, 4))
    print(f"{word}: {spent:.2f} s of processor time in {time.monotonic() - begun:.0f} s, {spent / count * 1e6:.1f} us a call; memory at each quarter {quarters} MB, most {max(sizes) / 1024:.1f} MB; {os.path.getsize(f'{folder}/{word}') / 1e6:.1f} MB printed", flush=True)
    return spent

with open("/proc/cpuinfo") as it:
    print(next(line.split(": ")[1].strip() for line in it if line.startswith("model name")) + f", {os.cpu_count()} processors, Linux {os.uname().release}, load {os.getloadavg()[0]:.1f}")
plain, recorded = run("node"), run("record")
print(f"ratio {recorded / plain:.2f}")
with open(f"{folder}/record") as source, open(f"{folder}/trace", "w") as out:
    begun = os.times()
    status = subprocess.run([PROGRAM, "replay"], stdin=source, stdout=out).returncode
    after = os.times()
with open(f"{folder}/trace") as trace:
    done = sum(line.startswith("done ") for line in trace)
with open(f"{folder}/trace") as trace:
    verdict = subprocess.run([PROGRAM, "check"], stdin=trace, capture_output=True, text=True).stdout.strip()
print(f"replay: status {status}, {done} of {count} calls done, check says {verdict}; {after.children_user + after.children_system - begun.children_user - begun.children_system:.2f} s of processor time")
sys.exit(0 if (status, done) == (0, count) and verdict.startswith("yes ") else 1)
P
