#!/usr/bin/env bash
# Times the reading of a schedule of 50 MB beside `cat` of the same bytes, prints the ratio, and the most memory that
# reading took at 5 MB and at 50 MB. From the top: bench/script.sh [MEGABYTES]
# Before it measures, `rt run` proves and builds crates/bench_script and all crates below it: an hour if none is proved yet.
set -eu
case ${1-1} in
-h | --help) sed -n '2,/^set/s/^# \{0,1\}//p' "$0"; exit 0 ;;
*[!0-9]* | "") echo "script.sh: a number is wanted, not '$1'" >&2; exit 2 ;;
esac
cd "$(dirname "$0")/../crates/bench_script"
rt run < stdin > /dev/null
script=$(mktemp)
trap 'rm -f "$script"' EXIT
# Settings and `go`, then deliveries, and a call or a tick in every ten lines.
awk -v most="${1:-50}" 'BEGIN { most *= 1000000; srand(7); text = "hosts 32\nrate 20000\nlife 100\ngo\n"; n = length(text); printf "%s", text
  for (i = 0; n < most; i++) {
    if (i % 10 == 3) line = "call " i % 32 " " (i + 1) % 32 " 0 00ff10203040506070809aabbccddeef"
    else if (i % 10 == 7) line = "tick " 1 + i % 9
    else line = "deliver " int(rand() * 1000000000)
    n += length(line) + 1; print line } }' > "$script"
python3 - "$script" <<'P'
import fcntl, os, struct, subprocess, sys, termios, time
script = sys.argv[1]
def timed(words):
    best, out = None, None
    for _ in range(7):
        with open(script, "rb") as lines:
            t = time.perf_counter()
            out = subprocess.run(words, stdin=lines, stdout=subprocess.PIPE, check=True).stdout
            t = time.perf_counter() - t
        best = t if best is None else min(best, t)
    return best, out
# The most memory of the program when it has read this front of the schedule and waits for more.
def most(size):
    with open(script, "rb") as lines:
        front = lines.read(size)
    with subprocess.Popen(["out/bench_script"], stdin=subprocess.PIPE, stdout=subprocess.PIPE) as program:
        program.stdin.write(front)
        program.stdin.flush()
        while struct.unpack("i", fcntl.ioctl(program.stdin, termios.FIONREAD, b"\0\0\0\0"))[0] > 0:
            time.sleep(0.01)
        time.sleep(0.2)
        with open(f"/proc/{program.pid}/status") as status:
            size = next(int(line.split()[1]) for line in status if line.startswith("VmHWM"))
        program.communicate()
    return size
cat, _ = timed(["cat"])
read, events = timed(["out/bench_script"])
with open(script, "rb") as text:
    lines = sum(1 for _ in text)
print(f"{lines} lines, {int(events)} events: read {read:.3f} s, cat {cat:.3f} s, read / cat = {read / cat:.1f}")
whole = os.path.getsize(script)
print(f"most memory: {most(whole // 10)} kB at {whole // 10} bytes, {most(whole)} kB at {whole} bytes")
P
