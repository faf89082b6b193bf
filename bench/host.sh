#!/usr/bin/env bash
# Times a delivery of each kind at a host with 10, 100 and 1,000 rows (`bench_host`): processor time, the least of seven runs,
# less the least of as many runs with the same rows and no deliveries. It prints the ratios: those of the logarithms are 2
# and 1.5, and a walk over all rows would make each 10. What is timed with a delivery: its frame is put together, and the
# packets and bytes that were sent are counted. `done` is a delivery and a call: the oldest row goes and a new one is made,
# so the index of the rows is shifted. From the top: bench/host.sh [DELIVERIES], at most 500000
# Before it measures, `rt run` proves and builds crates/bench_host and all crates below it: an hour if none is proved yet.
set -eu
case ${1-1} in
-h | --help) sed -n '2,/^set/s/^# \{0,1\}//p' "$0"; exit 0 ;;
*[!0-9]* | "") echo "host.sh: a number is wanted, not '$1'" >&2; exit 2 ;;
esac
cd "$(dirname "$0")/../crates/bench_host"
rt run -- all 2 4 > /dev/null
python3 - "${1:-500000}" <<'P'
import os, subprocess, sys
def spent(words):
    it = subprocess.Popen(["out/bench_host", *words], stdout=subprocess.DEVNULL)
    _, status, used = os.wait4(it.pid, 0)
    assert status == 0, words
    return used.ru_utime + used.ru_stime
def best(kind, rows, rounds):
    return min(spent([kind, str(rows), str(rounds)]) for _ in range(7))
rounds = int(sys.argv[1])
kinds = ["request", "response", "repeat", "grant", "resend", "busy", "cutoffs", "unknown", "need_ack", "ack", "junk", "done"]
for kind in kinds:
    few, some, many = [(best(kind, rows, rounds) - best(kind, rows, 0)) / rounds * 1e9 for rows in (10, 100, 1000)]
    print(f"{kind}: {few:.0f} ns at 10 rows, {some:.0f} ns at 100, {many:.0f} ns at 1,000: ratios {some / few:.2f} and {many / some:.2f}")
P
