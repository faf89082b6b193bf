#!/usr/bin/env bash
# Times pieces of a message that are taken (`Incoming::accept`) beside copies of as many pieces, and a message that is
# copied out of its pages (`Scratch::fill`) beside a copy of as many bytes, in the same run, and prints the ratios:
# processor time, the least of nine runs. Messages that are opened and closed without pieces are timed too, and taken off
# the first. From the top: bench/pool.sh [MESSAGES]
# Before it measures, `rt run` proves and builds crates/bench_pool and all crates below it: an hour if none is proved yet.
set -eu
case ${1-1} in
-h | --help) sed -n '2,/^set/s/^# \{0,1\}//p' "$0"; exit 0 ;;
*[!0-9]* | "") echo "pool.sh: a number is wanted, not '$1'" >&2; exit 2 ;;
esac
cd "$(dirname "$0")/../crates/bench_pool"
rt run -- accept 2 < /dev/null > /dev/null
python3 - "${1:-1000}" <<'P'
import resource, subprocess, sys
times = int(sys.argv[1])
def spent():
    used = resource.getrusage(resource.RUSAGE_CHILDREN)
    return used.ru_utime + used.ru_stime
def best(word, count):
    found = []
    for _ in range(9):
        before = spent()
        subprocess.run(["out/bench_pool", word, str(count)], stdout=subprocess.DEVNULL, check=True)
        found.append(spent() - before)
    return min(found)
def of_one(word):
    return (best(word, times) - best(word, 0)) / times
accept = (of_one("accept") - of_one("open")) / 714 * 1e9
pieces = of_one("pieces") / 714 * 1e9
fill, copy = of_one("fill") * 1e6, of_one("copy") * 1e6
print(f"a piece of 1,400 bytes: taken {accept:.0f} ns, a copy {pieces:.0f} ns: accept / copy = {accept / pieces:.1f}")
print(f"1,000,000 bytes: copied out {fill:.0f} us, a copy {copy:.0f} us: fill / copy = {fill / copy:.1f}")
P
