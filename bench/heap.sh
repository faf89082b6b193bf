#!/usr/bin/env bash
# Times 1,000,000 changes of a heap of 8192 slots over place_heap, beside the same changes over std's BTreeMap, and
# prints the ratio. Reading the changes alone is timed too, and taken off both. From the top: bench/heap.sh [CHANGES]
# Before it measures, `rt run` proves and builds crates/bench_heap and all crates below it: an hour if none is proved yet.
set -eu
case ${1-1} in
-h | --help) sed -n '2,/^set/s/^# \{0,1\}//p' "$0"; exit 0 ;;
*[!0-9]* | "") echo "heap.sh: a number is wanted, not '$1'" >&2; exit 2 ;;
esac
cd "$(dirname "$0")/../crates/bench_heap"
rt run -- heap < stdin > /dev/null
mix=$(mktemp)
trap 'rm -f "$mix"' EXIT
# Three changes of four set a slot's key, the fourth takes a slot out.
awk -v n="${1:-1000000}" 'BEGIN { srand(7); for (i = 0; i < n; i++) { s = int(rand() * 8192);
  if (rand() < 0.75) print "set", s, int(rand() * 1000000), i; else print "unset", s } }' > "$mix"
python3 - "$mix" <<'P'
import subprocess, sys, time
def run(word):
    best, out = None, None
    for _ in range(5):
        with open(sys.argv[1]) as mix:
            t = time.perf_counter()
            out = subprocess.run(["out/bench_heap", word], stdin=mix, stdout=subprocess.PIPE, check=True).stdout
            t = time.perf_counter() - t
        best = t if best is None else min(best, t)
    return best, out
read, _ = run("read")
heap, one = run("heap")
tree, two = run("map")
assert one == two, "the first slots differ"
print(f"read {read:.3f} s, heap {heap - read:.3f} s, map {tree - read:.3f} s: heap / map = {(heap - read) / (tree - read):.2f}")
P
