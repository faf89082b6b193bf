#!/usr/bin/env bash
# Times lines of a trace that are put together and written, beside copies of the same bytes through the same sink in the
# same run, and prints the ratios: processor time, the least of seven runs. A run without lines is timed too, and taken
# off. From the top: bench/lines.sh [LINES]
# Before it measures, `rt run` proves and builds crates/bench_lines and all crates below it: an hour if none is proved yet.
set -eu
case ${1-1} in
-h | --help) sed -n '2,/^set/s/^# \{0,1\}//p' "$0"; exit 0 ;;
*[!0-9]* | "") echo "lines.sh: a number is wanted, not '$1'" >&2; exit 2 ;;
esac
cd "$(dirname "$0")/../crates/bench_lines"
rt run -- put clock 3 < /dev/null > /dev/null
python3 - "${1:-1000000}" <<'P'
import resource, subprocess, sys
lines = int(sys.argv[1])
def spent():
    used = resource.getrusage(resource.RUSAGE_CHILDREN)
    return used.ru_utime + used.ru_stime
def best(*words):
    times = []
    for _ in range(7):
        before = spent()
        subprocess.run(["out/bench_lines", *map(str, words)], stdout=subprocess.DEVNULL, check=True)
        times.append(spent() - before)
    return min(times)
kinds = [("clock", "clock"), ("grant", "GRANT"), ("junk", "junk"), ("inject", "inject of a byte"), ("short", "DATA of 60 bytes"),
         ("long", "DATA of 1,400 bytes"), ("call", "call of 100 bytes"), ("run", "run of 100 and 100 bytes"), ("done", "done of 100 bytes")]
for kind, name in kinds:
    none = best("put", kind, 0)
    put, copy = [(best(how, kind, lines) - none) / lines * 1e9 for how in ("put", "copy")]
    print(f"{name}: {put:.0f} ns a line, a copy {copy:.0f} ns: put / copy = {put / copy:.1f}")
P
