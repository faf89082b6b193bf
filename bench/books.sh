#!/usr/bin/env bash
# Times a round of one question and one change over homa_grants (`choose`) and homa_timers (`due`), at 10, 100 and 1,000
# rows, and prints the ratios: about those of the logarithms, 2 and 1.5, or less. A walk over all rows would make each 10.
# Filling the book alone is timed too, and taken off. From the top: bench/books.sh [ROUNDS], at most 1000000
# Before it measures, `rt run` proves and builds crates/bench_books and all crates below it: an hour if none is proved yet.
set -eu
case ${1-1} in
-h | --help) sed -n '2,/^set/s/^# \{0,1\}//p' "$0"; exit 0 ;;
*[!0-9]* | "") echo "books.sh: a number is wanted, not '$1'" >&2; exit 2 ;;
esac
cd "$(dirname "$0")/../crates/bench_books"
rt run -- both 4 4 > /dev/null
python3 - "${1:-1000000}" <<'P'
import subprocess, sys, time
def best(word, rows, rounds):
    times = []
    for _ in range(5):
        t = time.perf_counter()
        subprocess.run(["out/bench_books", word, str(rows), str(rounds)], stdout=subprocess.DEVNULL, check=True)
        times.append(time.perf_counter() - t)
    return min(times)
rounds = int(sys.argv[1])
for word in ["choose", "due"]:
    few, some, many = [(best(word, rows, rounds) - best(word, rows, 0)) / rounds * 1e9 for rows in (10, 100, 1000)]
    print(f"{word}: {few:.0f} ns at 10 rows, {some:.0f} ns at 100, {many:.0f} ns at 1,000: ratios {some / few:.2f} and {many / some:.2f}")
P
