#!/usr/bin/env bash
# Times round trips and calls a second through the C library over loopback UDP, beside a bare UDP echo, one whose datagrams are sent in
# runs as the library's frames are, and a TCP echo (TCP_NODELAY, one write a message) of the same bytes in the same run: 100 to 100,000
# bytes, 1, 8 and 64 calls at a time. Then the library alone, both hosts in one process. Then calls of 100 bytes while two calls of
# 1,000,000 run, beside TCP with such a call before each on its connection: over a link of 1 Gbit/s that is shared both ways (a network
# namespace of its own with tbf; left out where that may not be made). Printed is of each figure the middle of the rounds, of p50 the
# least too, and its ratios; at the end what of the processors' time others took. It needs gcc. Timed is the archive that is named, or
# the proved one (rt lib in crates/homa_c), or else one that it builds without proofs. From the top: bench/library.sh [ROUNDS [ARCHIVE]]
set -eu
case ${1-1} in
-h | --help) sed -n '2,/^set/s/^# \{0,1\}//p' "$0"; exit 0 ;;
*[!0-9]* | "") echo "library.sh: a number is wanted, not '$1'" >&2; exit 2 ;;
esac
cd "$(dirname "$0")/.."
kit=$(dirname "$(dirname "$(readlink -f "$(command -v rt)")")")
at=$(mktemp -d)
trap 'rm -rf "$at"' EXIT
archive=${2:-crates/homa_c/out/libhoma_c.a}
if [ $# -lt 2 ] && [ ! -e "$archive" ]; then
    echo "library.sh: no proved library is here; one is built without proofs" >&2
    tools/install-library --prefix "$at/homa" --unproved >&2
    archive=$at/homa/lib/libhoma.a
fi
gcc -O2 -std=gnu11 -Iinclude bench/library.c "$archive" "$kit/c/liblibc_c.a" -o "$at/library"
printf '%s\n' '#!/bin/sh' 'ip link set lo up mtu 1500' 'tc qdisc add dev lo root tbf rate 1gbit burst 128k latency 50ms' 'exec "$@"' > "$at/link"
chmod +x "$at/link"
python3 - "$at" "${1:-5}" <<'P'
import statistics, subprocess, sys
at, rounds = sys.argv[1], int(sys.argv[2])
rows = [("100", 10000, (1, 8, 64)), ("1000", 10000, (1, 8, 64)), ("10000", 2000, (1, 8, 64)), ("100000", 200, (1, 8))]
link = ["unshare", "-n", f"{at}/link"]

def once(*words, within=()):
    ran = subprocess.run([*within, f"{at}/library", *map(str, words)], capture_output=True, text=True, check=True, timeout=300)
    return [float(it) for it in ran.stdout.split()]

def middle(runs):
    return [min(it[0] for it in runs), *(statistics.median(it) for it in zip(*runs))]

def clock():
    with open("/proc/stat") as it:
        return [int(word) for word in it.readline().split()[1:9]]

began = clock()
print("bytes, what: p50 us (the least), p99 us, calls a second")
for length, calls, depths in rows:
    runs = {key: [] for key in ("udp", "runs", "tcp", *depths)}
    for _ in range(rounds):
        for key in runs:
            runs[key].append(once(*(("homa", length, calls, key) if key in depths else (key, length, calls))))
    of = {key: middle(it) for key, it in runs.items()}
    for key, (least, p50, p99, rate, _) in of.items():
        print(f"{length}, {f'homa, {key} at a time' if key in depths else key}: {p50:.1f} ({least:.1f}), {p99:.1f}, {rate:.0f}")
    ratios = [f"{of[1][1] / of[key][1]:.2f} ({of[1][0] / of[key][0]:.2f})" for key in ("udp", "runs", "tcp")]
    print(f"{length}, homa to udp, runs, tcp: {', '.join(ratios)}")
for length, calls in ("100", 200000), ("100000", 1000):
    least, p50, *_ = middle([once("core", length, calls) for _ in range(rounds)])
    print(f"{length}, the library alone: {p50:.1f} ({least:.1f})")
if subprocess.run([*link, "true"], capture_output=True).returncode:
    print("no link of 1 Gbit/s can be made here")
else:
    homa, tcp = [], []
    for _ in range(rounds):
        homa.append(once("homa", "mixed", 20000, within=link))
        tcp.append(once("tcp", "mixed", 50, within=link))
    (_, p50, p99, rate, long), (_, tcp50, tcp99, tcp_rate, tcp_long) = middle(homa), middle(tcp)
    print(f"100 bytes while 1,000,000 run: homa p50 {p50:.1f}, p99 {p99:.1f}, {long:.0f} long a second; tcp p50 {tcp50:.1f}, p99 {tcp99:.1f}, "
          f"{tcp_long:.0f} long a second; p99 ratio {p99 / tcp99:.4f}")
user, nice, system, idle, wait, irq, soft, steal = (b - a for a, b in zip(began, clock()))
print(f"processors: {100 * idle / (user + nice + system + idle + wait + irq + soft + steal):.0f}% idle, "
      f"{100 * steal / (user + nice + system + idle + wait + irq + soft + steal):.1f}% stolen")
P
