#!/usr/bin/env bash
# Times the store of examples/kv over loopback UDP: PUT and GET by turns, each response compared, each request answered at once.
# Values have up to 100, 10,000 and 100,000 bytes; 1 and 4 clients, 1 and 16 calls at a time. Printed is of each row the middle of the rounds:
# p50 and p99 of a call, calls a second of all clients, processor time a call of server and clients, and the most memory of the server; at
# the end what of the processors' time others took. It needs gcc. Timed is the archive that is named, or the proved one (rt lib in
# crates/homa_c), or else one that it builds without proofs. From the top: bench/store.sh [ROUNDS [ARCHIVE]]
set -eu
case ${1-1} in
-h | --help) sed -n '2,/^set/s/^# \{0,1\}//p' "$0"; exit 0 ;;
*[!0-9]* | "") echo "store.sh: a number is wanted, not '$1'" >&2; exit 2 ;;
esac
cd "$(dirname "$0")/.."
kit=$(dirname "$(dirname "$(readlink -f "$(command -v rt)")")")
at=$(mktemp -d)
trap 'rm -rf "$at"' EXIT
archive=${2:-crates/homa_c/out/libhoma_c.a}
if [ $# -lt 2 ] && [ ! -e "$archive" ]; then
    echo "store.sh: no proved library is here; one is built without proofs" >&2
    archive=$(tools/build-unproved --library)
fi
gcc -O2 -std=gnu11 -Iinclude examples/kv/*.c "$archive" "$kit/c/liblibc_c.a" -o "$at/kv"
python3 - "$at" "${1:-5}" <<'P'
import os, re, statistics, subprocess, sys, tempfile
at, rounds = sys.argv[1], int(sys.argv[2])
CLIENT = re.compile(r"client \d+: (\d+) done, (\d+) timed out, (\d+) forgotten, 0 wrong, .*; p50 (\d+), p99 (\d+) us, (\d+) calls a second\n")
ROWS = [(100, 20000), (10000, 8000), (100000, 2000)]

def spent(process):
    with open(f"/proc/{process.pid}/stat", encoding="ascii") as it:
        return sum(map(int, it.read().rpartition(")")[2].split()[11:13])) / os.sysconf("SC_CLK_TCK")

def once(most, calls, clients, at_a_time, port=[20000]):
    folder = tempfile.mkdtemp(dir=at)
    port[0] += 40
    with open(f"{folder}/hosts", "w", encoding="ascii") as it:
        it.writelines(f"127.0.0.1 {port[0] + i}\n" for i in range(clients + 1))
    around = {**os.environ, "KV_TICK_US": "1000", "KV_LATE": "0"}
    server = subprocess.Popen([f"{at}/kv", "server", f"{folder}/hosts", folder], stdout=subprocess.PIPE, stderr=subprocess.DEVNULL, env=around)
    server.stdout.readline()
    words = [str(calls // clients), str(at_a_time), str(most)]
    before = os.times()
    processes = [subprocess.Popen([f"{at}/kv", "client", f"{folder}/hosts", folder, str(i), *words], stdout=subprocess.PIPE, stderr=subprocess.DEVNULL,
                                  text=True, env=around) for i in range(1, clients + 1)]
    said = [CLIENT.fullmatch(it.communicate(timeout=600)[0]) for it in processes]
    after = os.times()
    with open(f"/proc/{server.pid}/status", encoding="ascii") as it:
        memory = int(re.search(r"VmHWM:\s+(\d+)", it.read())[1]) / 1024
    of_clients = after.children_user + after.children_system - before.children_user - before.children_system
    processors = of_clients + spent(server)
    server.terminate()
    server.wait()
    assert all(said), "a client failed"
    numbers = [list(map(int, it.groups())) for it in said]
    done = sum(it[0] for it in numbers)
    middle = [statistics.median(it[k] for it in numbers) for k in (3, 4)]
    return [*middle, sum(it[5] for it in numbers), 1e6 * processors / done, memory, calls // clients * clients - done]

def clock():
    with open("/proc/stat", encoding="ascii") as it:
        return [int(word) for word in it.readline().split()[1:9]]

began = clock()
print("bytes at most, clients, at a time: p50 us, p99 us, calls a second, processor us a call, MB of the server, not done")
for most, calls in ROWS:
    for clients in 1, 4:
        for at_a_time in 1, 16:
            runs = [once(most, calls, clients, at_a_time) for _ in range(rounds)]
            p50, p99, rate, processor, memory, lost = [statistics.median(it) for it in zip(*runs)]
            print(f"{most}, {clients}, {at_a_time}: {p50:.0f}, {p99:.0f}, {rate:.0f}, {processor:.0f}, {memory:.0f}, {lost:.0f}", flush=True)
took = [b - a for a, b in zip(began, clock())]
print(f"processors: {100 * took[3] / sum(took):.0f}% idle, {100 * took[7] / sum(took):.1f}% stolen")
P
