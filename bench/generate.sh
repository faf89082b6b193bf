#!/usr/bin/env bash
# Times generated traffic: `gen SEED N` for N of 100 to 100,000, and for 10,000 calls also `make` into `replay`. Printed are
# processor time a call, less that of a run of one call, and the most memory. Flat means that no call costs more the longer a
# run is. It needs GNU time (/usr/bin/time). From the top, with the program built (./homa): bench/generate.sh [SEED]
set -eu
case ${1-1} in
-h | --help) sed -n '2,/^set/s/^# \{0,1\}//p' "$0"; exit 0 ;;
*[!0-9]* | "") echo "generate.sh: a number is wanted, not '$1'" >&2; exit 2 ;;
esac
cd "$(dirname "$0")/.."
export HOMA="${HOMA:-$("$PWD/homa" --which)}"
python3 - "${1:-7}" <<'P'
import os, subprocess, sys
seed, homa = sys.argv[1], os.environ["HOMA"]

def run(*words, stdin=subprocess.DEVNULL):
    it = subprocess.run(["/usr/bin/time", "-f", "%U %S %M", homa, *words], stdin=stdin, stdout=subprocess.DEVNULL,
                        stderr=subprocess.PIPE, check=True)
    user, system, most = it.stderr.split()[-3:]
    return float(user) + float(system), int(most)

none = min(run("gen", seed, "1")[0] for _ in range(5))
print(f"gen {seed} 1: {none:.2f} s")
for n in (100, 1000, 10000, 100000):
    (seconds, most) = min(run("gen", seed, str(n)) for _ in range(3))
    print(f"gen {seed} {n}: {seconds:.2f} s, {(seconds - none) / n * 1e6:.1f} us a call, {most // 1024} MB")
make = subprocess.Popen([homa, "make", seed, "10000"], stdout=subprocess.PIPE)
seconds, most = run("replay", stdin=make.stdout)
print(f"make {seed} 10000 | replay: {seconds:.2f} s of the replay's, {most // 1024} MB, status of make {make.wait()}")
P
