#!/usr/bin/env bash
# Times calls of 100 bytes between two processes of `homa node` on loopback, beside a bare UDP echo of as many bytes in the same
# run: the round trip where one call is under way at a time, calls a second where more and more begin in each tick, processor
# time and system calls a call, and what it costs that each line is written as it comes. It needs a C compiler and strace.
# From the top, with the program built (./homa) or named by HOMA: bench/node.sh [CALLS]
set -eu
case ${1-1} in
-h | --help) sed -n '2,/^set/s/^# \{0,1\}//p' "$0"; exit 0 ;;
*[!0-9]* | "") echo "node.sh: a number is wanted, not '$1'" >&2; exit 2 ;;
esac
cd "$(dirname "$0")/.."
export HOMA="${HOMA:-$("$PWD/homa" --which)}"
PYTHONPATH=tools exec python3 - "${1:-1000}" <<'P'
import os, re, struct, subprocess, sys, tempfile, time
from nodes import PROGRAM, answers, free_ports, is_bound, script_of, until

# Notes when each DATA datagram of a call is handed to the system and comes from it, and when each `call` and `done` line is
# written; at the end the notes go to the file that NOTES names. With MUTE lines are taken and not written.
NOTES = r"""
#define _GNU_SOURCE
#include <dlfcn.h>
#include <stdio.h>
#include <stdlib.h>
#include <string.h>
#include <sys/socket.h>
#include <time.h>
#include <unistd.h>
#define MOST 4000000
static struct { long at; int what, call; } notes[MOST];
static long count;
static int mute;
static void note(int what, int call) {
    struct timespec t;
    clock_gettime(CLOCK_MONOTONIC, &t);
    if (count < MOST) notes[count].at = t.tv_sec * 1000000000L + t.tv_nsec, notes[count].what = what, notes[count++].call = call;
}
__attribute__((constructor)) static void begin(void) { mute = getenv("MUTE") != 0; }
__attribute__((destructor)) static void end(void) {
    FILE *to = fopen(getenv("NOTES"), "w");
    fwrite(notes, sizeof *notes, count, to);
    fclose(to);
}
#define REAL(name) static typeof(name) *real; if (!real) real = (typeof(name) *) dlsym(RTLD_NEXT, #name);
static int call_of(const unsigned char *it) { return it[12] << 24 | it[13] << 16 | it[14] << 8 | it[15]; }
ssize_t sendto(int fd, const void *from, size_t n, int flags, const struct sockaddr *to, socklen_t size) {
    REAL(sendto);
    if (n > 36 && ((const char *) from)[1] == 1) note(0 + ((const char *) from)[2], call_of(from));
    return real(fd, from, n, flags, to, size);
}
ssize_t recvfrom(int fd, void *to, size_t n, int flags, struct sockaddr *from, socklen_t *size) {
    REAL(recvfrom);
    ssize_t got = real(fd, to, n, flags, from, size);
    if (got > 36 && ((const char *) to)[1] == 1) note(2 + ((const char *) to)[2], call_of(to));
    return got;
}
ssize_t write(int fd, const void *from, size_t n) {
    REAL(write);
    const char *line = from;
    ssize_t took = fd == 1 && mute ? (ssize_t) n : real(fd, from, n);
    if (fd == 1 && n > 9 && (!memcmp(line, "call 0.1.", 9) || !memcmp(line, "done 0.1.", 9))) note(*line == 'c' ? 4 : 5, atoi(line + 9));
    return took;
}
"""
ECHO = r"""
#include <arpa/inet.h>
#include <stdio.h>
#include <stdlib.h>
#include <string.h>
#include <sys/socket.h>
#include <time.h>
#include <unistd.h>
static long now(void) { struct timespec t; clock_gettime(CLOCK_MONOTONIC, &t); return t.tv_sec * 1000000000L + t.tv_nsec; }
static int at(int port) {
    int fd = socket(AF_INET, SOCK_DGRAM, 0);
    struct sockaddr_in own = { .sin_family = AF_INET, .sin_port = htons(port), .sin_addr.s_addr = htonl(INADDR_LOOPBACK) };
    if (bind(fd, (void *) &own, sizeof own)) exit(1);
    return fd;
}
int main(int n, char **words) {
    int server = atoi(words[2]), client = atoi(words[3]), size = atoi(words[4]), count = atoi(words[5]), each = atoi(words[6]), pause = atoi(words[7]);
    char data[1500] = { 0 };
    struct sockaddr_in from, to = { .sin_family = AF_INET, .sin_port = htons(server), .sin_addr.s_addr = htonl(INADDR_LOOPBACK) };
    socklen_t room;
    if (words[1][0] == 's') {
        int fd = at(server);
        for (int k = 0; k < count; k++) {
            room = sizeof from;
            ssize_t got = recvfrom(fd, data, sizeof data, 0, (void *) &from, &room);
            sendto(fd, data, got, 0, (void *) &from, room);
        }
        return 0;
    }
    int fd = at(client);
    long begun = now();
    for (int k = 0; k < count; k += each) {
        long sent = now();
        for (int i = 0; i < each; i++) sendto(fd, data, size, 0, (void *) &to, sizeof to);
        for (int i = 0; i < each; i++) { room = sizeof from; recvfrom(fd, data, sizeof data, 0, (void *) &from, &room); }
        if (each == 1) printf("%ld\n", now() - sent);
        if (pause) usleep(pause);
    }
    printf("%ld\n", now() - begun);
}
"""
count, room = int(sys.argv[1]), tempfile.TemporaryDirectory()
folder = room.name
for name, text, words in (("notes", NOTES, ["-shared", "-fPIC", "-ldl"]), ("echo", ECHO, [])):
    with open(f"{folder}/{name}.c", "w") as it:
        it.write(text)
    subprocess.run(["cc", "-O2", f"{folder}/{name}.c", "-o", f"{folder}/{name}", *words], check=True)
SETTINGS = dict(calls=1024, served=4096, pages=4096, rate=1000000, life=10, tries=20)
SIZE = 100

def nodes(each, count=count, notes=True, mute=False, to="/dev/null", tool=()):
    """Two nodes, of which host 0 begins `each` calls a tick: their processor time, and the notes of both."""
    ports, ticks = free_ports(2), (count + each - 1) // each
    running = []
    for host in (1, 0):
        lines = [f"at {20 + k // each} call 0 1 0 *{SIZE}" for k in range(count)] if host == 0 else ()
        env = {**os.environ, "NOTES": f"{folder}/{host}.notes", "LD_PRELOAD": f"{folder}/notes"} if notes else dict(os.environ)
        env.update({"MUTE": "1"} if mute else {})
        script = script_of(ports, lines, here=[host], end=20 + ticks + 40, **SETTINGS)
        with open(f"{folder}/{host}.in", "w") as it:
            it.write(script)
        with open(f"{folder}/{host}.in") as given, open(to.format(host), "w") as out:
            running.append(subprocess.Popen([*(it.format(host) for it in tool), PROGRAM, "node"], stdin=given, stdout=out, env=env))
    spent = []
    for it in reversed(running):
        _, status, used = os.wait4(it.pid, 0)
        assert status == 0, f"a node ended with status {status >> 8}"
        spent.append(used.ru_utime + used.ru_stime)
    told = []
    for host in (0, 1):
        if notes:
            with open(f"{folder}/{host}.notes", "rb") as it:
                told.append([struct.unpack("qii", part) for part in iter(lambda: it.read(16), b"")])
    return spent, told

def again(*words, **how):
    """The same, up to five times: where the machine stands still for a while, too many calls are live, and the next is refused."""
    for left in (4, 3, 2, 1, 0):
        try:
            return nodes(*words, **how)
        except AssertionError:
            if not left:
                raise

def firsts(notes, what):
    found = {}
    for at, kind, call in notes:
        if kind == what:
            found.setdefault(call, at)
    return found

def share(values, part):
    values = sorted(values)
    return values[min(len(values) - 1, int(part * len(values)))] / 1000

def say(name, values):
    print(f"  {name}: median {share(values, .5):.0f} us, p99 {share(values, .99):.0f} us")
    return share(values, .5)

def echo(each, pause, count=count):
    ports = free_ports(2)
    words = [*(str(it) for it in (*ports, SIZE + 36, count, each, pause))]
    server = subprocess.Popen([f"{folder}/echo", "s", *words])
    until(lambda: is_bound(ports[0]))
    client = subprocess.run([f"{folder}/echo", "c", *words], capture_output=True, text=True, check=True, timeout=600)
    _, _, used = os.wait4(server.pid, 0)
    return [int(it) for it in client.stdout.split()], used.ru_utime + used.ru_stime

with open("/proc/cpuinfo") as it:
    print(next(line.split(": ")[1].strip() for line in it if line.startswith("model name")) + f", {os.cpu_count()} processors, Linux {os.uname().release}, load {os.getloadavg()[0]:.1f}")
print(f"One call at a time, {count} of {SIZE} bytes, one each 10 ms:")
_, (client, server) = again(1)
out, came, back, done = firsts(client, 0), firsts(server, 2), firsts(client, 3), firsts(client, 5)
answered, begun = firsts(server, 1), firsts(client, 4)
whole = [k for k in done if k in out and k in came and k in answered and k in back]
node = say("from the request's send to the response", [back[k] - out[k] for k in whole])
say("of it to the server's receive", [came[k] - out[k] for k in whole])
say("in the server, to its send", [answered[k] - came[k] for k in whole])
say("back to the client's receive", [back[k] - answered[k] for k in whole])
say("from the response to its `done` line", [done[k] - back[k] for k in whole])
times, _ = echo(1, 10000)
bare = say("a bare echo", times[:-1])
print(f"  ratio {node / bare:.2f}; {len(whole)} of {count} calls")

print(f"Calls that begin together, {count} of them:")
for each in (10, 50, 100, 200, 400):
    try:
        (first, second), (client, server) = again(each)
    except AssertionError as why:
        print(f"  {each} a tick: {why}")
        continue
    done, out = firsts(client, 5), firsts(client, 0)
    twice = [sum(it[1] == what for it in told) - count for what, told in ((0, client), (1, server))]
    speed, slowest = len(done) / (max(done.values()) - min(out.values())) * 1e9, max(done[k] - out[k] for k in done) / 1e6
    print(f"  {each} a tick: {len(done)} done, {speed:.0f} calls a second, slowest {slowest:.1f} ms; sent again: {twice[0]} requests, {twice[1]} responses")
many = 200 * count // 10
times, _ = echo(20, 0, many)
print(f"  a bare echo, 20 under way: {many / times[-1] * 1e9:.0f} a second")

many = 20 * count
print(f"Processor time of {many} calls, 40 a tick:")
figures = {}
for name, how in (("lines to /dev/null", {"notes": False}), ("the same, with notes", {}), ("lines to files, with notes", {"to": folder + "/{}.out"}), ("no line written, with notes", {"mute": True})):
    best = min((again(40, many, **how)[0] for _ in range(3)), key=sum)
    figures[name] = sum(best)
    print(f"  {name}: client {best[0] / many * 1e6:.1f} us a call, server {best[1] / many * 1e6:.1f} us")
before = os.times()
times, _ = echo(20, 0, many)
after = os.times()
bare = (after.children_user + after.children_system - before.children_user - before.children_system) / many
print(f"  a bare echo: {bare * 1e6:.1f} us, both sides; ratio {figures['lines to /dev/null'] / many / bare:.1f}")

print(f"System calls of {count} calls, 50 a tick:")
again(50, notes=False, tool=("strace", "-f", "-c", "-U", "calls,time,name", "-o", folder + "/{}.calls"))
for host, name in ((0, "client"), (1, "server")):
    with open(f"{folder}/{host}.calls") as it:
        rows = [line.split() for line in it if re.match(r"\s*\d+\s+[\d.]+\s+\w+", line)]
    print(f"  {name}: " + ", ".join(f"{word} {int(calls) / count:.2f} a call ({part}%)" for calls, part, word in rows if word != "total" and int(calls) > count / 20))
P
