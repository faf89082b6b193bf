"""Runs of the built program with faults put between it and the system: memory is refused, reads, writes and calls of the network
fail or are short, and datagrams are lost. With a clock that goes on by steps, a node's run is the same each time."""
import os
import subprocess
import tempfile

TOP = os.path.dirname(os.path.dirname(os.path.abspath(__file__)))
PROGRAM = os.environ.get("HOMA", os.path.join(TOP, "crates", "homa", "out", "homa"))

# A library that stands before the C library. It counts allocations, reads and writes, and lets the one of a given number fail.
LIBRARY = r"""
#define _GNU_SOURCE
#include <arpa/inet.h>
#include <dlfcn.h>
#include <errno.h>
#include <poll.h>
#include <stdarg.h>
#include <stdio.h>
#include <stdlib.h>
#include <sys/ioctl.h>
#include <sys/socket.h>
#include <sys/types.h>
#include <time.h>
#include <unistd.h>
static unsigned long allocations, reads, writes, nets, sends, readings;
static int looking_up;
static unsigned long number(const char *name) { const char *it = getenv(name); return it ? strtoul(it, 0, 10) : 0; }
/* the call of this number fails, and with FROM each later one, too; with the error number ERRNO, or EIO */
static int fails(unsigned long *count, const char *name) {
    unsigned long at = number(name), error = number("ERRNO");
    ++*count;
    if (!at || *count < at || (*count > at && !number("FROM"))) return 0;
    errno = error ? error : EIO;
    return 1;
}
__attribute__((destructor)) static void tell(void) {
    if (getenv("TELL")) dprintf(2, "calls %lu %lu %lu %lu\n", allocations, reads, writes, nets);
}
#define REAL(name) static typeof(name) *real; if (!real) { looking_up = 1; real = (typeof(name) *) dlsym(RTLD_NEXT, #name); looking_up = 0; }
#define REFUSE(answer) if (fails(&allocations, "REFUSE")) { errno = ENOMEM; return answer; }
void *malloc(size_t n) { REAL(malloc); REFUSE(0) return real(n); }
/* dlsym may ask calloc for memory, and does without it */
void *calloc(size_t m, size_t n) { if (looking_up) return 0; REAL(calloc); REFUSE(0) return real(m, n); }
void *realloc(void *p, size_t n) { REAL(realloc); REFUSE(0) return real(p, n); }
void *aligned_alloc(size_t a, size_t n) { REAL(aligned_alloc); REFUSE(0) return real(a, n); }
int posix_memalign(void **p, size_t a, size_t n) { REAL(posix_memalign); REFUSE(ENOMEM) return real(p, a, n); }
static size_t shorter(size_t n) { unsigned long most = number("SHORT"); return most && most < n ? most : n; }
ssize_t read(int fd, void *to, size_t n) {
    REAL(read);
    if (fd) return real(fd, to, n);
    if (fails(&reads, "FAIL_READ")) return -1;
    return real(fd, to, shorter(n));
}
ssize_t write(int fd, const void *from, size_t n) {
    REAL(write);
    if (fd != 1) return real(fd, from, n);
    if (fails(&writes, "FAIL_WRITE")) return -1;
    return real(fd, from, shorter(n));
}
#define NET if (fails(&nets, "FAIL_NET")) return -1;
int socket(int domain, int type, int protocol) { REAL(socket); NET return real(domain, type, protocol); }
int bind(int fd, const struct sockaddr *at, socklen_t size) { REAL(bind); NET return real(fd, at, size); }
int setsockopt(int fd, int level, int name, const void *value, socklen_t size) { REAL(setsockopt); NET return real(fd, level, name, value, size); }
/* with FULL a socket has no room to send while it doesn't wait */
static char is_full[1024];
int ioctl(int fd, unsigned long request, ...) {
    va_list more;
    va_start(more, request);
    void *what = va_arg(more, void *);
    va_end(more);
    REAL(ioctl);
    if (request == FIONBIO) {
        NET
        is_full[fd % 1024] = number("FULL") && *(int *) what;
    }
    return real(fd, request, what);
}
static int port(const struct sockaddr *at) { return ntohs(((const struct sockaddr_in *) at)->sin_port); }
static int own_port(int fd) {
    struct sockaddr_in own;
    socklen_t room = sizeof own;
    getsockname(fd, (struct sockaddr *) &own, &room);
    return port((struct sockaddr *) &own);
}
/* how many datagrams were sent to each port and haven't come: a system may hand one over after its `sendto` has returned */
static unsigned long under_way[65536];
/* with STEP a receive waits where a datagram is under way to it, for a second at most, and else not at all; and from its third
   reading on the clock goes on by so many microseconds each time: the first is the node's start, and the second its first loop
   turn, which has tick 0 */
ssize_t recvfrom(int fd, void *to, size_t n, int flags, struct sockaddr *from, socklen_t *size) {
    REAL(recvfrom);
    NET
    if (!number("STEP")) return real(fd, to, n, flags, from, size);
    unsigned long *left = &under_way[own_port(fd)];
    if (*left) {
        struct pollfd it = { fd, POLLIN, 0 };
        poll(&it, 1, 1000);
        --*left;
    }
    return real(fd, to, n, flags | MSG_DONTWAIT, from, size);
}
int clock_gettime(clockid_t id, struct timespec *to) {
    REAL(clock_gettime);
    unsigned long step = number("STEP"), passed = readings < 2 ? 0 : step * (readings - 1);
    if (!step) return real(id, to);
    readings++;
    to->tv_sec = 1000 + passed / 1000000;
    to->tv_nsec = passed % 1000000 * 1000;
    return 0;
}
/* each datagram is written down to the file that LOG names, with both ports; of each LOSE the last one is taken and not sent */
ssize_t sendto(int fd, const void *from, size_t n, int flags, const struct sockaddr *to, socklen_t size) {
    REAL(sendto);
    static FILE *log;
    unsigned long lose = number("LOSE");
    if (is_full[fd % 1024]) { errno = EAGAIN; return -1; }
    NET
    sends++;
    if (getenv("LOG")) {
        if (!log) log = fopen(getenv("LOG"), "w");
        fprintf(log, "%d %d ", own_port(fd), port(to));
        for (size_t i = 0; i < n; i++) fprintf(log, "%02x", ((const unsigned char *) from)[i]);
        fputc('\n', log);
        fflush(log);
    }
    if (lose && sends % lose == 0) return n;
    under_way[port(to)]++;
    return real(fd, from, n, flags, to, size);
}
"""


class Faults:
    """The library, compiled once."""

    def __init__(self):
        self.folder = tempfile.TemporaryDirectory()
        source, self.library = os.path.join(self.folder.name, "faults.c"), os.path.join(self.folder.name, "faults.so")
        with open(source, "w") as it:
            it.write(LIBRARY)
        subprocess.run(["cc", "-O1", "-shared", "-fPIC", source, "-o", self.library, "-ldl"], check=True)

    def environment(self, **faults):
        """The surroundings of a run with these faults; each name is that of one in the library: REFUSE, FAIL_READ, FAIL_WRITE, FAIL_NET
        (the number of the call that fails), FROM (1: each later one fails, too), ERRNO, SHORT, LOSE, LOG, STEP, FULL."""
        return {**os.environ, "LD_PRELOAD": self.library, **{name: str(value) for name, value in faults.items()}}

    def run(self, words, given=b"", program=PROGRAM, **faults):
        """The run of the program with these words and this input, and these faults."""
        return subprocess.run([program, *words], input=given, capture_output=True, env=self.environment(**faults))

    def count(self, words, given=b"", **faults):
        """How many allocations, reads, writes and calls of the net the whole run makes, and the run."""
        whole = self.run(words, given, TELL="1", **faults)
        told = whole.stderr.rsplit(b"calls ", 1)[-1].split()
        return [int(it) for it in told[:4]], whole
