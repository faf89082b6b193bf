/* Times calls over loopback UDP through the library, beside a bare UDP echo and a TCP echo of the same bytes, one server process each.
 *
 * usage: library homa BYTES CALLS AT_A_TIME
 *        library udp|runs|tcp BYTES CALLS       (one at a time; runs: UDP, the datagrams of up to 61,600 bytes in one call of the system)
 *        library core BYTES CALLS               (both hosts in one process, without a net: what the library takes)
 *        library homa|tcp mixed CALLS           (calls of 100 bytes, while calls of 1,000,000 bytes run beside them)
 * Prints the middle and the 99th of a hundred of the times in us, calls a second, and long ones a second. Every response is compared.
 */
#define _GNU_SOURCE
#include "homa.h"
#include <arpa/inet.h>
#include <netinet/tcp.h>
#include <netinet/udp.h>
#include <poll.h>
#include <signal.h>
#include <stdio.h>
#include <stdlib.h>
#include <string.h>
#include <sys/prctl.h>
#include <sys/socket.h>
#include <sys/wait.h>
#include <time.h>
#include <unistd.h>
#ifndef UDP_GRO
#define UDP_SEGMENT 103
#define UDP_GRO 104
#endif

enum { TICK_NS = 100000, MOST = 1000000, PIECE = 1400, MOST_CALLS = 1000000, NUMBERS = 1 << 21, SHORT = 100, MOST_FRAMES = 64,
       MOST_RUN = 44, MOST_DATAGRAM = 65535, CALLS_A_TICK = 10 };

static uint64_t start_ns, *times;
/* What is sent and what came back, each behind room for a length. */
static uint8_t framed[4 + MOST], framed_back[4 + MOST], *const sent = framed + 4, *const got = framed_back + 4;
static pid_t server;

static void need(bool holds, const char *what) {
    if (holds) return;
    fprintf(stderr, "library: %s\n", what);
    if (server > 0) kill(server, SIGKILL);
    exit(1);
}

/* The server is a process of its own, which ends with this one, also where that is killed. */
static void fork_server(void) {
    pid_t client = getpid();
    server = fork();
    need(server >= 0, "fork");
    if (server > 0) return;
    prctl(PR_SET_PDEATHSIG, SIGKILL);
    if (getppid() != client) exit(1);
}

static uint64_t nanoseconds(void) {
    struct timespec t;
    clock_gettime(CLOCK_MONOTONIC, &t);
    return (uint64_t)t.tv_sec * 1000000000u + (uint64_t)t.tv_nsec;
}

static uint64_t tick(void) { return (nanoseconds() - start_ns) / TICK_NS; }

static int by_size(const void *a, const void *b) {
    uint64_t x = *(const uint64_t *)a, y = *(const uint64_t *)b;
    return x < y ? -1 : x > y;
}

static void tell(size_t calls, size_t long_calls, uint64_t all) {
    qsort(times, calls, sizeof *times, by_size);
    printf("%.1f %.1f %.0f", (double)times[calls / 2] / 1e3, (double)times[calls * 99 / 100] / 1e3, (double)calls * 1e9 / (double)all);
    printf(" %.0f\n", (double)long_calls * 1e9 / (double)all);
}

/* Datagrams of `piece` bytes, the last one perhaps of fewer, in one call of the system. */
static void send_run(int socket, struct iovec *run, size_t count, uint16_t piece) {
    char control[CMSG_SPACE(sizeof piece)] = { 0 };
    struct msghdr head = { .msg_iov = run, .msg_iovlen = count, .msg_control = control, .msg_controllen = sizeof control };
    struct cmsghdr *of_piece = CMSG_FIRSTHDR(&head);
    *of_piece = (struct cmsghdr){ .cmsg_level = IPPROTO_UDP, .cmsg_type = UDP_SEGMENT, .cmsg_len = CMSG_LEN(sizeof piece) };
    memcpy(CMSG_DATA(of_piece), &piece, sizeof piece);
    (void)!sendmsg(socket, &head, 0);
}

/* ---- the library */

typedef struct {
    homa_host host;
    int socket;
    uint16_t peer;
    size_t done, over, live, len;  /* how many calls of `len` bytes are done, how many of any, and how many are under way */
    size_t spent, rate;            /* bytes that were sent since the last turn, and how many may be in a tick */
    uint64_t turned;               /* the tick of that turn */
    bool holds;                    /* whether frames may be held back for a turn */
    uint64_t since[NUMBERS];       /* when each began, by its number */
    bool is_long[NUMBERS];
} node;

/* Frames of several steps, which leave before the next wait: those of one length in one call of the system. */
static uint8_t frames[MOST_FRAMES][1536], handed[MOST_FRAMES][1536];
static struct iovec parts[MOST_FRAMES], handed_parts[MOST_FRAMES];
static size_t waiting;

/* A datagram that the system doesn't take is lost, as on any net. The last one of a run may be shorter. */
static void send_waiting(node *n) {
    for (size_t i = 0, end; i < waiting; i = end) {
        size_t len = parts[i].iov_len;
        for (end = i + 1; end < waiting && end - i < MOST_RUN && parts[end - 1].iov_len == len && parts[end].iov_len <= len;) end++;
        if (end == i + 1) (void)!send(n->socket, frames[i], len, 0);
        else send_run(n->socket, parts + i, end - i, (uint16_t)len);
    }
    waiting = 0;
}

static void keep_frames(node *n) {
    size_t count = homa_frames(&n->host);
    homa_frame_info info;
    if (waiting + count > MOST_FRAMES) send_waiting(n);
    for (size_t i = 0; i < count; i++, waiting++) {
        need(homa_frame(&n->host, i, frames[waiting], sizeof frames[waiting], &info) == HOMA_OK, "a frame");
        parts[waiting] = (struct iovec){ frames[waiting], info.len };
        n->spent += info.len;
    }
    n->holds = count == MOST_FRAMES || n->spent + PIECE > n->rate;
}

static void after_step(node *n) {
    homa_entry_info entry;
    size_t len;
    keep_frames(n);
    for (size_t i = 0, count = n->live > 0 ? homa_entries(&n->host) : 0; i < count && n->live > 0; i++) { /* only calls of this host end */
        need(homa_entry(&n->host, i, &entry) == HOMA_OK && entry.kind != HOMA_TIMEOUT && entry.kind != HOMA_FORGOTTEN, "a call failed");
        if (entry.kind != HOMA_DONE) continue;
        need(homa_whole(&n->host, got, MOST, &len) == HOMA_OK && memcmp(got, sent, len) == 0, "a response");
        n->over++;
        n->live--;
        if (!n->is_long[entry.id.number % NUMBERS]) times[n->done++] = nanoseconds() - n->since[entry.id.number % NUMBERS];
    }
}

/* Waits for a datagram, or for several that were sent as one run, whose length is `piece`. The receive itself waits, by a limit of 4 ms;
 * where frames may be held back for a turn, the wait is for one tick, which costs a timer of the system each time. */
static ssize_t receive(node *n, uint8_t *room, size_t *piece) {
    char control[CMSG_SPACE(sizeof(int))];
    struct iovec all = { room, MOST_DATAGRAM };
    struct msghdr head = { .msg_iov = &all, .msg_iovlen = 1, .msg_control = control, .msg_controllen = sizeof control };
    struct pollfd on = { n->socket, POLLIN, 0 };
    struct timespec rest = { 0, TICK_NS };
    int run = 0;
    if (n->holds) ppoll(&on, 1, &rest, NULL);
    ssize_t len = recvmsg(n->socket, &head, n->holds ? MSG_DONTWAIT : 0);
    struct cmsghdr *of_len = len < 0 ? NULL : CMSG_FIRSTHDR(&head);
    if (of_len != NULL && of_len->cmsg_type == UDP_GRO) memcpy(&run, CMSG_DATA(of_len), sizeof run);
    *piece = run > 0 ? (size_t)run : MOST_DATAGRAM;
    return len;
}

static void deliver(node *n, const uint8_t *datagram, size_t len, uint64_t now) {
    homa_asked asked;
    size_t whole;
    uint32_t result = homa_deliver(&n->host, n->peer, datagram, len, now, got, 0, &asked);
    if (result == HOMA_ASKS) {
        need(homa_whole(&n->host, got, MOST, &whole) == HOMA_OK, "a request");
        result = homa_deliver(&n->host, n->peer, datagram, len, now, got, whole, &asked);
    }
    if (result == HOMA_OK) after_step(n);
}

/* One turn each tick in which there is anything to do: the pacer's, and for whatever is due. */
static void turn(node *n, uint64_t now) {
    if (now == n->turned || homa_turn(&n->host, now) != HOMA_OK) return;
    n->turned = now;
    n->spent = 0;
    after_step(n);
}

static void step(node *n) {
    static uint8_t room[MOST_DATAGRAM];
    size_t piece;
    send_waiting(n);
    ssize_t len = receive(n, room, &piece);
    uint64_t now = tick();
    for (size_t at = 0; len >= 0 && at < (size_t)len; at += piece) deliver(n, room + at, (size_t)len - at < piece ? (size_t)len - at : piece, now);
    send_waiting(n); /* before the turn, for which nobody waits */
    turn(n, now);
}

static void begin(node *n, size_t len, uint64_t now) {
    homa_call_id id;
    uint64_t since = nanoseconds();
    need(homa_call(&n->host, n->peer, 0, sent, len, now, &id) == HOMA_OK, "a call");
    n->live++;
    n->since[id.number % NUMBERS] = since;
    n->is_long[id.number % NUMBERS] = len != n->len;
    after_step(n);
}

static void open_node(node *n, uint16_t id, int socket, bool is_mixed) {
    homa_settings s;
    int on = 1;
    memset(n, 0, sizeof *n);
    homa_usual(&s);
    s.window = 100000, s.unsched = 20000, s.rate = 1000000, s.resend = 100, s.tries = 100, s.life = 100, s.served = 4096, s.pages = 4096;
    if (is_mixed) s.window = 30000, s.unsched = 10000, s.rate = 5000; /* 400 Mbit/s each way, on a link of 1 Gbit/s */
    need(homa_open(&s, id, 1, 0, &n->host) == HOMA_OK, "open");
    n->socket = socket;
    n->peer = 1 - id;
    n->rate = s.rate;
    setsockopt(socket, IPPROTO_UDP, UDP_GRO, &on, sizeof on);
}

static void homa_calls(const int sockets[2], size_t len, size_t calls, size_t at_a_time, size_t long_calls) {
    static node n;
    start_ns = nanoseconds();
    fork_server();
    open_node(&n, server == 0, sockets[server == 0], long_calls > 0);
    while (server == 0) step(&n);
    n.len = len;
    uint64_t began = nanoseconds();
    for (size_t begun = 0, begun_long = 0; n.done < calls;) {
        while (begun < calls && begun - n.done < at_a_time) {
            begin(&n, len, tick());
            begun++;
        }
        while (long_calls > 0 && begun_long - (n.over - n.done) < long_calls) {
            begin(&n, MOST, tick());
            begun_long++;
        }
        step(&n);
    }
    tell(calls, n.over - n.done, nanoseconds() - began);
    homa_close(&n.host);
}

/* ---- the library alone: both hosts in one process, each frame handed over as it is */

/* Hands the frames that a host sent to the other, and what that sends back. */
static void hand_over(node *from, node *to, uint64_t now) {
    while (waiting > 0) {
        size_t count = waiting;
        node *was = from;
        memcpy(handed, frames, count * sizeof *frames);
        memcpy(handed_parts, parts, count * sizeof *parts);
        waiting = 0;
        for (size_t i = 0; i < count; i++) deliver(to, handed[i], handed_parts[i].iov_len, now);
        from = to;
        to = was;
    }
}

static void core_calls(const int sockets[2], size_t len, size_t calls) {
    static node n[2];
    for (uint16_t i = 0; i < 2; i++) open_node(&n[i], i, sockets[i], false);
    n[0].len = len;
    uint64_t began = nanoseconds();
    for (size_t i = 0; i < calls; i++) {
        uint64_t now = i / CALLS_A_TICK;
        begin(&n[0], len, now);
        hand_over(&n[0], &n[1], now);
        for (int k = 0; k < 2; k++) {
            turn(&n[k], now);
            hand_over(&n[k], &n[1 - k], now);
        }
        need(n[0].done == i + 1, "a call isn't done at once");
    }
    tell(calls, 0, nanoseconds() - began);
}

/* ---- the same bytes there and back, bare */

static void send_pieces(int socket, uint8_t *at, size_t len, bool in_runs) {
    for (size_t k, had = 0; had < len; had += k) {
        size_t most = in_runs ? MOST_RUN * PIECE : PIECE;
        k = len - had < most ? len - had : most;
        if (k > PIECE) send_run(socket, &(struct iovec){ at + had, k }, 1, PIECE);
        else (void)!send(socket, at + had, k, 0);
    }
}

static void udp_echo(int socket, bool in_runs) {
    static uint8_t room[MOST_DATAGRAM];
    for (;;) {
        ssize_t len = recv(socket, room, sizeof room, 0);
        if (len >= 0) send_pieces(socket, room, (size_t)len, in_runs);
    }
}

static void udp_calls(const int sockets[2], size_t len, size_t calls, bool in_runs) {
    struct timeval limit = { 0, 200000 };
    int is_on = in_runs;
    setsockopt(sockets[0], SOL_SOCKET, SO_RCVTIMEO, &limit, sizeof limit);
    for (int i = 0; i < 2; i++) setsockopt(sockets[i], IPPROTO_UDP, UDP_GRO, &is_on, sizeof is_on);
    fork_server();
    if (server == 0) udp_echo(sockets[1], in_runs);
    uint64_t began = nanoseconds();
    for (size_t i = 0; i < calls; i++) {
        uint64_t since = nanoseconds();
        size_t back = 0;
        send_pieces(sockets[0], sent, len, in_runs);
        for (ssize_t k; back < len && (k = recv(sockets[0], got + back, len - back, 0)) >= 0;) back += (size_t)k;
        need(back < len || memcmp(got, sent, len) == 0, "a datagram"); /* one that is lost counts with the time that was waited */
        times[i] = nanoseconds() - since;
    }
    tell(calls, 0, nanoseconds() - began);
}

static bool moved(int socket, uint8_t *at, size_t len, bool writes) {
    for (size_t had = 0; had < len;) {
        ssize_t k = writes ? send(socket, at + had, len - had, MSG_NOSIGNAL) : recv(socket, at + had, len - had, 0);
        if (k <= 0) return false;
        had += (size_t)k;
    }
    return true;
}

/* A request is its length and its bytes, in one write; so is a response. Both sides receive as much as has come. */
static void tcp_echo(int socket) {
    uint32_t len = 0;
    for (size_t had = 0;;) {
        ssize_t k = recv(socket, framed_back + had, sizeof framed_back - had, 0);
        if (k <= 0) exit(0);
        had += (size_t)k;
        while (had >= 4 && (memcpy(&len, framed_back, 4), had >= 4 + len)) {
            if (!moved(socket, framed_back, 4 + len, true)) exit(0);
            memmove(framed_back, framed_back + 4 + len, had -= 4 + len);
        }
    }
}

static void tcp_call(int socket, uint32_t len) {
    memcpy(framed, &len, 4);
    need(moved(socket, framed, 4 + len, true), "a request");
}

static void tcp_answer(int socket, uint32_t len) {
    need(moved(socket, framed_back, 4 + len, false) && memcmp(framed_back, &len, 4) == 0 && memcmp(got, sent, len) == 0, "a response");
}

static void tcp_calls(size_t len, size_t calls, bool is_mixed) {
    struct sockaddr_in at = { .sin_family = AF_INET, .sin_addr.s_addr = htonl(INADDR_LOOPBACK) };
    socklen_t at_len = sizeof at;
    int listener = socket(AF_INET, SOCK_STREAM, 0), to = socket(AF_INET, SOCK_STREAM, 0), on = 1;
    need(bind(listener, (struct sockaddr *)&at, at_len) == 0 && listen(listener, 1) == 0, "listen");
    need(getsockname(listener, (struct sockaddr *)&at, &at_len) == 0, "a name");
    fork_server();
    if (server == 0) {
        int from = accept(listener, NULL, NULL);
        setsockopt(from, IPPROTO_TCP, TCP_NODELAY, &on, sizeof on);
        tcp_echo(from);
    }
    need(connect(to, (struct sockaddr *)&at, at_len) == 0, "connect");
    setsockopt(to, IPPROTO_TCP, TCP_NODELAY, &on, sizeof on);
    uint64_t began = nanoseconds();
    for (size_t i = 0; i < calls; i++) {
        uint64_t since = nanoseconds();
        if (is_mixed) { /* a long call is under way on the same connection */
            tcp_call(to, MOST);
            since = nanoseconds();
        }
        tcp_call(to, (uint32_t)len);
        if (is_mixed) tcp_answer(to, MOST);
        tcp_answer(to, (uint32_t)len);
        times[i] = nanoseconds() - since;
    }
    tell(calls, is_mixed ? calls : 0, nanoseconds() - began);
}

static void open_sockets(int sockets[2]) {
    struct sockaddr_in at[2];
    int room = 4 << 20;
    struct timeval limit = { 0, 4000 };
    for (int i = 0; i < 2; i++) {
        socklen_t len = sizeof at[i];
        sockets[i] = socket(AF_INET, SOCK_DGRAM, 0);
        at[i] = (struct sockaddr_in){ .sin_family = AF_INET, .sin_addr.s_addr = htonl(INADDR_LOOPBACK) };
        setsockopt(sockets[i], SOL_SOCKET, SO_RCVBUF, &room, sizeof room);
        setsockopt(sockets[i], SOL_SOCKET, SO_RCVTIMEO, &limit, sizeof limit);
        need(bind(sockets[i], (struct sockaddr *)&at[i], len) == 0, "bind");
        need(getsockname(sockets[i], (struct sockaddr *)&at[i], &len) == 0, "a name");
    }
    for (int i = 0; i < 2; i++) need(connect(sockets[i], (struct sockaddr *)&at[1 - i], sizeof at[i]) == 0, "connect");
}

int main(int argc, char **argv) {
    int sockets[2];
    need(argc >= 4, "see the head of bench/library.c");
    bool is_mixed = strcmp(argv[2], "mixed") == 0;
    size_t len = is_mixed ? SHORT : strtoul(argv[2], NULL, 10), calls = strtoul(argv[3], NULL, 10);
    size_t at_a_time = argc > 4 ? strtoul(argv[4], NULL, 10) : 1;
    need(len > 0 && len <= MOST && calls > 0 && calls <= MOST_CALLS && at_a_time > 0 && at_a_time <= 200, "numbers");
    times = calloc(calls + 1024, sizeof *times);
    need(times != NULL, "memory");
    for (size_t i = 0; i < MOST; i++) sent[i] = (uint8_t)(i * 7 + i / 251);
    open_sockets(sockets);
    if (strcmp(argv[1], "homa") == 0) homa_calls(sockets, len, calls, at_a_time, is_mixed ? 2 : 0);
    else if (strcmp(argv[1], "udp") == 0) udp_calls(sockets, len, calls, false);
    else if (strcmp(argv[1], "runs") == 0) udp_calls(sockets, len, calls, true);
    else if (strcmp(argv[1], "tcp") == 0) tcp_calls(len, calls, is_mixed);
    else if (strcmp(argv[1], "core") == 0) core_calls(sockets, len, calls);
    else need(false, "homa, udp, runs, tcp or core");
    if (server > 0) {
        kill(server, SIGKILL);
        waitpid(server, NULL, 0);
    }
    return 0;
}
