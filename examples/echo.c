/* Calls over loopback UDP. A server answers each request by its bytes in reverse, and a client compares each response.
 *
 * usage: echo [CALLS [BYTES [AT_A_TIME]]]     (100 calls of 100 bytes, one at a time); prints 'CALLS calls of BYTES bytes: N done, M failed'
 */
#define _GNU_SOURCE
#include "homa.h"
#include <arpa/inet.h>
#include <poll.h>
#include <signal.h>
#include <stdio.h>
#include <stdlib.h>
#include <string.h>
#include <sys/prctl.h>
#include <sys/socket.h>
#include <sys/wait.h>
#include <time.h>
#include <unistd.h>

enum { TICK_NS = 100000, MOST_MESSAGE = 1000000, MOST_FRAME = 1500, MOST_CALLS = 256, RESEND = 100, TRIES = 100, PATIENCE = RESEND * (TRIES + 1) };

typedef struct {
    homa_host host;
    int socket;
    uint16_t peer;
    unsigned long done, failed;
    homa_call_id answered; /* the call of the answer in hand, of which no entry has said yet that it was taken */
    size_t answer_len;     /* 0 where none is in hand */
    uint64_t asked_at;     /* the tick at which it was asked for last */
} node;

static pid_t server;
static uint64_t start_ns;
static size_t request_len;
static uint8_t request[MOST_MESSAGE], reversed[MOST_MESSAGE], message[MOST_MESSAGE], answer[MOST_MESSAGE];

static void need(bool holds, const char *what) {
    if (holds) return;
    fprintf(stderr, "echo: %s\n", what);
    if (server > 0) kill(server, SIGKILL);
    exit(1);
}

static uint64_t nanoseconds(void) {
    struct timespec t;
    clock_gettime(CLOCK_MONOTONIC, &t);
    return (uint64_t)t.tv_sec * 1000000000u + (uint64_t)t.tv_nsec;
}

static uint64_t tick(void) { return (nanoseconds() - start_ns) / TICK_NS; }

/* Waits for a datagram, at most until the host's next turn. */
static void wait_for(node *n) {
    struct pollfd on = { n->socket, POLLIN, 0 };
    struct timespec rest = { 1, 0 };
    uint64_t at;
    if (homa_next_turn(&n->host, &at) == HOMA_OK) {
        uint64_t then = start_ns + at * TICK_NS, now = nanoseconds(), left = then > now ? then - now : 0;
        if (left < 1000000000u) rest = (struct timespec){ 0, (long)left };
    }
    ppoll(&on, 1, &rest, NULL);
}

/* Sends the frames of the last step. A datagram that the system doesn't take is lost, as on any net. */
static void send_frames(node *n) {
    uint8_t frame[MOST_FRAME];
    homa_frame_info info;
    for (size_t i = 0, count = homa_frames(&n->host); i < count; i++) {
        need(homa_frame(&n->host, i, frame, sizeof frame, &info) == HOMA_OK, "a frame");
        (void)!send(n->socket, frame, info.len, 0);
    }
}

static bool is_same(homa_call_id a, homa_call_id b) { return a.client == b.client && a.incarnation == b.incarnation && a.number == b.number; }

/* Reads the entries of the last step. */
static void read_entries(node *n) {
    homa_entry_info entry;
    size_t len;
    for (size_t i = 0, count = homa_entries(&n->host); i < count; i++) {
        need(homa_entry(&n->host, i, &entry) == HOMA_OK, "an entry");
        if (entry.kind == HOMA_DONE) {
            need(homa_whole(&n->host, message, sizeof message, &len) == HOMA_OK && len == entry.len, "a response");
            need(len == request_len && memcmp(message, reversed, len) == 0, "a response of other bytes");
            n->done++;
        }
        if (entry.kind == HOMA_RAN && is_same(entry.id, n->answered)) n->answer_len = 0; /* the answer was taken */
        n->failed += entry.kind == HOMA_TIMEOUT || entry.kind == HOMA_FORGOTTEN;
    }
}

/* The answer to a request: its bytes in reverse. */
static void answer_to(node *n) {
    need(homa_whole(&n->host, answer, sizeof answer, &n->answer_len) == HOMA_OK, "a request");
    for (size_t i = 0, len = n->answer_len; i < len / 2; i++) {
        uint8_t byte = answer[i];
        answer[i] = answer[len - 1 - i];
        answer[len - 1 - i] = byte;
    }
}

/* Whether the answer to a call that asks is in hand. It is made once: one that wasn't taken, for want of memory, is kept until its call asks
 * again, or hasn't asked for twice the patience. Meanwhile other calls wait; they ask again. */
static bool has_answer(node *n, homa_call_id id, uint64_t now) {
    bool is_made = n->answer_len > 0 && is_same(id, n->answered);
    if (n->answer_len > 0 && !is_made && now - n->asked_at <= 2 * PATIENCE) return false;
    if (!is_made) answer_to(n);
    n->answered = id;
    n->asked_at = now;
    return true;
}

/* Takes the datagrams that have come, answers what is asked, and has the turn that is due. */
static void step(node *n) {
    uint8_t datagram[2048];
    homa_asked asked;
    uint64_t at;
    for (ssize_t len; (len = recv(n->socket, datagram, sizeof datagram, MSG_DONTWAIT)) >= 0;) {
        uint64_t now = tick();
        uint32_t result = homa_deliver(&n->host, n->peer, datagram, (size_t)len, now, answer, 0, &asked);
        if (result == HOMA_ASKS && has_answer(n, asked.id, now))
            result = homa_deliver(&n->host, n->peer, datagram, (size_t)len, now, answer, n->answer_len, &asked);
        if (result != HOMA_OK) continue; /* no answer, or no memory for it: the datagram is lost, and comes again */
        send_frames(n);
        read_entries(n);
    }
    if (homa_next_turn(&n->host, &at) == HOMA_OK && at <= tick() && homa_turn(&n->host, tick()) == HOMA_OK) {
        send_frames(n);
        read_entries(n);
    }
}

static void make_calls(node *n, size_t calls, size_t at_a_time) {
    homa_call_id id;
    for (size_t begun = 0; n->done + n->failed < calls;) {
        while (begun < calls && begun - n->done - n->failed < at_a_time) {
            need(homa_call(&n->host, n->peer, 7, request, request_len, tick(), &id) == HOMA_OK, "a call");
            begun++;
            send_frames(n);
        }
        wait_for(n);
        step(n);
    }
}

/* Two sockets on the loopback, each connected to the other. */
static void open_sockets(int sockets[2]) {
    struct sockaddr_in at[2];
    int room = 4 << 20;
    for (int i = 0; i < 2; i++) {
        socklen_t len = sizeof at[i];
        sockets[i] = socket(AF_INET, SOCK_DGRAM, 0);
        memset(&at[i], 0, sizeof at[i]);
        at[i].sin_family = AF_INET;
        at[i].sin_addr.s_addr = htonl(INADDR_LOOPBACK);
        setsockopt(sockets[i], SOL_SOCKET, SO_RCVBUF, &room, sizeof room);
        need(bind(sockets[i], (struct sockaddr *)&at[i], len) == 0 && getsockname(sockets[i], (struct sockaddr *)&at[i], &len) == 0, "bind");
    }
    for (int i = 0; i < 2; i++) need(connect(sockets[i], (struct sockaddr *)&at[1 - i], sizeof at[i]) == 0, "connect");
}

/* The server is a process of its own, which ends with this one, also where that is killed. */
static void fork_server(void) {
    pid_t client = getpid();
    server = fork();
    need(server >= 0, "fork");
    if (server > 0) return;
    prctl(PR_SET_PDEATHSIG, SIGKILL);
    if (getppid() != client) exit(1);
}

int main(int argc, char **argv) {
    size_t calls = argc > 1 ? strtoul(argv[1], NULL, 10) : 100, at_a_time = argc > 3 ? strtoul(argv[3], NULL, 10) : 1;
    homa_settings settings;
    int sockets[2];
    request_len = argc > 2 ? strtoul(argv[2], NULL, 10) : 100;
    need(calls > 0 && request_len > 0 && request_len <= MOST_MESSAGE && at_a_time > 0 && at_a_time <= MOST_CALLS, "usage: echo [CALLS [BYTES [AT_A_TIME]]]");
    for (size_t i = 0; i < request_len; i++) reversed[request_len - 1 - i] = request[i] = (uint8_t)(i * 7 + i / 251);
    homa_service(&settings);
    settings.window = 100000;
    settings.tries = TRIES; /* a machine that is busy may pause a program for seconds */
    open_sockets(sockets);
    start_ns = nanoseconds();
    fork_server();
    uint16_t id = server == 0;
    node n = { .host = HOMA_CLOSED, .socket = sockets[id], .peer = 1 - id };
    need(homa_open(&settings, id, 1, 0, &n.host) == HOMA_OK, "open");
    while (id == 1) {
        wait_for(&n);
        step(&n);
    }
    make_calls(&n, calls, at_a_time);
    printf("%zu calls of %zu bytes: %lu done, %lu failed\n", calls, request_len, n.done, n.failed);
    need(homa_close(&n.host) == HOMA_OK, "close");
    kill(server, SIGTERM);
    waitpid(server, NULL, 0);
    return n.failed > 0;
}
