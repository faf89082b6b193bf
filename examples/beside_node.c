/* A host beside a node: this program is host 1, and a process of `homa node` on this machine has host 0 (examples/beside_node.in).
 *
 * usage: beside_node PORT NODE [SECONDS [WIRE]]     (its port, the port of the node's host 0, 2 seconds, packets of version 1)
 *
 * It calls each service of the node, one after another, and answers the node's calls by their bytes in reverse. Ticks are those of a
 * node, 10 ms, and the settings those of its script: the usual ones, but for `tries 20`, and for `skew 500` with WIRE 2, where the clocks
 * may begin 5 s apart.
 */
#define _GNU_SOURCE
#include "homa.h"
#include <arpa/inet.h>
#include <poll.h>
#include <stdio.h>
#include <stdlib.h>
#include <string.h>
#include <sys/socket.h>
#include <time.h>
#include <unistd.h>

enum { TICK_NS = 10000000, MOST_MESSAGE = 1000000, MOST_FRAME = 1500, MOST_SHOWN = 16, SELF = 1, NODE = 0, LONG = 30000 };

static const struct { uint8_t service; size_t len; } calls[] = { { 0, 9 }, { 1, 9 }, { 2, 9 }, { 3, 9 }, { 9, 9 }, { 2, LONG } };
enum { CALLS = sizeof calls / sizeof *calls };

static homa_host host = HOMA_CLOSED;
static int to_node;
static uint64_t start_ns, skew;
static size_t begun, ended;
static uint8_t request[LONG] = "polvathur", message[MOST_MESSAGE];

static void need(bool holds, const char *what) {
    if (holds) return;
    fprintf(stderr, "beside_node: %s\n", what);
    exit(1);
}

static uint64_t nanoseconds(void) {
    struct timespec t;
    clock_gettime(CLOCK_MONOTONIC, &t);
    return (uint64_t)t.tv_sec * 1000000000u + (uint64_t)t.tv_nsec;
}

/* A host's own clock is ahead by `skew`, as a node's is. */
static uint64_t tick(void) { return (nanoseconds() - start_ns) / TICK_NS + skew; }

/* The first bytes in hex digits, and how many there are. */
static void show(const char *what, unsigned service, const uint8_t *bytes, size_t len) {
    printf("%s %u: ", what, service);
    for (size_t i = 0; i < len && i < MOST_SHOWN; i++) printf("%02x", bytes[i]);
    printf("%s, %zu bytes\n", len > MOST_SHOWN ? ".." : "", len);
    fflush(stdout);
}

static void send_frames(void) {
    uint8_t frame[MOST_FRAME];
    homa_frame_info info;
    for (size_t i = 0, count = homa_frames(&host); i < count; i++) {
        need(homa_frame(&host, i, frame, sizeof frame, &info) == HOMA_OK && info.to == NODE, "a frame");
        (void)!send(to_node, frame, info.len, 0); /* while the node isn't there it is lost, and sent again later */
    }
}

static void read_entries(void) {
    homa_entry_info entry;
    size_t len;
    for (size_t i = 0, count = homa_entries(&host); i < count; i++) {
        need(homa_entry(&host, i, &entry) == HOMA_OK, "an entry");
        need(entry.kind != HOMA_TIMEOUT && entry.kind != HOMA_FORGOTTEN, "a call failed");
        if (entry.kind != HOMA_DONE) continue;
        need(entry.id.number == ended && homa_whole(&host, message, sizeof message, &len) == HOMA_OK, "a response");
        show("done", calls[ended++].service, message, len);
    }
}

/* The call after the one that ended. */
static void next_call(void) {
    homa_call_id id;
    if (begun == CALLS || begun > ended) return;
    need(homa_call(&host, NODE, calls[begun].service, request, calls[begun].len, tick(), &id) == HOMA_OK, "a call");
    begun++;
    send_frames();
}

/* The answer to a request of the node: its bytes in reverse. */
static size_t answer_to(unsigned service) {
    size_t len;
    need(homa_whole(&host, message, sizeof message, &len) == HOMA_OK, "a request");
    show("asked", service, message, len);
    for (size_t i = 0; i < len / 2; i++) {
        uint8_t byte = message[i];
        message[i] = message[len - 1 - i];
        message[len - 1 - i] = byte;
    }
    return len;
}

/* Waits for a datagram, for 1 ms at most, and takes all that are there. Then is the turn of this tick. */
static void step(void) {
    struct pollfd on = { to_node, POLLIN, 0 };
    uint8_t datagram[2048];
    homa_asked asked;
    poll(&on, 1, 1);
    for (ssize_t len; (len = recv(to_node, datagram, sizeof datagram, MSG_DONTWAIT)) >= 0;) {
        uint64_t now = tick();
        uint32_t result = homa_deliver(&host, NODE, datagram, (size_t)len, now, message, 0, &asked);
        if (result == HOMA_ASKS) { /* this program ends where there is no memory for an answer; examples/echo.c keeps it */
            result = homa_deliver(&host, NODE, datagram, (size_t)len, now, message, answer_to(asked.service), &asked);
            need(result == HOMA_OK, "an answer");
        }
        if (result != HOMA_OK) continue;
        send_frames();
        read_entries();
    }
    need(homa_turn(&host, tick()) == HOMA_OK, "a turn");
    send_frames();
    read_entries();
}

static void open_socket(const char *own, const char *node) {
    struct sockaddr_in at = { .sin_family = AF_INET, .sin_addr.s_addr = htonl(INADDR_LOOPBACK), .sin_port = htons((uint16_t)atoi(own)) };
    to_node = socket(AF_INET, SOCK_DGRAM, 0);
    need(bind(to_node, (struct sockaddr *)&at, sizeof at) == 0, "bind");
    at.sin_port = htons((uint16_t)atoi(node));
    need(connect(to_node, (struct sockaddr *)&at, sizeof at) == 0, "connect");
}

int main(int argc, char **argv) {
    need(argc >= 3 && argc <= 5, "usage: beside_node PORT NODE [SECONDS [WIRE]]");
    uint64_t seconds = argc > 3 ? strtoul(argv[3], NULL, 10) : 2;
    homa_settings settings;
    homa_usual(&settings);
    settings.tries = 20;
    settings.wire = argc > 4 ? (uint32_t)atoi(argv[4]) : 1;
    settings.skew = settings.wire == 2 ? 500 : 0;
    skew = settings.skew;
    for (size_t i = 9; i < LONG; i++) request[i] = (uint8_t)(i % 256);
    open_socket(argv[1], argv[2]);
    start_ns = nanoseconds();
    need(homa_open(&settings, SELF, 1, 0, &host) == HOMA_OK, "open");
    while (nanoseconds() - start_ns < seconds * 1000000000u) {
        next_call();
        step();
    }
    printf("%zu of %d calls are done\n", ended, (int)CALLS);
    need(homa_close(&host) == HOMA_OK, "close");
    return ended < CALLS;
}
