/* A key-value store over Homa: host 0 is the server, the others are clients that compare each response. README.md says how to run it.
 *
 * usage: kv server HOSTS FOLDER
 *        kv client HOSTS FOLDER ID CALLS AT_A_TIME MOST_BYTES
 *
 * HOSTS is the file that net.h reads; in FOLDER each host keeps its incarnation and its last tick. KV_TICK_US is how many microseconds a tick
 * has (100). One of KV_LATE calls (8) is answered late, with 0 none. SIGUSR1 prints what was counted; SIGTERM ends. */
#define _GNU_SOURCE
#include "../recipes/identity.h"
#include "../recipes/tick.h"
#include "homa.h"
#include "net.h"
#include <errno.h>
#include <signal.h>
#include <stdlib.h>
#include <string.h>
#include <sys/epoll.h>
#include <sys/signalfd.h>
#include <sys/timerfd.h>

enum { PUT = 1, GET = 2, PUT_LATER = 3, GET_LATER = 4 }; /* services */
enum { STORED = 0, NOT_STORED = 1, NOT_A_REQUEST = 2 };  /* the first byte of a response; four of the server's incarnation follow */
enum { HEAD = 5, MOST_KEY = 32, AT_WORK = 2048, MOST_DELAY = 300, MOST_MESSAGE = 1000000 };

typedef struct {
    homa_host host;
    net net;
    identity identity;
    int epoll, timer, signals;
    bool is_over;
} node;

static node self;
static uint8_t message[MOST_MESSAGE];

static void need(bool holds, const char *what) {
    if (holds) return;
    fprintf(stderr, "kv: %s\n", what);
    exit(2);
}

/* ---- the loop */

static void watch(int fd) {
    struct epoll_event event = { .events = EPOLLIN, .data.fd = fd };
    need(fd >= 0 && epoll_ctl(self.epoll, EPOLL_CTL_ADD, fd, &event) == 0, strerror(errno));
}

/* A server keeps what asks, as long as a datagram may be delivered. */
static void open_node(const char *hosts, const char *folder, uint16_t id, bool is_server) {
    homa_settings settings;
    sigset_t signals;
    char name[20];
    uint64_t last;
    const char *fault = net_open(&self.net, hosts, id);
    if (fault) fprintf(stderr, "kv: %s: ", hosts);
    need(!fault, fault);
    snprintf(name, sizeof name, "host-%u", id);
    lease = (uint64_t)(1000000 / tick_us + 1); /* a second */
    need(next_life(&self.identity, folder, name, tick(), &last), "the file of the last life can't be read or written");
    for (int64_t left; (left = left_until(last)) > 0;) nanosleep(&(struct timespec){ left / 1000000000, left % 1000000000 }, NULL);
    self.host = (homa_host)HOMA_CLOSED;
    homa_service(&settings);
    uint32_t incarnation = self.identity.incarnation;
    uint32_t result = is_server ? homa_open_late(&settings, id, incarnation, last, AT_WORK, settings.life, &self.host)
                                : homa_open(&settings, id, incarnation, last, &self.host);
    need(result == HOMA_OK, homa_text_of(result));
    sigemptyset(&signals);
    sigaddset(&signals, SIGUSR1), sigaddset(&signals, SIGTERM), sigaddset(&signals, SIGINT);
    sigprocmask(SIG_BLOCK, &signals, NULL);
    self.epoll = epoll_create1(0);
    watch(self.net.socket);
    watch(self.timer = timerfd_create(CLOCK_MONOTONIC, TFD_NONBLOCK));
    watch(self.signals = signalfd(-1, &signals, SFD_NONBLOCK));
}

/* The tick at which a step may be done; what the file says is ahead of it. */
static uint64_t step_tick(void) {
    uint64_t now = tick();
    need(may_step(&self.identity, now), "the file of this life can't be written");
    return now;
}

static void print_counts(const char *more) {
    homa_counts it;
    homa_counts_of(&self.host, &it);
    unsigned long failed = (unsigned long)(it.timeouts + it.forgotten);
    fprintf(stderr, "host %u, incarnation %u: ran %lu, done %lu, failed %lu, datagrams sent %lu, received %lu, of strangers %lu, not taken by the system %lu%s\n",
            self.net.id, self.identity.incarnation, (unsigned long)it.ran, (unsigned long)it.done, failed, self.net.sent, self.net.received, self.net.foreign,
            self.net.lost, more);
    fprintf(stderr, "asked again %lu, too old %lu, no packets %lu, no row %lu, no pages %lu, given up %lu, rows in use %lu\n", (unsigned long)it.resends_sent,
            (unsigned long)it.stale, (unsigned long)it.junk, (unsigned long)it.no_row, (unsigned long)it.no_pages, (unsigned long)it.dropped,
            (unsigned long)it.rows);
}

/* Waits for datagrams, for a signal, or until a tick. */
static void wait_until(uint64_t at, void (*told)(void)) {
    struct epoll_event events[4];
    int64_t left = at == UINT64_MAX ? 0 : left_until(at);
    struct itimerspec then = { .it_value = { left / 1000000000, left % 1000000000 } };
    if (at != UINT64_MAX && left == 0) then.it_value.tv_nsec = 1;
    timerfd_settime(self.timer, 0, &then, NULL);
    int count = epoll_wait(self.epoll, events, 4, -1);
    for (int i = 0; i < count; i++) {
        struct signalfd_siginfo signal;
        if (events[i].data.fd != self.signals || read(self.signals, &signal, sizeof signal) != sizeof signal) continue;
        if (signal.ssi_signo == SIGUSR1) told();
        else self.is_over = true;
    }
}

/* The tick of the next turn, or of what the program has to do, whichever is first. */
static uint64_t next_turn(uint64_t also) {
    uint64_t at;
    return homa_next_turn(&self.host, &at) == HOMA_OK && at < also ? at : also;
}

static bool turn(void) {
    uint64_t now = step_tick();
    return next_turn(UINT64_MAX) <= now && homa_turn(&self.host, now) == HOMA_OK;
}

/* ---- values, which a client makes of a number and knows again */

static uint64_t mixed(uint64_t it) {
    it = (it ^ it >> 31) * 0x9e3779b97f4a7c15u;
    return it ^ it >> 29;
}

static size_t most_bytes;

static size_t value_of(uint64_t version, uint8_t *at) {
    size_t len = 8 + mixed(version) % (mixed(version + 1) % 16 ? most_bytes / 50 + 1 : most_bytes);
    memcpy(at, &version, 8);
    for (size_t i = 8; i < len; i++) at[i] = (uint8_t)(mixed(version + i / 8) >> i % 8 * 8);
    return len;
}

/* ---- the server */

typedef struct {
    char key[MOST_KEY + 1];
    uint8_t *value;
    size_t len;
} row;

/* A call at work: its request, and when its answer will be ready. */
typedef struct {
    homa_call_id id;
    uint64_t ready;
    uint32_t service;
    size_t len;
    uint8_t *request;
} job;

enum { ROWS = 1 << 16 };
static row rows[ROWS];
static job jobs[AT_WORK];
static size_t job_count;
static unsigned long told, again, full, kept_back;
static uint8_t answer[MOST_MESSAGE];

static row *row_of(const char *key) {
    uint64_t hash = 0;
    for (const char *at = key; *at; at++) hash = mixed(hash ^ (uint8_t)*at);
    size_t i = hash % ROWS;
    while (rows[i].key[0] && strcmp(rows[i].key, key) != 0) i = (i + 1) % ROWS;
    strcpy(rows[i].key, key);
    return &rows[i];
}

static uint8_t put(row *at, const uint8_t *value, size_t len) {
    uint8_t *copy = malloc(len + 1);
    if (!copy) return NOT_STORED;
    memcpy(copy, value, len);
    free(at->value);
    at->value = copy;
    at->len = len;
    return STORED;
}

/* The answer to a request: a key's length, the key, and a value. */
static size_t serve(uint32_t service, const uint8_t *request, size_t len) {
    char key[MOST_KEY + 1] = "";
    memcpy(answer + 1, &self.identity.incarnation, 4);
    answer[0] = NOT_A_REQUEST;
    if (len < 2 || request[0] == 0 || request[0] > MOST_KEY || request[0] + 1u > len) return HEAD;
    memcpy(key, request + 1, request[0]);
    row *at = row_of(key);
    if (service == PUT || service == PUT_LATER) {
        answer[0] = put(at, request + 1 + request[0], len - 1 - request[0]);
        return HEAD;
    }
    answer[0] = at->value && at->len <= MOST_MESSAGE - HEAD ? STORED : NOT_STORED;
    if (answer[0] == NOT_STORED) return HEAD;
    memcpy(answer + HEAD, at->value, at->len);
    return HEAD + at->len;
}

static void give(homa_call_id id, uint32_t service, const uint8_t *request, size_t len) {
    size_t answer_len = serve(service, request, len);
    uint64_t ran = homa_count(&self.host, HOMA_COUNT_RAN);
    uint32_t result = homa_answer(&self.host, &id, answer, answer_len, step_tick());
    if (result == HOMA_OK) net_send(&self.net, &self.host);
    kept_back += result == HOMA_LATER || (result == HOMA_OK && homa_count(&self.host, HOMA_COUNT_RAN) == ran);
}

/* A call asks, for the first time: it is answered at once, or put to work. */
static void ask(homa_asked asked, uint64_t now) {
    size_t len;
    need(homa_whole(&self.host, message, sizeof message, &len) == HOMA_OK, "a request");
    if (asked.service != PUT_LATER && asked.service != GET_LATER) return give(asked.id, asked.service, message, len);
    uint8_t *copy = job_count < AT_WORK ? malloc(len) : NULL;
    if (!copy) {
        homa_decline(&self.host, &asked.id);
        return;
    }
    memcpy(copy, message, len);
    jobs[job_count++] = (job){ asked.id, now + mixed(asked.id.number) % MOST_DELAY, asked.service, len, copy };
}

/* Answers what is ready, and says when more will be. */
static uint64_t finish_jobs(void) {
    uint64_t now = tick(), next = UINT64_MAX;
    for (size_t i = 0; i < job_count;) {
        job it = jobs[i];
        if (it.ready > now) {
            next = it.ready < next ? it.ready : next;
            i++;
            continue;
        }
        jobs[i] = jobs[--job_count];
        give(it.id, it.service, it.request, it.len);
        free(it.request);
    }
    return next;
}

static void server_takes(void *to, uint16_t from, const uint8_t *datagram, size_t len) {
    homa_asked asked;
    uint64_t now = step_tick();
    uint32_t result = homa_deliver(&self.host, from, datagram, len, now, HOMA_NONE, 0, &asked);
    (void)to;
    told += result == HOMA_ASKS;
    again += result == HOMA_AT_WORK;
    full += result == HOMA_FULL;
    if (result == HOMA_OK) net_send(&self.net, &self.host);
    if (result == HOMA_ASKS) ask(asked, now);
}

static void tell_server(void) {
    char more[200];
    unsigned long at_work = (unsigned long)homa_count(&self.host, HOMA_COUNT_KEPT);
    snprintf(more, sizeof more, "; told %lu, asked again %lu, kept back %lu, no room %lu, at work %lu", told, again, kept_back, full, at_work);
    print_counts(more);
}

static int server(void) {
    printf("up\n"); /* calls may come */
    fflush(stdout);
    for (uint64_t ready = UINT64_MAX; !self.is_over; ready = finish_jobs()) {
        wait_until(next_turn(ready), tell_server);
        net_receive(&self.net, server_takes, NULL);
        if (turn()) net_send(&self.net, &self.host);
    }
    tell_server();
    for (size_t i = 0; i < ROWS; i++) free(rows[i].value);
    while (job_count) free(jobs[--job_count].request);
    return 0;
}

/* ---- a client: each key has one call at a time, a PUT and then a GET by turns */

enum { MOST_KEYS = 256, MOST_LOST = 1024 };

/* What is known of a key: the version that was stored last, in which life of the server, and those whose PUT failed, which may be stored
 * at any time after it. */
typedef struct {
    bool is_live, is_stored, is_get;
    homa_call_id id;
    uint64_t began, version, stored, lost[MOST_LOST];
    uint32_t life;
    size_t lost_count;
} key;

static key keys[MOST_KEYS];
static unsigned long late_of = 8, begun, done, timeouts, forgotten, wrong, not_stored, *times;

static bool may_be(const key *it, uint64_t version) {
    for (size_t i = 0; i < it->lost_count && i < MOST_LOST; i++)
        if (it->lost[i] == version) return true;
    return it->is_stored && version == it->stored;
}

/* Whether a response is one that a store may give. */
static bool is_right(key *it, const uint8_t *response, size_t len) {
    static uint8_t wanted[MOST_MESSAGE];
    uint32_t life;
    uint64_t version;
    if (len < HEAD) return false;
    memcpy(&life, response + 1, 4);
    if (!it->is_get) {
        it->is_stored = true;
        it->stored = it->version;
        it->life = life;
        return response[0] == STORED && len == HEAD;
    }
    if (response[0] == NOT_STORED) { /* a new life of the server began with an empty store */
        not_stored++;
        return !it->is_stored || life != it->life;
    }
    if (response[0] != STORED || len < HEAD + 8) return false;
    memcpy(&version, response + HEAD, 8);
    return may_be(it, version) && value_of(version, wanted) == len - HEAD && memcmp(wanted, response + HEAD, len - HEAD) == 0;
}

static uint64_t microseconds(void) {
    struct timespec now;
    clock_gettime(CLOCK_MONOTONIC, &now);
    return (uint64_t)now.tv_sec * 1000000 + (uint64_t)now.tv_nsec / 1000;
}

static void begin(key *it, size_t number) {
    size_t key_len = (size_t)snprintf((char *)message + 1, MOST_KEY, "host %u key %zu", self.net.id, number), len = 1 + key_len;
    bool is_late = late_of && mixed(begun) % late_of == 0;
    message[0] = (uint8_t)key_len;
    if (!it->is_get) len += value_of(it->version, message + len);
    uint8_t service = (uint8_t)(it->is_get ? is_late ? GET_LATER : GET : is_late ? PUT_LATER : PUT);
    uint32_t result = homa_call(&self.host, 0, service, message, len, step_tick(), &it->id);
    if (result != HOMA_OK) return; /* as many calls are live as there may be, or there is no memory: later */
    it->is_live = true;
    it->began = microseconds();
    begun++;
    net_send(&self.net, &self.host);
}

static void end(key *it, const homa_entry_info *entry) {
    size_t len;
    it->is_live = false;
    if (entry->kind == HOMA_DONE) {
        need(homa_whole(&self.host, message, sizeof message, &len) == HOMA_OK, "a response");
        bool is_wrong = !is_right(it, message, len);
        wrong += is_wrong;
        if (is_wrong) fprintf(stderr, "kv: host %u, call %u: a response that no store gives\n", self.net.id, entry->id.number);
        times[done++] = (unsigned long)(microseconds() - it->began);
    } else {
        timeouts += entry->kind == HOMA_TIMEOUT;
        forgotten += entry->kind == HOMA_FORGOTTEN;
        if (!it->is_get) it->lost[it->lost_count++ % MOST_LOST] = it->version;
    }
    it->version += it->is_get;
    it->is_get = !it->is_get;
}

static void read_client(void) {
    homa_entry_info entry;
    net_send(&self.net, &self.host);
    for (size_t i = 0, count = homa_entries(&self.host); i < count; i++) {
        if (homa_entry(&self.host, i, &entry) != HOMA_OK) continue;
        if (entry.kind != HOMA_DONE && entry.kind != HOMA_TIMEOUT && entry.kind != HOMA_FORGOTTEN) continue;
        for (size_t k = 0; k < MOST_KEYS; k++)
            if (keys[k].is_live && keys[k].id.number == entry.id.number) end(&keys[k], &entry);
    }
}

static void client_takes(void *to, uint16_t from, const uint8_t *datagram, size_t len) {
    homa_asked asked;
    (void)to;
    if (homa_deliver(&self.host, from, datagram, len, step_tick(), HOMA_NONE, 0, &asked) == HOMA_OK) read_client();
}

static void tell_client(void) { print_counts(""); }

static int by_size(const void *a, const void *b) { return *(const unsigned long *)a < *(const unsigned long *)b ? -1 : 1; }

static int client(unsigned long calls, size_t at_a_time) {
    times = calloc(calls, sizeof *times);
    need(times && at_a_time > 0 && at_a_time <= MOST_KEYS && most_bytes >= 100 && most_bytes <= 900000, "CALLS, AT_A_TIME or MOST_BYTES");
    for (size_t k = 0; k < at_a_time; k++) keys[k].version = ((uint64_t)self.identity.incarnation << 16 | self.net.id) << 32 | (uint64_t)k << 20;
    uint64_t first = microseconds();
    while (done + timeouts + forgotten < calls && !self.is_over) {
        for (size_t k = 0; k < at_a_time && begun < calls; k++)
            if (!keys[k].is_live) begin(&keys[k], k);
        wait_until(next_turn(UINT64_MAX), tell_client);
        net_receive(&self.net, client_takes, NULL);
        if (turn()) read_client();
    }
    uint64_t took = microseconds() - first + 1;
    tell_client();
    qsort(times, done, sizeof *times, by_size);
    printf("client %u: %lu done, %lu timed out, %lu forgotten, %lu wrong, %lu not stored; p50 %lu, p99 %lu us, %lu calls a second\n", self.net.id, done, timeouts,
           forgotten, wrong, not_stored, done ? times[done / 2] : 0, done ? times[done * 99 / 100] : 0, (unsigned long)(done * 1000000 / took));
    free(times);
    return wrong > 0 || done + timeouts + forgotten < calls;
}

int main(int argc, char **argv) {
    bool is_server = argc == 4 && strcmp(argv[1], "server") == 0, is_client = argc == 8 && strcmp(argv[1], "client") == 0;
    if (getenv("KV_LATE")) late_of = strtoul(getenv("KV_LATE"), NULL, 10);
    if (getenv("KV_TICK_US")) tick_us = strtol(getenv("KV_TICK_US"), NULL, 10);
    need((is_server || is_client) && tick_us > 0, "usage: kv server HOSTS FOLDER | kv client HOSTS FOLDER ID CALLS AT_A_TIME MOST_BYTES");
    open_node(argv[2], argv[3], is_client ? (uint16_t)strtoul(argv[4], NULL, 10) : 0, is_server);
    if (is_client) most_bytes = strtoul(argv[7], NULL, 10);
    int status = is_server ? server() : client(strtoul(argv[5], NULL, 10), strtoul(argv[6], NULL, 10));
    homa_close(&self.host);
    return status;
}
