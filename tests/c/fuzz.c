/* Random and mutated datagrams into one handle. Each is answered, what is shown stays within its bounds, and an answer that is asked for is
 * taken. Afterwards the host serves a new client.
 *
 * usage: fuzz [DATAGRAMS [SEED]]      (1,000,000 and 1); prints 'fuzz: N passed, M failed' */
#include "homa.h"
#include <stdio.h>
#include <stdlib.h>
#include <string.h>

enum { HOSTS = 3, TESTED = 1, MOST_SEEDS = 200, MOST_FRAME = 1500, MOST_ANSWER = 3000 };

static struct { uint8_t bytes[MOST_FRAME]; size_t len; } seeds[MOST_SEEDS];
static size_t seed_count;
static uint64_t state;
static unsigned passed, failed;
static uint8_t message[1000000];

static void check(bool holds, const char *what) {
    if (holds) passed++;
    else if (failed++ < 20) printf("failed: %s\n", what);
}

static uint64_t draw(uint64_t below) {
    state ^= state << 13;
    state ^= state >> 7;
    state ^= state << 17;
    return state % below;
}

/* Hands the frames of a host's last step to whom they are sent to, and all that this leads to. Keeps those for the host that is tested. */
static unsigned hand_over(homa_host *hosts, uint16_t from, uint64_t now, bool loses) {
    uint8_t (*frames)[MOST_FRAME] = calloc(64, sizeof *frames);
    homa_frame_info info[64];
    homa_asked asked;
    homa_entry_info entry;
    size_t count = homa_frames(&hosts[from]);
    unsigned done = 0;
    for (size_t i = 0; i < count; i++) {
        if (homa_frame(&hosts[from], i, frames[i], MOST_FRAME, &info[i]) != HOMA_OK) exit(2);
        if (info[i].to == TESTED && seed_count < MOST_SEEDS) {
            memcpy(seeds[seed_count].bytes, frames[i], info[i].len);
            seeds[seed_count++].len = info[i].len;
        }
    }
    for (size_t i = 0; i < count; i++) {
        uint16_t to = info[i].to;
        if (loses && draw(3) == 0) continue;
        if (homa_deliver(&hosts[to], from, frames[i], info[i].len, now, message, 0, &asked) == HOMA_ASKS &&
            homa_deliver(&hosts[to], from, frames[i], info[i].len, now, message, MOST_ANSWER, &asked) != HOMA_OK) exit(2);
        for (size_t k = 0; k < homa_entries(&hosts[to]); k++)
            done += homa_entry(&hosts[to], k, &entry) == HOMA_OK && entry.kind == HOMA_DONE;
        done += hand_over(hosts, to, now, loses);
    }
    free(frames);
    return done;
}

static void open_all(const homa_settings *settings, homa_host *hosts, uint32_t incarnation, uint64_t last) {
    for (uint16_t i = 0; i < HOSTS; i++)
        if (!hosts[i].is_open && homa_open(settings, i, incarnation, last, &hosts[i]) != HOMA_OK) exit(2);
}

/* Calls each way with losses, so that the frames of all kinds come. */
static void collect(const homa_settings *settings) {
    static const size_t lens[] = { 1, 100, 3000, 40000 };
    homa_host hosts[HOSTS] = { HOMA_CLOSED, HOMA_CLOSED, HOMA_CLOSED };
    homa_call_id id;
    uint64_t now = 0;
    open_all(settings, hosts, 1, 0);
    for (size_t i = 0; i < 4; i++)
        for (uint16_t from = 0; from < 2; from++) {
            if (homa_call(&hosts[from], 1 - from, 3, message, lens[i], now, &id) != HOMA_OK) exit(2);
            hand_over(hosts, from, now, true);
            for (uint64_t until = now + 40; now < until; now++)
                for (uint16_t k = 0; k < HOSTS; k++)
                    if (homa_turn(&hosts[k], now) == HOMA_OK) hand_over(hosts, k, now, true);
        }
    for (uint16_t i = 0; i < HOSTS; i++) homa_close(&hosts[i]);
}

/* A datagram: random bytes, or one that was sent, with some bytes changed, cut off or put behind. */
static size_t make(uint8_t *at) {
    size_t len = draw(MOST_FRAME + 1);
    if (draw(4) == 0) {
        for (size_t i = 0; i < len; i++) at[i] = (uint8_t)draw(256);
        return len;
    }
    size_t of = draw(seed_count);
    memcpy(at, seeds[of].bytes, seeds[of].len);
    len = seeds[of].len;
    for (uint64_t n = draw(4); n > 0; n--) at[draw(draw(2) ? len : len < 48 ? len : 48)] = (uint8_t)draw(draw(2) ? 4 : 256);
    if (draw(8) == 0) len = draw(len + 1);
    if (draw(8) == 0 && len < MOST_FRAME) at[len++] = (uint8_t)draw(256);
    return len;
}

/* What is shown of a step stays within its bounds. */
static void look(homa_host *host) {
    uint8_t frame[MOST_FRAME];
    homa_frame_info info;
    homa_entry_info entry;
    size_t frames = homa_frames(host), entries = homa_entries(host), len;
    bool holds = frames <= 64 && entries <= 128 && homa_whole_len(host) <= sizeof message;
    for (size_t i = 0; i < frames; i++)
        holds = holds && homa_frame(host, i, frame, MOST_FRAME, &info) == HOMA_OK && info.len <= MOST_FRAME && info.from == TESTED && info.to != TESTED;
    for (size_t i = 0; i < entries; i++) holds = holds && homa_entry(host, i, &entry) == HOMA_OK && entry.kind > HOMA_OTHER && entry.kind <= HOMA_BALANCED;
    holds = holds && homa_whole(host, message, sizeof message, &len) == HOMA_OK && len == homa_whole_len(host);
    check(holds, "what a step shows");
}

static void feed(homa_host *host, uint64_t *now) {
    uint8_t bytes[MOST_FRAME + 8];
    homa_asked asked;
    homa_call_id id;
    uint16_t from = draw(2) ? 0 : 2;
    size_t len = make(bytes);
    uint32_t result = homa_deliver(host, from, bytes, len, *now, message, 0, &asked);
    if (result == HOMA_ASKS) {
        check(homa_whole_len(host) > 0 && asked.id.client == from && asked.service < 256, "who asks");
        result = homa_deliver(host, from, bytes, len, *now, message, 1 + draw(MOST_ANSWER), &asked);
    }
    check(result == HOMA_OK, "a datagram is taken");
    look(host);
    if (draw(50) == 0) {
        ++*now;
        check(homa_turn(host, *now) == HOMA_OK, "a turn");
        look(host);
    }
    if (draw(500) == 0) homa_call(host, draw(2) ? 0 : 2, 1, message, 1 + draw(20000), *now, &id); /* refused where all rows are taken */
}

int main(int argc, char **argv) {
    unsigned long count = argc > 1 ? strtoul(argv[1], NULL, 10) : 1000000;
    homa_host hosts[HOSTS] = { HOMA_CLOSED, HOMA_CLOSED, HOMA_CLOSED };
    homa_settings settings;
    homa_call_id id;
    uint64_t now = 0;
    state = 0x9e3779b97f4a7c15 * (argc > 2 ? strtoul(argv[2], NULL, 10) + 1 : 2);
    homa_usual(&settings);
    settings.hosts = HOSTS;
    collect(&settings);
    check(seed_count > 20, "frames to begin with");
    if (homa_open(&settings, TESTED, 1, 0, &hosts[TESTED]) != HOMA_OK) return 2;
    for (unsigned long i = 0; i < count; i++) feed(&hosts[TESTED], &now);
    /* what was begun is given up in time, and then a new client is served */
    for (uint64_t until = now + 200; now < until; now++) check(homa_turn(&hosts[TESTED], now) == HOMA_OK, "a turn afterwards");
    open_all(&settings, hosts, UINT32_MAX, now); /* no packet before named a later life */
    check(homa_call(&hosts[0], TESTED, 5, message, 5000, now, &id) == HOMA_OK, "a call afterwards");
    unsigned done = hand_over(hosts, 0, now, false);
    for (uint64_t until = now + 20; now < until; now++)
        for (uint16_t k = 0; k < HOSTS; k++)
            if (homa_turn(&hosts[k], now) == HOMA_OK) done += hand_over(hosts, k, now, false);
    check(done == 1, "the call afterwards is done");
    for (uint16_t i = 0; i < HOSTS; i++) check(homa_close(&hosts[i]) == HOMA_OK, "close");
    printf("fuzz: %u passed, %u failed\n", passed, failed);
    return failed > 0;
}
