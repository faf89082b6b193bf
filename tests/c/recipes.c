/* The recipes of examples/recipes, each tried: a clock that steps back, three starts in a row, two lives and a file that can't be read, and a
 * server that never answers. Prints a line for each. */
#define _GNU_SOURCE
#include "../../examples/recipes/deadline.h"
#include "../../examples/recipes/identity.h"
#include "../../examples/recipes/incarnation.h"
#include "../../examples/recipes/tick.h"
#include <assert.h>
#include <stdio.h>
#include <stdlib.h>

/* ---- a clock */

static struct timespec set;

static int set_clock(clockid_t of, struct timespec *t) {
    (void)of;
    *t = set;
    return 0;
}

static void at(int64_t seconds, long nanoseconds) { set = (struct timespec){ EPOCH + seconds, nanoseconds }; }

static void a_clock(void) {
    uint64_t a = tick(), b = tick();
    assert(a <= b && b <= LAST_TICK);
    read_clock = set_clock;
    last_tick = 0;
    at(-5, 0);
    assert(tick() == 0);
    at(1000, 500000000);
    assert(tick() == 10005000 && left_until(10005003) == 300000 && left_until(7) == 0);
    at(1000 - 3600, 500000000);
    assert(tick() == 10005000);
    at(1001, 500000000);
    assert(tick() == 10015000);
    at(100000001, 0);
    assert(tick() > LAST_TICK);
    printf("tick: it never falls\n");
}

/* ---- an incarnation without a disk, and with one */

static void three_starts(void) {
    uint32_t a = incarnation(), b = incarnation(), c = incarnation();
    assert(0 < a && a < b && b < c);
    printf("incarnation: each start has one of its own\n");
}

static void two_lives(void) {
    char folder[] = "/tmp/identity-XXXXXX", path[250];
    identity first, second, third;
    uint64_t last;
    assert(mkdtemp(folder));
    snprintf(path, sizeof path, "%s/host-0", folder);
    assert(next_life(&first, folder, "host-0", 500, &last) && first.incarnation == 1 && last == 500);
    assert(may_step(&first, 10500) && first.leased == 10500 && may_step(&first, 10501) && first.leased == 20501);
    /* a crash: the clock is behind what was written ahead */
    assert(next_life(&second, folder, "host-0", 11000, &last) && second.incarnation == 2 && last == 20501);
    FILE *file = fopen(path, "w");
    assert(file && fprintf(file, "rubbish\n") > 0 && fclose(file) == 0);
    assert(!next_life(&third, folder, "host-0", 30000, &last));
    close(first.folder), close(second.folder), close(third.folder);
    assert(unlink(path) == 0 && rmdir(folder) == 0);
    printf("identity: two lives, and a file that can't be read\n");
}

/* ---- a deadline: of requests of several packets, which have no end of their own, and of one packet, which time out */

enum { DEADLINE = 50 };

static homa_host hosts[2] = { HOMA_CLOSED, HOMA_CLOSED };
static unsigned over, timeouts;

static struct {
    uint16_t to;
    size_t len;
    uint8_t bytes[1500];
} net[64]; /* datagrams under way: those from `begin` on */
static size_t begin, end;

/* Reads what a host's last step told and sent. */
static void read_step(uint16_t host) {
    homa_frame_info info;
    homa_entry_info entry;
    for (size_t i = 0; i < homa_entries(&hosts[host]); i++)
        if (homa_entry(&hosts[host], i, &entry) == HOMA_OK && entry.kind == HOMA_TIMEOUT) timeouts += is_wanted(entry.id);
    for (size_t i = 0; i < homa_frames(&hosts[host]); i++, end++) {
        assert(homa_frame(&hosts[host], i, net[end % 64].bytes, sizeof net[0].bytes, &info) == HOMA_OK);
        net[end % 64].to = info.to;
        net[end % 64].len = info.len;
    }
}

static void make_call(size_t len, uint64_t now) {
    static const uint8_t request[3000];
    homa_call_id id;
    assert(homa_call(&hosts[0], 1, 7, request, len, now, &id) == HOMA_OK);
    begun(id, now + DEADLINE);
    read_step(0);
}

/* A turn of both hosts, and all datagrams that are under way; no answer is ever given. */
static void turn_both(uint64_t now) {
    homa_asked asked;
    for (uint16_t i = 0; i < 2; i++)
        if (homa_turn(&hosts[i], now) == HOMA_OK) read_step(i);
    for (; begin < end; begin++) {
        uint16_t to = net[begin % 64].to;
        if (homa_deliver(&hosts[to], 1 - to, net[begin % 64].bytes, net[begin % 64].len, now, HOMA_NONE, 0, &asked) == HOMA_OK) read_step(to);
    }
}

static void a_deadline(void) {
    homa_settings settings;
    homa_usual(&settings);
    settings.calls = WAITING;
    for (uint16_t i = 0; i < 2; i++) assert(homa_open(&settings, i, 1, 0, &hosts[i]) == HOMA_OK);
    for (uint64_t now = 0; now < 1000; now++) {
        if (now % 100 == 0) {
            make_call(3000, now);
            make_call(100, now);
        }
        turn_both(now);
        over += give_up(now);
    }
    assert(over == 10 && timeouts == 10 && given_up == 10);
    for (size_t i = 0; i < 2; i++) assert(homa_close(&hosts[i]) == HOMA_OK);
    printf("deadline: %u were given up, %u timed out before\n", over, timeouts);
}

int main(void) {
    a_clock();
    three_starts();
    two_lives();
    a_deadline();
    return 0;
}
