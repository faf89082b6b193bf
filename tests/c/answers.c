/* Answers that come late: a server that keeps what asks (homa_open_late), and three clients. Hosts in one process, ticks counted by hand, a
 * patience of 24 ticks. Each case says what must come of an answer, and how often the program is told. Prints what failed, and
 * 'answers: N passed, M failed'. */
#include "homa.h"
#include <stdio.h>
#include <stdlib.h>
#include <string.h>

enum { HOSTS = 4, SERVER = 0, NET = 20000, LONGEST = 1000000 };

static struct {
    uint16_t from, to;
    size_t len;
    uint8_t bytes[1500];
} net[NET];
static size_t net_from, net_to;
static homa_host hosts[HOSTS];
static homa_settings settings;
static uint64_t now;
static bool is_cut[HOSTS]; /* what this host sends is lost */
static homa_call_id told_ids[100], last_done;
static size_t done_len;
static uint8_t text[LONGEST + 1], room[LONGEST];
static unsigned passed, failed, done, timeouts, ran, told, again, full;

static void checked(bool holds, int line, const char *what) {
    if (holds) passed++;
    else {
        failed++;
        printf("failed at line %d, tick %llu: %s\n", line, (unsigned long long)now, what);
    }
}
#define CHECK(it) checked((it), __LINE__, #it)

static bool is_same(homa_call_id a, homa_call_id b) { return a.client == b.client && a.incarnation == b.incarnation && a.number == b.number; }
static uint64_t kept(void) { return homa_count(&hosts[SERVER], HOMA_COUNT_KEPT); }
static uint64_t rows(int host) { return homa_count(&hosts[host], HOMA_COUNT_ROWS); }

/* ---- the net */

static void after(uint16_t of) {
    homa_frame_info frame;
    homa_entry_info entry;
    for (size_t i = 0; i < homa_frames(&hosts[of]); i++) {
        CHECK(net_to < NET && homa_frame(&hosts[of], i, net[net_to].bytes, 1500, &frame) == HOMA_OK);
        net[net_to].from = of;
        net[net_to].to = frame.to;
        net[net_to].len = frame.len;
        net_to += !is_cut[of];
    }
    for (size_t i = 0; i < homa_entries(&hosts[of]); i++) {
        CHECK(homa_entry(&hosts[of], i, &entry) == HOMA_OK);
        ran += entry.kind == HOMA_RAN;
        timeouts += entry.kind == HOMA_TIMEOUT || entry.kind == HOMA_FORGOTTEN;
        if (entry.kind != HOMA_DONE) continue;
        done++;
        last_done = entry.id;
        CHECK(homa_whole(&hosts[of], room, sizeof room, &done_len) == HOMA_OK && memcmp(room, text, done_len) == 0);
    }
}

static void come(size_t i, size_t answer_len) {
    homa_asked asked;
    uint16_t to = net[i].to;
    if (!hosts[to].is_open) return;
    uint32_t result = homa_deliver(&hosts[to], net[i].from, net[i].bytes, net[i].len, now, text, answer_len, &asked);
    if (result == HOMA_OK) {
        after(to);
        return;
    }
    CHECK(to == SERVER && homa_frames(&hosts[to]) == 0 && homa_entries(&hosts[to]) == 0 && homa_whole_len(&hosts[to]) > 0);
    again += result == HOMA_AT_WORK;
    full += result == HOMA_FULL;
    if (result == HOMA_ASKS) told_ids[told++ % 100] = asked.id;
}

/* Up to a tick, not with it. A datagram takes no tick. */
static void run(uint64_t to) {
    for (; now < to; now++) {
        do {
            while (net_from < net_to) come(net_from++, 0);
            net_from = net_to = 0;
            for (uint16_t i = 0; i < HOSTS; i++)
                if (hosts[i].is_open && homa_turn(&hosts[i], now) == HOMA_OK) after(i);
        } while (net_to > 0);
    }
}

static void open_host(uint16_t id, uint32_t incarnation, uint32_t most, uint32_t keep) {
    uint32_t result = id == SERVER ? homa_open_late(&settings, id, incarnation, now, most, keep, &hosts[id])
                                   : homa_open(&settings, id, incarnation, now, &hosts[id]);
    CHECK(result == HOMA_OK);
}

/* A server that keeps so many calls for so many ticks, by these settings. */
static void begin_with(uint32_t most, uint32_t keep) {
    now = net_from = net_to = done = timeouts = ran = told = again = full = 0;
    for (uint16_t i = 0; i < HOSTS; i++) {
        homa_close(&hosts[i]);
        is_cut[i] = false;
        open_host(i, 1, most, keep);
    }
}
static void usual(uint32_t life, uint32_t wire) {
    homa_usual(&settings);
    settings.hosts = HOSTS;
    settings.life = life;
    settings.wire = wire;
}
static void begin(void) {
    usual(1000, 1);
    begin_with(16, 1000);
}

static homa_call_id called(uint16_t from, size_t len) {
    homa_call_id id = { 9, 9, 9 };
    CHECK(homa_call(&hosts[from], SERVER, 7, text, len, now, &id) == HOMA_OK);
    after(from);
    return id;
}
static uint32_t answer(homa_call_id id, size_t len) {
    uint32_t result = homa_answer(&hosts[SERVER], &id, text, len, now);
    if (result == HOMA_OK) after(SERVER);
    return result;
}

/* ---- the cases */

/* A call of several packets waits as long as it has to, one of one packet for its patience. */
static void after_some_ticks(void) {
    static const uint64_t when[] = { 1, 3, 20, 23, 24, 30, 200 };
    static const size_t lens[] = { 100, 3000 };
    for (size_t k = 0; k < 14; k++) {
        uint64_t at = when[k % 7];
        size_t len = lens[k / 7];
        begin();
        homa_call_id id = called(1, len);
        run(at);
        CHECK(kept() == 1 && answer(id, 10) == HOMA_OK);
        run(400);
        bool is_done = len > 1400 || at <= 24;
        CHECK(told == 1 && ran == 1 && done == is_done && timeouts == !is_done && kept() == 0);
        CHECK(rows(SERVER) == 1 && rows(1) == 0); /* what is remembered of the call */
    }
    CHECK(again == 49);
    begin();
    homa_call_id id = called(1, 100);
    run(10);
    CHECK(answer(id, LONGEST) == HOMA_OK);
    run(400);
    CHECK(done == 1 && done_len == LONGEST);
}

static void mistakes(void) {
    begin();
    homa_call_id id = called(1, 100), other = { 2, 1, 5 };
    run(2);
    CHECK(answer(other, 10) == HOMA_GONE && homa_decline(&hosts[SERVER], &other) == HOMA_GONE);
    CHECK(answer(id, 0) == HOMA_NO_BYTES && answer(id, LONGEST + 1) == HOMA_TOO_LONG && kept() == 1);
    CHECK(homa_turn(&hosts[SERVER], 5) == HOMA_OK && answer(id, 10) == HOMA_BAD_TICK && kept() == 1);
    now = 1000000002001;
    CHECK(answer(id, 10) == HOMA_SPENT && kept() == 1);
    now = 6;
    CHECK(answer(id, 10) == HOMA_OK && answer(id, 10) == HOMA_GONE && homa_decline(&hosts[SERVER], &id) == HOMA_GONE);
    run(40);
    CHECK(done == 1 && told == 1);
    usual(1000, 1);
    settings.pages = 3;
    begin_with(16, 1000);
    id = called(1, 100);
    run(2);
    CHECK(answer(id, 3 * 4096 + 1) == HOMA_TOO_MANY_PAGES && answer(id, 3 * 4096) == HOMA_OK);
    CHECK(homa_close(&hosts[SERVER]) == HOMA_OK && homa_open(&settings, SERVER, 2, now, &hosts[SERVER]) == HOMA_OK);
    CHECK(answer(id, 10) == HOMA_GONE && homa_decline(&hosts[SERVER], &id) == HOMA_GONE && kept() == 0); /* a host that keeps nothing */
}

/* The row of a request of several packets is given up while its client is cut off. The client comes back in time, or too late. */
static void row_given_up(void) {
    for (uint64_t back = 40; back <= 60; back += 20) {
        begin();
        homa_call_id id = called(1, 3000);
        run(2);
        is_cut[1] = true;
        run(back);
        is_cut[1] = false;
        CHECK(answer(id, 10) == HOMA_OK && ran == 0 && kept() == 1);
        CHECK(answer(id, 20) == HOMA_GONE);
        run(back + 60);
        CHECK(told == 1 && done == (back == 40) && ran == done && kept() == !done && (!done || done_len == 10));
    }
}

/* There is no row when the answer comes; and there never is, or there is one later. */
static void no_row(void) {
    for (uint32_t is_late = 0; is_late < 2; is_late++) {
        usual(is_late ? 60 : 1000, 1);
        settings.served = 1;
        settings.tries = is_late ? 100 : 5;
        begin_with(16, 60);
        homa_call_id one = called(1, 100);
        run(1);
        homa_call_id two = called(2, 100);
        run(2);
        CHECK(told == 2 && answer(two, 10) == HOMA_OK && ran == 1);
        CHECK(answer(one, 10) == HOMA_OK && ran == 1 && kept() == 1);
        run(400);
        CHECK(told == 2 && done == 1 + is_late && ran == done && timeouts == !is_late && kept() == !is_late);
    }
}

/* With version 1 `keep` says that a datagram is too old, with version 2 the host may say it before. */
static void too_old(void) {
    usual(1000, 1);
    settings.tries = 100;
    begin_with(16, 20);
    homa_call_id id = called(1, 100);
    run(2);
    is_cut[1] = true;
    run(30);
    size_t frames = homa_frames(&hosts[SERVER]);
    CHECK(answer(id, 10) == HOMA_LATER && ran == 0 && kept() == 1 && homa_frames(&hosts[SERVER]) == frames);
    is_cut[1] = false;
    run(60);
    CHECK(told == 1 && ran == 1 && done == 1 && kept() == 0);
    usual(50, 2);
    settings.tries = 100;
    begin_with(16, 50);
    id = called(1, 100);
    is_cut[1] = true;
    now = 10; /* it comes at 10; at 55 it is fresh by `keep`, and too old by its own tick */
    run(55);
    CHECK(told == 1 && answer(id, 10) == HOMA_OK && ran == 0 && kept() == 1);
    is_cut[1] = false;
    run(120);
    CHECK(told == 1 && ran == 1 && done == 1);
    begin_with(16, 50);
    id = called(1, 3000);
    run(200); /* the datagram that asked last is fresh, the first one is four lives old */
    CHECK(answer(id, 10) == HOMA_OK && ran == 1);
    run(220);
    CHECK(told == 1 && done == 1);
}

/* Six calls and room for four; then the oldest make room, whose client is gone. */
static void no_room(void) {
    usual(1000, 1);
    begin_with(4, 10);
    for (int i = 0; i < 6; i++) called(1, 100);
    run(2);
    CHECK(told == 4 && full == 2 && answer(told_ids[0], 10) == HOMA_OK);
    run(6);
    CHECK(told == 5 && kept() == 4);
    homa_call_id old = told_ids[1];
    is_cut[1] = true;
    run(40);
    for (int i = 0; i < 4; i++) called(2, 100);
    run(42);
    CHECK(told == 9 && kept() == 4 && answer(old, 10) == HOMA_GONE);
}

static void restarts(void) {
    begin();
    homa_call_id id = called(1, 3000);
    run(2);
    CHECK(homa_close(&hosts[SERVER]) == HOMA_OK);
    open_host(SERVER, 2, 16, 1000);
    CHECK(answer(id, 10) == HOMA_GONE);
    run(30);
    CHECK(told == 2 && answer(id, 10) == HOMA_OK); /* told once more in the new incarnation */
    run(40);
    CHECK(done == 1);
    begin();
    id = called(1, 3000);
    run(2);
    CHECK(homa_close(&hosts[1]) == HOMA_OK);
    open_host(1, 2, 0, 0);
    homa_call_id two = called(1, 3000);
    run(4);
    CHECK(told == 2 && !is_same(id, two) && answer(id, 10) == HOMA_OK && answer(two, 20) == HOMA_OK);
    run(400);
    CHECK(done == 1 && done_len == 20 && is_same(last_done, two));
}

static void declined(void) {
    begin();
    homa_call_id id = called(1, 3000);
    run(2);
    CHECK(homa_decline(&hosts[SERVER], &id) == HOMA_OK && kept() == 0 && answer(id, 10) == HOMA_GONE);
    run(20);
    CHECK(told == 2 && answer(id, 10) == HOMA_OK);
}

/* An answer comes with the datagram, for a call that is kept: it runs, and isn't kept any more. */
static void with_its_datagram(void) {
    begin();
    homa_call_id id = called(1, 100);
    come(0, 0);
    CHECK(told == 1 && kept() == 1);
    come(0, 30);
    CHECK(told == 1 && ran == 1 && kept() == 0 && answer(id, 10) == HOMA_GONE);
    net_from = 1;
    run(40);
    CHECK(done == 1 && done_len == 30 && told == 1);
}

static void many_in_another_order(void) {
    homa_call_id ids[60];
    usual(1000, 1);
    begin_with(64, 1000);
    for (int i = 0; i < 60; i++) ids[i] = called((uint16_t)(1 + i % 3), (size_t)(1 + i * 83 % 5000));
    run(8);
    CHECK(told == 60 && kept() == 60);
    for (int i = 0; i < 60; i++) {
        CHECK(answer(ids[(i * 37 + 11) % 60], (size_t)(1 + i)) == HOMA_OK);
        run(now + (i % 5 == 0));
    }
    run(400);
    CHECK(done == 60 && told == 60 && kept() == 0);
}

/* What a host can keep is 1 to 4,096 calls, for 0 to `life` ticks. */
static void opened(void) {
    homa_host host = HOMA_CLOSED;
    usual(30, 1);
    CHECK(homa_open_late(&settings, 0, 1, 0, 0, 10, &host) == HOMA_BAD_SETTING && homa_open_late(&settings, 0, 1, 0, 4097, 10, &host) == HOMA_BAD_SETTING);
    CHECK(homa_open_late(&settings, 0, 1, 0, 1, 31, &host) == HOMA_BAD_SETTING && homa_wrong_setting(&settings) == 0 && !host.is_open);
    CHECK(homa_open_late(&settings, 0, 0, 0, 1, 10, &host) == HOMA_BAD_INCARNATION && homa_open_late(&settings, HOSTS, 1, 0, 1, 10, &host) == HOMA_BAD_HOST);
    CHECK(homa_open_late(&settings, 0, 1, 0, 4096, 30, &host) == HOMA_OK && homa_open_late(&settings, 0, 1, 0, 0, 10, &host) == HOMA_IS_OPEN);
    CHECK(homa_close(&host) == HOMA_OK && homa_open_late(&settings, 0, 2, 0, 1, 0, &host) == HOMA_OK && homa_close(&host) == HOMA_OK);
    settings.wire = 3;
    CHECK(homa_open_late(&settings, 0, 1, 0, 1, 10, &host) == HOMA_BAD_SETTING && homa_wrong_setting(&settings) == 15);
}

int main(void) {
    for (size_t i = 0; i < sizeof text; i++) text[i] = (uint8_t)(i * 7 + 1);
    opened();
    after_some_ticks();
    mistakes();
    row_given_up();
    no_row();
    too_old();
    no_room();
    restarts();
    declined();
    with_its_datagram();
    many_in_another_order();
    for (uint16_t i = 0; i < HOSTS; i++) homa_close(&hosts[i]);
    printf("answers: %u passed, %u failed\n", passed, failed);
    return failed > 0;
}
