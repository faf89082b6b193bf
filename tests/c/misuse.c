/* Each call of the library, used as it must not be: it is refused, and nothing is written or changed. Prints what failed, and
 * 'misuse: N passed, M failed'. */
#include "homa.h"
#include <stdio.h>
#include <stdlib.h>
#include <string.h>

enum { LONG = 1000001, DATAGRAM = 70000 };
static const uint64_t LAST_TICK = 1000000002000;
static unsigned passed, failed;
static uint8_t bytes[LONG], room[LONG];

static void check(bool holds, const char *what) {
    if (holds) passed++;
    else {
        failed++;
        printf("failed: %s\n", what);
    }
}

/* Whether all bytes still are what `fill` made them. */
static void fill(void *at, size_t len) { memset(at, 0xa5, len); }
static bool is_filled(const void *at, size_t len) {
    for (size_t i = 0; i < len; i++)
        if (((const uint8_t *)at)[i] != 0xa5) return false;
    return true;
}

/* All calls but homa_open on a handle that isn't open. */
static void closed(homa_host *host, const char *what) {
    homa_host was = *host;
    homa_call_id id;
    homa_asked asked;
    homa_frame_info frame;
    homa_entry_info entry;
    homa_more_info more;
    uint64_t at;
    size_t len;
    fill(&id, sizeof id), fill(&asked, sizeof asked), fill(&frame, sizeof frame), fill(&entry, sizeof entry);
    fill(&at, sizeof at), fill(&len, sizeof len), fill(room, 100), fill(&more, sizeof more);
    check(homa_close(host) == HOMA_NOT_OPEN, what);
    check(homa_call(host, 9, 0, bytes, LONG, LAST_TICK + 1, &id) == HOMA_NOT_OPEN && is_filled(&id, sizeof id), what);
    check(homa_deliver(host, 9, bytes, DATAGRAM, LAST_TICK + 1, bytes, LONG, &asked) == HOMA_NOT_OPEN && is_filled(&asked, sizeof asked), what);
    check(homa_answer(host, &id, bytes, LONG, LAST_TICK + 1) == HOMA_NOT_OPEN && homa_decline(host, &id) == HOMA_NOT_OPEN, what);
    check(homa_turn(host, LAST_TICK + 1) == HOMA_NOT_OPEN, what);
    check(homa_next_turn(host, &at) == HOMA_NOT_OPEN && is_filled(&at, sizeof at), what);
    check(homa_frames(host) == 0 && homa_entries(host) == 0 && homa_whole_len(host) == 0 && homa_frame_level(host, 0) == 0, what);
    check(homa_frame(host, 0, room, 100, &frame) == HOMA_NOT_OPEN && is_filled(&frame, sizeof frame), what);
    check(homa_entry(host, 0, &entry) == HOMA_NOT_OPEN && is_filled(&entry, sizeof entry), what);
    check(homa_entry_more(host, 0, &more) == HOMA_NOT_OPEN && is_filled(&more, sizeof more), what);
    check(homa_whole(host, room, 100, &len) == HOMA_NOT_OPEN && is_filled(&len, sizeof len), what);
    check(homa_live(host) == 0 && homa_last(host) == 0 && homa_count(host, HOMA_COUNT_RECEIVED) == 0, what);
    check(homa_count(host, HOMA_COUNT_KEPT) == 0 && homa_count(host, HOMA_COUNT_ROWS) == 0, what);
    check(is_filled(room, 100), what);
    check(host->at == was.at && !host->is_open, what);
}

/* Each setting one below the least and one above the most that it may be, and two that don't go together. */
static void open_with_settings(void) {
    static const uint32_t least[] = { 2, 1, 1, 1, 1, 1, 1, 1, 1, 1, 1, 1, 0, 0, 1 };
    static const uint32_t most[] = { 32, 1400, 1000000, 1000000, 7, 1000000, 1000, 100, 100000, 4096, 1024, 4096, 1024, 1000, 2 };
    homa_settings settings;
    homa_host host = HOMA_CLOSED;
    for (size_t i = 0; i < 15; i++) {
        uint32_t values[15];
        for (int high = 0; high < 2; high++) {
            homa_usual(&settings);
            memcpy(values, &settings, sizeof settings);
            values[i] = high ? most[i] + 1 : least[i] - 1;
            memcpy(&settings, values, sizeof settings);
            check(homa_open(&settings, 0, 1, 0, &host) == HOMA_BAD_SETTING && !host.is_open, "a setting outside its range");
            check(homa_wrong_setting(&settings) == i + 1, "which setting");
        }
    }
    homa_usual(&settings);
    settings.unsched = settings.window + 1;
    check(homa_open(&settings, 0, 1, 0, &host) == HOMA_BAD_SETTING && !host.is_open && homa_wrong_setting(&settings) == 16, "unsched over window");
    homa_usual(&settings);
    settings.rate = settings.seg - 1;
    check(homa_open(&settings, 0, 1, 0, &host) == HOMA_BAD_SETTING && !host.is_open && homa_wrong_setting(&settings) == 17, "rate under seg");
    settings.unsched = settings.window + 1;
    check(homa_wrong_setting(&settings) == 16, "the first of two faults");
    settings.seg = settings.served = 0;
    check(homa_wrong_setting(&settings) == 2, "the first of four");
    homa_usual(&settings);
    check(homa_wrong_setting(&settings) == 0, "the usual settings");
    homa_service(&settings);
    check(homa_wrong_setting(&settings) == 0, "settings of services");
}

static void open_wrongly(void) {
    homa_settings settings;
    homa_host host = HOMA_CLOSED, was;
    homa_usual(&settings);
    check(homa_open(&settings, 2, 1, 0, &host) == HOMA_BAD_HOST && !host.is_open, "a host that isn't there");
    check(homa_open(&settings, 65535, 1, 0, &host) == HOMA_BAD_HOST && !host.is_open, "the last number");
    check(homa_open(&settings, 0, 0, 0, &host) == HOMA_BAD_INCARNATION && !host.is_open, "incarnation 0");
    check(homa_open(&settings, 0, 1, LAST_TICK + 1, &host) == HOMA_BAD_TICK && !host.is_open, "a clock past the last tick");
    check(homa_open(&settings, 1, 1, LAST_TICK, &host) == HOMA_OK && host.is_open, "the last tick");
    was = host;
    check(homa_open(&settings, 0, 2, 0, &host) == HOMA_IS_OPEN && host.at == was.at && host.is_open, "an open handle");
    check(homa_open_late(&settings, 0, 2, 0, 1, 1, &host) == HOMA_IS_OPEN && host.at == was.at && host.is_open, "an open handle");
    check(homa_turn(&host, LAST_TICK) == HOMA_OK && homa_turn(&host, LAST_TICK + 1) == HOMA_SPENT, "a turn past the last tick");
    check(homa_close(&host) == HOMA_OK && !host.is_open, "close");
    closed(&host, "use after close");
    check(homa_open_late(&settings, 0, 1, 0, 0, 1, &host) == HOMA_BAD_SETTING && !host.is_open, "no room to keep a call");
    check(homa_open_late(&settings, 0, 1, 0, 1, settings.life + 1, &host) == HOMA_BAD_SETTING && !host.is_open, "kept for longer than a life");
    check(homa_open_late(&settings, 0, 1, 0, 1, 1, &host) == HOMA_OK && homa_close(&host) == HOMA_OK, "close");
    closed(&host, "use after close of a host that keeps what asks");
}

/* Steps that can't begin, at a host whose clock stands at 10 and whose next call has number 1. */
static void step_wrongly(homa_host *host) {
    homa_call_id id;
    homa_asked asked;
    fill(&id, sizeof id), fill(&asked, sizeof asked);
    check(homa_call(host, 0, 0, bytes, 5, 10, &id) == HOMA_BAD_HOST, "a call of itself");
    check(homa_call(host, 2, 0, bytes, 5, 10, &id) == HOMA_BAD_HOST, "a call of no host");
    check(homa_call(host, 1, 0, bytes, 5, 9, &id) == HOMA_BAD_TICK, "a call at a tick that is over");
    check(homa_call(host, 1, 0, bytes, 5, LAST_TICK + 1, &id) == HOMA_SPENT, "a call past the last tick");
    check(homa_call(host, 1, 0, bytes, 0, 10, &id) == HOMA_NO_BYTES, "a request of no bytes");
    check(homa_call(host, 1, 0, bytes, LONG, 10, &id) == HOMA_TOO_LONG, "a request that is too long");
    check(is_filled(&id, sizeof id), "a call that isn't made has no name");
    check(homa_deliver(host, 0, bytes, 5, 10, bytes, 0, &asked) == HOMA_BAD_HOST, "a datagram from itself");
    check(homa_deliver(host, 2, bytes, 5, 10, bytes, 0, &asked) == HOMA_BAD_HOST, "a datagram from no host");
    check(homa_deliver(host, 1, bytes, 5, 9, bytes, 0, &asked) == HOMA_BAD_TICK, "a datagram at a tick that is over");
    check(homa_deliver(host, 1, bytes, DATAGRAM, 10, bytes, 0, &asked) == HOMA_TOO_LONG, "a datagram of 70,000 bytes");
    check(homa_deliver(host, 1, bytes, 65536, 10, bytes, 0, &asked) == HOMA_TOO_LONG, "a datagram of 65,536 bytes");
    check(homa_deliver(host, 1, bytes, 5, 10, bytes, LONG, &asked) == HOMA_TOO_LONG, "an answer that is too long");
    check(is_filled(&asked, sizeof asked), "nobody asks");
    check(homa_turn(host, 9) == HOMA_BAD_TICK, "a turn at a tick that is over");
    check(homa_deliver(host, 1, bytes, 65535, 10, bytes, 0, &asked) == HOMA_OK, "no packet");
    check(homa_entries(host) == 1 && homa_frames(host) == 0 && homa_whole_len(host) == 0, "what is told of no packet");
    check(homa_call(host, 1, 0, bytes, 5, 10, &id) == HOMA_OK && id.client == 0 && id.incarnation == 7 && id.number == 1, "the next call");
}

/* Frames, entries and messages that aren't there, and rooms that are one byte too small. */
static void read_wrongly(homa_host *client, homa_host *server) {
    uint8_t frame[1500];
    homa_frame_info info;
    homa_entry_info entry;
    homa_asked asked;
    size_t len;
    fill(&entry, sizeof entry), fill(&len, sizeof len), fill(room, 1500);
    check(homa_frames(client) == 1 && homa_frame(client, 0, frame, sizeof frame, &info) == HOMA_OK && info.to == 1, "a frame");
    size_t had = info.len, told = homa_entries(client);
    check(homa_turn(client, 9) == HOMA_BAD_TICK && homa_frames(client) == 1 && homa_entries(client) == told, "a refused turn shows the last step on");
    fill(&info, sizeof info);
    check(homa_frame(client, 1, room, 1500, &info) == HOMA_NOT_THERE, "a frame that isn't there");
    check(homa_frame(client, (size_t)-1, room, 1500, &info) == HOMA_NOT_THERE, "the last number of a frame");
    check(homa_frame(client, 0, room, had - 1, &info) == HOMA_NO_ROOM, "a room that is too small for a frame");
    check(is_filled(&info, sizeof info) && is_filled(room, 1500), "nothing is written");
    check(homa_entry(client, homa_entries(client), &entry) == HOMA_NOT_THERE, "an entry that isn't there");
    check(homa_entry(client, (size_t)-1, &entry) == HOMA_NOT_THERE && is_filled(&entry, sizeof entry), "the last number of an entry");
    check(homa_deliver(server, 0, frame, had, 10, bytes, 0, &asked) == HOMA_ASKS && asked.id.number == 1 && asked.service == 0, "who asks");
    check(homa_frames(server) == 0 && homa_entries(server) == 0 && homa_whole_len(server) == 5, "what is shown when it asks");
    check(homa_whole(server, room, 4, &len) == HOMA_NO_ROOM && is_filled(&len, sizeof len) && is_filled(room, 1500), "a room that is too small");
    check(homa_whole(server, room, 5, &len) == HOMA_OK && len == 5 && memcmp(room, bytes, 5) == 0 && is_filled(room + 5, 1495), "a room that is right");
    check(homa_deliver(server, 0, frame, had, 10, bytes, LONG, &asked) == HOMA_TOO_LONG, "an answer that is too long, where one is wanted");
    check(homa_frames(server) == 0 && homa_entries(server) == 0 && homa_whole_len(server) == 5, "it still shows who asked");
    check(homa_deliver(server, 0, frame, had, 10, bytes, 0, &asked) == HOMA_ASKS, "it asks again");
    check(homa_deliver(server, 0, frame, had, 10, bytes, LONG - 1, &asked) == HOMA_OK && homa_whole_len(server) == 5, "the longest answer");
    check(homa_deliver(server, 0, frame, had, 10, bytes, 5, &asked) == HOMA_OK, "the same datagram once more");
    check(homa_whole_len(server) == 0, "no message becomes whole twice");
    for (size_t i = 0; i < homa_entries(server); i++)
        check(homa_entry(server, i, &entry) == HOMA_OK && entry.kind != HOMA_RAN, "it doesn't run twice");
    check(homa_deliver(server, 0, frame, had, 10, bytes, 5, &asked) == HOMA_OK && homa_turn(server, 10) == HOMA_OK, "a turn");
    check(homa_whole_len(server) == 0, "no message becomes whole in a turn");
}

/* The first frame of a call with a request of so many bytes comes to host 1, with an answer of so many. Whether the answer was taken. */
static bool is_taken(homa_host *hosts, uint16_t client, size_t request, size_t answer) {
    uint8_t frame[1500];
    homa_call_id id;
    homa_frame_info info;
    homa_asked asked;
    homa_entry_info entry;
    bool is_ran = false;
    check(homa_call(&hosts[client], 1, 0, bytes, request, 0, &id) == HOMA_OK, "a call");
    check(homa_frame(&hosts[client], 0, frame, sizeof frame, &info) == HOMA_OK, "its first frame");
    check(homa_deliver(&hosts[1], client, frame, info.len, 0, bytes, answer, &asked) == HOMA_OK, "it comes");
    for (size_t i = 0; i < homa_entries(&hosts[1]); i++)
        is_ran |= homa_entry(&hosts[1], i, &entry) == HOMA_OK && entry.kind == HOMA_RAN;
    return is_ran;
}

/* OK doesn't say that an answer was taken: with room for one request, of which a piece is missing, there is none for another. */
static void answer_without_room(void) {
    homa_host hosts[3] = { HOMA_CLOSED, HOMA_CLOSED, HOMA_CLOSED };
    homa_settings settings;
    homa_usual(&settings);
    settings.hosts = 3;
    settings.served = 1;
    for (uint16_t i = 0; i < 3; i++) check(homa_open(&settings, i, 1, 0, &hosts[i]) == HOMA_OK, "open");
    check(!is_taken(hosts, 0, 3000, 0), "a request of which a piece is missing");
    check(!is_taken(hosts, 2, 5, 5), "an answer for which the server has no room");
    for (int i = 0; i < 3; i++) check(homa_close(&hosts[i]) == HOMA_OK, "close");
    for (uint16_t i = 0; i < 3; i++) check(homa_open(&settings, i, 2, 0, &hosts[i]) == HOMA_OK, "open");
    check(is_taken(hosts, 2, 5, 5), "and where it has room");
    for (int i = 0; i < 3; i++) check(homa_close(&hosts[i]) == HOMA_OK, "close");
}

int main(void) {
    homa_host none = HOMA_CLOSED, hosts[2] = { HOMA_CLOSED, HOMA_CLOSED };
    homa_settings settings;
    homa_call_id id;
    for (size_t i = 0; i < LONG; i++) bytes[i] = (uint8_t)(i * 3 + 200);
    closed(&none, "a handle that was never open");
    open_with_settings();
    open_wrongly();
    answer_without_room();
    homa_usual(&settings);
    for (uint16_t i = 0; i < 2; i++) check(homa_open(&settings, i, 7, 10, &hosts[i]) == HOMA_OK, "open");
    check(homa_call(&hosts[0], 1, 0, bytes, 5, 10, &id) == HOMA_OK && id.number == 0, "a call");
    step_wrongly(&hosts[0]);
    read_wrongly(&hosts[0], &hosts[1]);
    for (int i = 0; i < 2; i++) {
        check(homa_close(&hosts[i]) == HOMA_OK, "close");
        closed(&hosts[i], "use after close");
    }
    printf("misuse: %u passed, %u failed\n", passed, failed);
    return failed > 0;
}
