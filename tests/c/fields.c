/* The fields of the structs of homa.h, by name: each at its place, each setting at its bounds and one beyond, and the others by a call
 * whose numbers are all unlike. Two fields that change places, in the header or in the library, are seen. Prints what failed, and
 * 'fields: N passed, M failed'. */
#include "homa.h"
#include <stdio.h>
#include <string.h>

#define AT(type, field, offset, size)                                                                                                  \
    _Static_assert(offsetof(type, field) == (offset) && sizeof(((type *)0)->field) == (size), #type "." #field)
_Static_assert(sizeof(homa_settings) == 60, "homa_settings");
AT(homa_settings, hosts, 0, 4);
AT(homa_settings, seg, 4, 4);
AT(homa_settings, window, 8, 4);
AT(homa_settings, unsched, 12, 4);
AT(homa_settings, overcommit, 16, 4);
AT(homa_settings, rate, 20, 4);
AT(homa_settings, resend, 24, 4);
AT(homa_settings, tries, 28, 4);
AT(homa_settings, life, 32, 4);
AT(homa_settings, pages, 36, 4);
AT(homa_settings, calls, 40, 4);
AT(homa_settings, served, 44, 4);
AT(homa_settings, rebalance, 48, 4);
AT(homa_settings, skew, 52, 4);
AT(homa_settings, wire, 56, 4);
_Static_assert(sizeof(homa_call_id) == 12, "homa_call_id");
AT(homa_call_id, client, 0, 2);
AT(homa_call_id, incarnation, 4, 4);
AT(homa_call_id, number, 8, 4);
_Static_assert(sizeof(homa_asked) == 16, "homa_asked");
AT(homa_asked, id, 0, 12);
AT(homa_asked, service, 12, 4);
_Static_assert(sizeof(homa_frame_info) == 16, "homa_frame_info");
AT(homa_frame_info, from, 0, 2);
AT(homa_frame_info, to, 2, 2);
AT(homa_frame_info, len, 8, 8);
_Static_assert(sizeof(homa_entry_info) == 32, "homa_entry_info");
AT(homa_entry_info, kind, 0, 4);
AT(homa_entry_info, service, 4, 4);
AT(homa_entry_info, id, 8, 12);
AT(homa_entry_info, len, 24, 8);
_Static_assert(sizeof(homa_more_info) == 16, "homa_more_info");
AT(homa_more_info, peer, 0, 2);
AT(homa_more_info, at, 8, 8);
_Static_assert(sizeof(homa_counts) == 8 * HOMA_COUNTS, "homa_counts");
AT(homa_counts, calls, 8 * HOMA_COUNT_CALLS, 8);
AT(homa_counts, ran, 8 * HOMA_COUNT_RAN, 8);
AT(homa_counts, resends_sent, 8 * HOMA_COUNT_RESENDS_SENT, 8);
AT(homa_counts, no_pages, 8 * HOMA_COUNT_NO_PAGES, 8);
AT(homa_counts, freed, 8 * HOMA_COUNT_FREED, 8);
AT(homa_counts, live, 8 * HOMA_COUNT_LIVE, 8);
AT(homa_counts, kept, 8 * HOMA_COUNT_KEPT, 8);
AT(homa_counts, rows, 8 * HOMA_COUNT_ROWS, 8);
_Static_assert(sizeof(homa_host) == 16, "homa_host");
AT(homa_host, at, 0, 8);
AT(homa_host, is_open, 8, 1);

static unsigned passed, failed;

static void check(bool holds, const char *what) {
    if (holds) passed++;
    else {
        failed++;
        printf("failed: %s\n", what);
    }
}

/* Each setting with its bounds, and what the page of settings says is usual. */
#define SETTING(name, least, most, usual) { #name, offsetof(homa_settings, name), least, most, usual }
static const struct setting {
    const char *name;
    size_t at;
    uint32_t least, most, usual;
} settings_of[] = {
    SETTING(hosts, 2, 32, 2),
    SETTING(seg, 1, 1400, 1400),
    SETTING(window, 1, 1000000, 10000),
    SETTING(unsched, 1, 1000000, 10000),
    SETTING(overcommit, 1, 7, 4),
    SETTING(rate, 1, 1000000, 14000),
    SETTING(resend, 1, 1000, 4),
    SETTING(tries, 1, 100, 5),
    SETTING(life, 1, 100000, 20),
    SETTING(pages, 1, 4096, 1024),
    SETTING(calls, 1, 1024, 256),
    SETTING(served, 1, 4096, 1024),
    SETTING(rebalance, 0, 1024, 0),
    SETTING(skew, 0, 1000, 0),
    SETTING(wire, 1, 2, 1),
};

/* Whether a host opens with this value; the others are such that each value within the bounds goes with them. */
static bool opens(const struct setting *it, uint32_t value) {
    homa_settings settings;
    homa_host host = HOMA_CLOSED;
    homa_usual(&settings);
    settings.seg = 1;
    settings.window = settings.rate = 1000000;
    settings.unsched = 1;
    memcpy((char *)&settings + it->at, &value, sizeof value);
    bool is_open = homa_open(&settings, 0, 1, 0, &host) == HOMA_OK;
    if (is_open) homa_close(&host);
    return is_open;
}

static void settings_at_their_bounds(void) {
    homa_settings usual;
    homa_usual(&usual);
    for (size_t i = 0; i < sizeof settings_of / sizeof settings_of[0]; i++) {
        const struct setting *it = &settings_of[i];
        uint32_t value;
        memcpy(&value, (char *)&usual + it->at, sizeof value);
        check(value == it->usual && opens(it, it->least) && opens(it, it->most), it->name);
        check(!opens(it, it->least - 1) && !opens(it, it->most + 1) && !opens(it, UINT32_MAX), it->name);
    }
}

static void carry(homa_host *from, homa_host *to, uint16_t sender, size_t answer, uint64_t now);

/* The ticks of a call's first RESEND and of its end, where nobody answers. */
static void times_of(const homa_settings *settings, uint64_t *first, uint64_t *end) {
    homa_host host = HOMA_CLOSED;
    homa_call_id id;
    homa_entry_info entry;
    *first = *end = 0;
    check(homa_open(settings, 0, 1, 0, &host) == HOMA_OK && homa_call(&host, 1, 0, (const uint8_t *)"x", 1, 0, &id) == HOMA_OK, "a call");
    for (uint64_t now = 1; now < 100 && !*end; now++) {
        check(homa_turn(&host, now) == HOMA_OK, "a turn");
        if (!*first && homa_frames(&host)) *first = now;
        for (size_t i = 0; i < homa_entries(&host); i++)
            if (homa_entry(&host, i, &entry) == HOMA_OK && entry.kind == HOMA_TIMEOUT) *end = now;
    }
    check(homa_close(&host) == HOMA_OK, "close");
}

/* Of settings with much the same bounds, which one the library takes them for is seen by what they do. */
static void settings_by_what_they_do(void) {
    homa_settings settings;
    homa_host hosts[3] = { HOMA_CLOSED, HOMA_CLOSED, HOMA_CLOSED };
    homa_call_id id;
    uint64_t first, end;
    homa_usual(&settings);
    settings.resend = 2;
    settings.tries = 3;
    times_of(&settings, &first, &end);
    check(first == 2 && end == 8, "resend 2 and tries 3: the first RESEND at 2, the end at 8");
    homa_usual(&settings);
    settings.hosts = 3;
    settings.served = 1; /* and 1,024 pages: a request of three pages takes the row, and another finds none */
    for (uint16_t i = 0; i < 3; i++) check(homa_open(&settings, i, 1, 0, &hosts[i]) == HOMA_OK, "open");
    static const uint8_t request[9000];
    check(homa_call(&hosts[0], 1, 0, request, sizeof request, 0, &id) == HOMA_OK, "a call");
    carry(&hosts[0], &hosts[1], 0, 0, 0);
    check(homa_call(&hosts[2], 1, 0, request, 5, 0, &id) == HOMA_OK, "another");
    carry(&hosts[2], &hosts[1], 2, 5, 0);
    for (size_t i = 0; i < homa_entries(&hosts[1]); i++) {
        homa_entry_info entry;
        check(homa_entry(&hosts[1], i, &entry) == HOMA_OK && entry.kind != HOMA_RAN, "served 1: there is no row for another call");
    }
    for (size_t i = 0; i < 3; i++) check(homa_close(&hosts[i]) == HOMA_OK, "close");
}

/* The first frame of one host comes to another, with an answer of so many bytes. */
static void carry(homa_host *from, homa_host *to, uint16_t sender, size_t answer, uint64_t now) {
    static const uint8_t bytes[100];
    uint8_t frame[1500];
    homa_frame_info info;
    homa_asked asked;
    check(homa_frame(from, 0, frame, sizeof frame, &info) == HOMA_OK, "a frame");
    check(homa_deliver(to, sender, frame, info.len, now, bytes, answer, &asked) == HOMA_OK, "it comes");
}

static bool is_same(homa_call_id a, homa_call_id b) { return a.client == b.client && a.incarnation == b.incarnation && a.number == b.number; }

/* A request of 11 bytes from host 2, in incarnation 5, to service 7 of host 1: its second call. An answer of 23 bytes. */
static void unlike_numbers(void) {
    homa_settings settings;
    homa_host client = HOMA_CLOSED, server = HOMA_CLOSED;
    homa_call_id first, id;
    homa_frame_info info;
    homa_entry_info entry;
    homa_asked asked;
    uint8_t frame[1500], bytes[23] = { 0 };
    size_t ran = 0;
    homa_usual(&settings);
    settings.hosts = 3;
    check(homa_open(&settings, 2, 5, 0, &client) == HOMA_OK && homa_open(&settings, 1, 9, 0, &server) == HOMA_OK, "two hosts");
    check(homa_call(&client, 1, 3, bytes, 4, 0, &first) == HOMA_OK && homa_call(&client, 1, 7, bytes, 11, 0, &id) == HOMA_OK, "two calls");
    check(id.client == 2 && id.incarnation == 5 && id.number == first.number + 1, "the fields of a call");
    check(homa_frames(&client) == 1 && homa_frame(&client, 0, frame, sizeof frame, &info) == HOMA_OK, "a frame");
    check(info.from == 2 && info.to == 1 && info.len > 11, "the fields of a frame");
    check(homa_deliver(&server, 2, frame, info.len, 0, bytes, 0, &asked) == HOMA_ASKS, "it asks");
    check(asked.service == 7 && is_same(asked.id, id), "the fields of what is asked");
    check(homa_deliver(&server, 2, frame, info.len, 0, bytes, 23, &asked) == HOMA_OK, "an answer");
    for (size_t i = 0; i < homa_entries(&server); i++)
        if (homa_entry(&server, i, &entry) == HOMA_OK && entry.kind == HOMA_RAN)
            ran += entry.service == 7 && entry.len == 11 && is_same(entry.id, id);
    check(ran == 1, "the fields of an entry");
    check(homa_close(&client) == HOMA_OK && homa_close(&server) == HOMA_OK, "close");
}

static bool is_filled(const uint8_t *at, size_t len) {
    for (size_t i = 0; i < len; i++)
        if (at[i] != 0xa5) return false;
    return true;
}

/* What stands in a room behind what was copied stays. */
static void behind_what_is_copied(void) {
    homa_settings settings;
    homa_host client = HOMA_CLOSED, server = HOMA_CLOSED;
    homa_call_id id;
    homa_frame_info info;
    homa_asked asked;
    uint8_t frame[1500], room[1500], bytes[5] = { 1, 2, 3, 4, 5 };
    size_t len;
    homa_usual(&settings);
    check(homa_open(&settings, 0, 1, 0, &client) == HOMA_OK && homa_open(&settings, 1, 1, 0, &server) == HOMA_OK, "open");
    check(homa_call(&client, 1, 0, bytes, 5, 0, &id) == HOMA_OK, "a call");
    memset(frame, 0xa5, sizeof frame), memset(room, 0xa5, sizeof room);
    check(homa_frame(&client, 0, frame, sizeof frame, &info) == HOMA_OK, "a frame");
    check(is_filled(frame + info.len, sizeof frame - info.len), "the room behind a frame");
    check(homa_deliver(&server, 0, frame, info.len, 0, bytes, 0, &asked) == HOMA_ASKS, "it asks");
    check(homa_whole(&server, room, sizeof room, &len) == HOMA_OK && len == 5 && is_filled(room + 5, sizeof room - 5), "behind a message");
    check(homa_close(&client) == HOMA_OK && homa_close(&server) == HOMA_OK, "close");
}

int main(void) {
    settings_at_their_bounds();
    settings_by_what_they_do();
    unlike_numbers();
    behind_what_is_copied();
    printf("fields: %u passed, %u failed\n", passed, failed);
    return failed > 0;
}
