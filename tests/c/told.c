/* What the answers of homa.h tell: each kind of entry once, with its call, its peer and its numbers; counts; levels; results that say
 * 'later' and 'never'; messages that could never fit; the clock's end; settings of services. Three hosts in one process, ticks counted by
 * hand; host 1 serves. Prints what failed, and 'told: N passed, M failed'. */
#include "homa.h"
#include <stdio.h>
#include <string.h>

enum { CLIENT = 0, SERVER = 1, OTHER = 2, HOSTS = 3, FRAME = 1500, LONG = 1000000 };
static const uint64_t LAST_TICK = 1000000002000;
static unsigned passed, failed;
static homa_host hosts[HOSTS];
static homa_settings settings;
static uint8_t bytes[LONG + 1];
static struct {
    uint8_t bytes[FRAME];
    size_t len;
} kept[64];

static void checked(bool holds, int line, const char *what) {
    if (holds) passed++;
    else {
        failed++;
        printf("failed at line %d: %s\n", line, what);
    }
}
#define CHECK(it) checked((it), __LINE__, #it)

/* Three hosts with the usual settings, but for what is said before. */
static void begin(void) {
    homa_usual(&settings);
    settings.hosts = HOSTS;
}
static void open_all(uint32_t incarnation, uint64_t last) {
    for (uint16_t i = 0; i < HOSTS; i++) {
        hosts[i] = (homa_host)HOMA_CLOSED;
        CHECK(homa_open(&settings, i, incarnation, last, &hosts[i]) == HOMA_OK);
    }
}
static void close_all(void) {
    for (uint16_t i = 0; i < HOSTS; i++) CHECK(homa_close(&hosts[i]) == HOMA_OK);
}

static homa_call_id called(uint16_t client, size_t len, uint64_t now) {
    homa_call_id id = { 9, 9, 9 };
    CHECK(homa_call(&hosts[client], SERVER, 7, bytes, len, now, &id) == HOMA_OK);
    return id;
}

/* Keeps the frames of a host's last step, and says how many there are. */
static size_t keep_frames(uint16_t host) {
    homa_frame_info info;
    size_t count = homa_frames(&hosts[host]);
    for (size_t i = 0; i < count; i++) {
        CHECK(homa_frame(&hosts[host], i, kept[i].bytes, FRAME, &info) == HOMA_OK && info.from == host);
        kept[i].len = info.len;
    }
    return count;
}

/* A kept frame comes, with an answer of so many bytes. */
static uint32_t comes(uint16_t to, uint16_t from, size_t i, uint64_t now, size_t answer) {
    homa_asked asked;
    return homa_deliver(&hosts[to], from, kept[i].bytes, kept[i].len, now, bytes, answer, &asked);
}

static uint64_t rows_of_server(void) { return homa_count(&hosts[SERVER], HOMA_COUNT_ROWS); }

/* Whether the host's last step has exactly one entry of this kind, with this call, peer and numbers. */
static bool tells(uint16_t host, uint32_t kind, const homa_call_id *id, size_t len, uint16_t peer, uint64_t at) {
    homa_entry_info it;
    homa_more_info more;
    size_t found = 0;
    for (size_t i = 0; i < homa_entries(&hosts[host]); i++) {
        if (homa_entry(&hosts[host], i, &it) != HOMA_OK || homa_entry_more(&hosts[host], i, &more) != HOMA_OK) return false;
        if (it.kind != kind) continue;
        found++;
        bool is_of = id ? it.id.client == id->client && it.id.incarnation == id->incarnation && it.id.number == id->number
                        : it.id.client == 0 && it.id.incarnation == 0 && it.id.number == 0;
        uint32_t service = kind == HOMA_RAN || kind == HOMA_CALLED ? 7 : 0;
        if (!is_of || it.len != len || it.service != service || more.peer != peer || more.at != at) {
            printf("%s: call %u.%u.%u, service %u, len %zu, peer %u, at %llu\n", homa_text_of_entry(kind), it.id.client, it.id.incarnation, it.id.number,
                   it.service, it.len, more.peer, (unsigned long long)more.at);
            return false;
        }
    }
    return found == 1;
}

static void versions_and_words(void) {
    char version[20];
    uint32_t n = homa_version();
    snprintf(version, sizeof version, "%u.%u.%u", n >> 16, n >> 8 & 255, n & 255);
    CHECK(n == HOMA_VERSION_NUMBER && strcmp(version, HOMA_VERSION) == 0);
    static const uint8_t results[] = { 0, 1, 3, 4, 5, 6, 7, 8, 9, 16, 17, 18, 19, 20, 21, 22, 23, 24, 25, 26 };
    for (size_t i = 0; i < sizeof results; i++) {
        CHECK(strcmp(homa_text_of(results[i]), "unknown") != 0 && HOMA_IS_MISTAKE(results[i]) == (results[i] > 15));
        for (size_t k = 0; k < i; k++) CHECK(strcmp(homa_text_of(results[i]), homa_text_of(results[k])) != 0);
    }
    CHECK(strcmp(homa_text_of(2), "unknown") == 0 && strcmp(homa_text_of(27), "unknown") == 0 && strcmp(homa_text_of(HOMA_FULL), "full") == 0);
    CHECK(strcmp(homa_text_of_setting(0), "nothing") == 0 && strcmp(homa_text_of_setting(15), "wire") == 0);
    CHECK(strcmp(homa_text_of_setting(17), "rate under seg") == 0 && strcmp(homa_text_of_setting(18), "unknown") == 0);
    CHECK(strcmp(homa_text_of_entry(HOMA_NO_ROW), "no row") == 0 && strcmp(homa_text_of_entry(HOMA_BALANCED), "balanced") == 0);
    CHECK(strcmp(homa_text_of_entry(16), "unknown") == 0);
}

/* A call from its begin to the end of its record, which the client acknowledges or not: CALLED, SENT, RAN, DONE, BURIED, FREED. */
static void a_call(bool is_acked) {
    begin();
    open_all(5, 10);
    CHECK(homa_last(&hosts[CLIENT]) == 10 && homa_live(&hosts[CLIENT]) == 0);
    homa_call_id id = called(CLIENT, 11, 12);
    CHECK(homa_last(&hosts[CLIENT]) == 12 && homa_live(&hosts[CLIENT]) == 1 && homa_entries(&hosts[CLIENT]) == 2);
    CHECK(tells(CLIENT, HOMA_CALLED, &id, 11, SERVER, 0) && tells(CLIENT, HOMA_SENT, &id, 11, SERVER, 1));
    CHECK(keep_frames(CLIENT) == 1 && homa_frame_level(&hosts[CLIENT], 0) == kept[0].bytes[3] && homa_frame_level(&hosts[CLIENT], 1) == 0);
    CHECK(comes(SERVER, CLIENT, 0, 12, 0) == HOMA_ASKS && homa_entries(&hosts[SERVER]) == 0);
    CHECK(homa_count(&hosts[SERVER], HOMA_COUNT_ASKED) == 1 && homa_count(&hosts[SERVER], HOMA_COUNT_RECEIVED) == 0);
    CHECK(comes(SERVER, CLIENT, 0, 12, 23) == HOMA_OK && tells(SERVER, HOMA_RAN, &id, 11, CLIENT, 0) && keep_frames(SERVER) == 1);
    CHECK(tells(SERVER, HOMA_SENT, &id, 23, CLIENT, 1) && rows_of_server() == 1 && homa_count(&hosts[CLIENT], HOMA_COUNT_ROWS) == 0);
    CHECK(comes(CLIENT, SERVER, 0, 13, 0) == HOMA_OK && tells(CLIENT, HOMA_DONE, &id, 23, SERVER, 0) && homa_live(&hosts[CLIENT]) == 0);
    uint64_t buried = 0, freed = 0, until = 0;
    for (uint64_t now = 13; now < 200 && !freed; now++) {
        CHECK(homa_turn(&hosts[SERVER], now) == HOMA_OK);
        for (size_t i = 0, count = is_acked ? keep_frames(SERVER) : 0; i < count; i++) {
            CHECK(comes(CLIENT, SERVER, i, now, 0) == HOMA_OK && keep_frames(CLIENT) == 1 && comes(SERVER, CLIENT, 0, now, 0) == HOMA_OK);
        }
        if (!buried && homa_count(&hosts[SERVER], HOMA_COUNT_BURIED)) {
            buried = now;
            until = is_acked ? now + settings.life : now + 2 * settings.life + 24;
            CHECK(tells(SERVER, HOMA_BURIED, &id, 0, CLIENT, until));
        }
        if (homa_count(&hosts[SERVER], HOMA_COUNT_FREED)) {
            freed = now;
            CHECK(tells(SERVER, HOMA_FREED, &id, 0, CLIENT, 0));
        }
        CHECK(rows_of_server() == (freed ? 0 : 1));
    }
    CHECK(buried == (is_acked ? 16 : 12 + 24) && freed == until + 1); /* it asks for an ACK at 16, and after its patience gives up */
    homa_counts counts;
    homa_counts_of(&hosts[SERVER], &counts);
    CHECK(counts.asked == 1 && counts.ran == 1 && counts.buried == 1 && counts.freed == 1 && counts.calls == 0 && counts.live == 0);
    homa_counts_of(&hosts[CLIENT], &counts);
    CHECK(counts.calls == 1 && counts.done == 1 && counts.received == (is_acked ? 2 : 1) && counts.timeouts == 0 && counts.ran == 0 && counts.sent_bytes > 11);
    close_all();
}

/* What no packet is, and a packet that is too old: who sent it. Nothing names a call. */
static void junk_and_stale(void) {
    homa_asked asked;
    begin();
    settings.wire = 2;
    settings.skew = 3;
    open_all(1, 0);
    CHECK(homa_deliver(&hosts[SERVER], OTHER, bytes, 5, 0, HOMA_NONE, 0, &asked) == HOMA_OK && tells(SERVER, HOMA_JUNK, NULL, 0, OTHER, 0));
    called(OTHER, 5, 4);
    CHECK(keep_frames(OTHER) == 1);
    uint64_t last = 4 + settings.life + 2 * settings.skew; /* the last tick at which it is taken */
    CHECK(comes(SERVER, OTHER, 0, last, 0) == HOMA_ASKS);
    CHECK(comes(SERVER, OTHER, 0, last + 1, 0) == HOMA_OK && tells(SERVER, HOMA_STALE, NULL, 0, OTHER, 4) && homa_entries(&hosts[SERVER]) == 1);
    CHECK(homa_count(&hosts[SERVER], HOMA_COUNT_JUNK) == 1 && homa_count(&hosts[SERVER], HOMA_COUNT_STALE) == 1);
    CHECK(homa_count(&hosts[SERVER], HOMA_COUNT_RECEIVED) == 2);
    close_all();
}

/* What a host sends that has another version, and then what two send whose clocks are too far apart: who is ahead tells `stale`. */
static void hosts_that_differ(void) {
    homa_call_id id;
    begin();
    open_all(1, 0);
    CHECK(homa_close(&hosts[SERVER]) == HOMA_OK);
    settings.wire = 2;
    CHECK(homa_open(&settings, SERVER, 1, 0, &hosts[SERVER]) == HOMA_OK);
    called(CLIENT, 5, 0);
    CHECK(keep_frames(CLIENT) == 1 && comes(SERVER, CLIENT, 0, 0, 0) == HOMA_OK && tells(SERVER, HOMA_JUNK, NULL, 0, CLIENT, 0));
    CHECK(homa_call(&hosts[SERVER], CLIENT, 7, bytes, 5, 0, &id) == HOMA_OK && keep_frames(SERVER) == 1);
    CHECK(comes(CLIENT, SERVER, 0, 0, 0) == HOMA_OK && tells(CLIENT, HOMA_JUNK, NULL, 0, SERVER, 0));
    close_all();
    begin();
    settings.wire = 2;
    settings.skew = 3;
    open_all(1, 0);
    uint64_t ahead = settings.life + 2 * settings.skew + 1;
    id = called(CLIENT, 5, ahead);
    CHECK(keep_frames(CLIENT) == 1 && comes(SERVER, CLIENT, 0, 0, 5) == HOMA_OK && tells(SERVER, HOMA_RAN, &id, 5, CLIENT, 0));
    CHECK(keep_frames(SERVER) == 1 && comes(CLIENT, SERVER, 0, ahead, 0) == HOMA_OK && tells(CLIENT, HOMA_STALE, NULL, 0, SERVER, 0));
    CHECK(homa_live(&hosts[CLIENT]) == 1);
    called(OTHER, 5, 0);
    CHECK(homa_turn(&hosts[SERVER], ahead) == HOMA_OK && keep_frames(OTHER) == 1);
    CHECK(comes(SERVER, OTHER, 0, ahead, 0) == HOMA_OK && tells(SERVER, HOMA_STALE, NULL, 0, OTHER, 0));
    close_all();
}

/* A request of three pages comes in part, for which there are one row and four pages; then another, of one packet, and one of two pages. */
static void no_row_and_no_pages(void) {
    for (uint32_t served = 1; served <= 2; served++) {
        begin();
        settings.served = served;
        settings.pages = 4;
        open_all(1, 0);
        called(CLIENT, 9000, 0);
        CHECK(keep_frames(CLIENT) > 1 && comes(SERVER, CLIENT, 0, 0, 0) == HOMA_OK);
        CHECK(rows_of_server() == 1);
        homa_call_id id = called(OTHER, served == 1 ? 5 : 5000, 0);
        CHECK(keep_frames(OTHER) > 0 && comes(SERVER, OTHER, 0, 0, served == 1) == HOMA_OK && rows_of_server() == 1);
        if (served == 1) CHECK(tells(SERVER, HOMA_NO_ROW, &id, 1, OTHER, 1) && homa_count(&hosts[SERVER], HOMA_COUNT_NO_ROW) == 1);
        else CHECK(tells(SERVER, HOMA_NO_PAGES, &id, 2, OTHER, 1) && homa_count(&hosts[SERVER], HOMA_COUNT_NO_PAGES) == 1);
        close_all();
    }
}

/* Every second piece of one byte comes, not the first: the 64th would leave 65 gaps, one before each and one behind all. Then nothing: the server asks for the rest in vain, and drops it. */
static void gaps_and_dropped(void) {
    begin();
    settings.seg = 1;
    open_all(1, 0);
    homa_call_id id = called(OTHER, 300, 0);
    size_t came = 0, at = 0;
    bool told = false;
    for (uint64_t now = 0; now < 4 && !told; now++) {
        for (size_t i = 0, count = keep_frames(OTHER); i < count && !told; i++) {
            if (at++ % 2 == 0) continue;
            CHECK(comes(SERVER, OTHER, i, now, 0) == HOMA_OK);
            told = homa_count(&hosts[SERVER], HOMA_COUNT_GAPS) > 0;
            came++;
        }
        if (!told) CHECK(homa_turn(&hosts[OTHER], now + 1) == HOMA_OK);
    }
    CHECK(told && came == 64 && tells(SERVER, HOMA_GAPS, &id, 0, OTHER, 0));
    uint64_t now = 10;
    for (; now < 200 && !homa_count(&hosts[SERVER], HOMA_COUNT_DROPPED); now++) CHECK(homa_turn(&hosts[SERVER], now) == HOMA_OK);
    CHECK(rows_of_server() == 0 && now < 200 && tells(SERVER, HOMA_DROPPED, &id, 0, OTHER, 0) && homa_count(&hosts[SERVER], HOMA_COUNT_RESENDS_SENT) >= settings.tries);
    close_all();
}

/* A call of a server that is silent, and one of a server that has forgotten it. */
static void timeout_and_forgotten(void) {
    begin();
    open_all(1, 0);
    homa_call_id id = called(CLIENT, 5, 0);
    for (uint64_t now = 1; now <= 24; now++) CHECK(homa_turn(&hosts[CLIENT], now) == HOMA_OK);
    CHECK(tells(CLIENT, HOMA_TIMEOUT, &id, 0, HOMA_NO_PEER, 0) && homa_count(&hosts[CLIENT], HOMA_COUNT_TIMEOUTS) == 1);
    CHECK(homa_count(&hosts[CLIENT], HOMA_COUNT_RESENDS_SENT) == settings.tries && homa_live(&hosts[CLIENT]) == 0);
    /* UNKNOWN 1, of version 1: it was served, and is forgotten */
    id = called(CLIENT, 5, 25);
    uint8_t unknown[17] = { 1, 6, 1, 7, 0, 0, 0, 1, 0, 0, 0, 1, 0, 0, 0, (uint8_t)id.number, 1 };
    homa_asked asked;
    CHECK(homa_deliver(&hosts[CLIENT], SERVER, unknown, sizeof unknown, 26, HOMA_NONE, 0, &asked) == HOMA_OK);
    CHECK(tells(CLIENT, HOMA_FORGOTTEN, &id, 0, SERVER, 0) && homa_count(&hosts[CLIENT], HOMA_COUNT_FORGOTTEN) == 1);
    close_all();
}

static void balanced(void) {
    begin();
    settings.rebalance = 1;
    open_all(1, 0);
    called(CLIENT, 5, 0);
    CHECK(keep_frames(CLIENT) == 1 && comes(SERVER, CLIENT, 0, 0, 5) == HOMA_OK && tells(SERVER, HOMA_BALANCED, NULL, 1, HOMA_NO_PEER, 0));
    close_all();
}

/* With three pages a message of 12,288 bytes may come, and no longer one; neither a request nor an answer. */
static void what_never_fits(void) {
    homa_call_id id = { 1, 2, 3 };
    begin();
    settings.pages = 3;
    open_all(1, 0);
    CHECK(homa_call(&hosts[CLIENT], SERVER, 7, bytes, 12289, 0, &id) == HOMA_TOO_MANY_PAGES && id.client == 1 && id.number == 3);
    CHECK(homa_call(&hosts[CLIENT], SERVER, 7, bytes, LONG, 0, &id) == HOMA_TOO_MANY_PAGES);
    CHECK(homa_call(&hosts[CLIENT], SERVER, 7, bytes, LONG + 1, 0, &id) == HOMA_TOO_LONG && homa_live(&hosts[CLIENT]) == 0);
    id = called(CLIENT, 12288, 0);
    called(OTHER, 5, 0);
    CHECK(keep_frames(OTHER) == 1 && comes(SERVER, OTHER, 0, 0, 12289) == HOMA_TOO_MANY_PAGES && homa_entries(&hosts[SERVER]) == 0);
    CHECK(comes(SERVER, OTHER, 0, 0, 12288) == HOMA_OK && homa_count(&hosts[SERVER], HOMA_COUNT_RAN) == 1);
    close_all();
}

/* FULL is later: with room for one call, the next waits for its end. SPENT is never: past the last tick. */
static void later_and_never(void) {
    homa_call_id id;
    uint64_t at = 77;
    begin();
    settings.calls = 1;
    open_all(1, LAST_TICK - 2);
    CHECK(homa_next_turn(&hosts[SERVER], &at) == HOMA_NEVER && at == 77);
    called(CLIENT, 5, LAST_TICK - 2);
    CHECK(homa_call(&hosts[CLIENT], SERVER, 7, bytes, 5, LAST_TICK - 2, &id) == HOMA_FULL && homa_live(&hosts[CLIENT]) == 1);
    CHECK(homa_call(&hosts[CLIENT], SERVER, 7, bytes, 5, LAST_TICK - 3, &id) == HOMA_BAD_TICK);
    CHECK(homa_call(&hosts[CLIENT], SERVER, 7, bytes, 5, LAST_TICK + 1, &id) == HOMA_SPENT);
    CHECK(homa_call(&hosts[CLIENT], CLIENT, 7, bytes, 0, LAST_TICK + 1, &id) == HOMA_BAD_HOST);
    CHECK(homa_next_turn(&hosts[CLIENT], &at) == HOMA_NEVER && at == 77); /* its deadline is at the tick after the next but three */
    CHECK(homa_turn(&hosts[CLIENT], LAST_TICK) == HOMA_OK && homa_frames(&hosts[CLIENT]) == 0 && homa_entries(&hosts[CLIENT]) == 0);
    CHECK(homa_turn(&hosts[CLIENT], LAST_TICK + 1) == HOMA_SPENT && homa_next_turn(&hosts[CLIENT], &at) == HOMA_NEVER);
    close_all();
    settings.resend = 2;
    open_all(2, LAST_TICK - 2);
    called(CLIENT, 5, LAST_TICK - 2);
    CHECK(homa_next_turn(&hosts[CLIENT], &at) == HOMA_OK && at == LAST_TICK);
    close_all();
    begin();
    open_all(3, LAST_TICK);
    called(CLIENT, 100000, LAST_TICK); /* bytes wait, and the next tick isn't there */
    CHECK(homa_next_turn(&hosts[CLIENT], &at) == HOMA_NEVER && homa_last(&hosts[CLIENT]) == LAST_TICK);
    close_all();
}

/* How often a request of one packet is asked for that is served at tick 0 and comes once more at this tick. */
static unsigned asks_again(uint64_t now) {
    settings.hosts = HOSTS;
    open_all(1, 0);
    called(CLIENT, 5, 0);
    CHECK(keep_frames(CLIENT) == 1 && comes(SERVER, CLIENT, 0, 0, 5) == HOMA_OK && homa_count(&hosts[SERVER], HOMA_COUNT_RAN) == 1);
    for (uint64_t tick = 1; tick < now; tick++) CHECK(homa_turn(&hosts[SERVER], tick) == HOMA_OK);
    unsigned again = comes(SERVER, CLIENT, 0, now, 0) == HOMA_ASKS;
    close_all();
    return again;
}

/* A datagram comes back at tick 100: with the usual settings its call would be served once more. With those of services it isn't, at any tick. */
static void settings_of_services(void) {
    homa_service(&settings);
    CHECK(homa_wrong_setting(&settings) == 0 && settings.wire == 2 && settings.hosts == 32 && settings.rebalance > 0 && settings.pages >= 245);
    homa_usual(&settings);
    CHECK(asks_again(100) == 1);
    homa_service(&settings);
    CHECK(asks_again(100) == 0);
    homa_service(&settings);
    CHECK(asks_again(3000) == 0);
    homa_service(&settings);
    CHECK(asks_again(10000) == 0);
}

int main(void) {
    versions_and_words();
    a_call(false);
    a_call(true);
    junk_and_stale();
    hosts_that_differ();
    no_row_and_no_pages();
    gaps_and_dropped();
    timeout_and_forgotten();
    balanced();
    what_never_fits();
    later_and_never();
    settings_of_services();
    printf("told: %u passed, %u failed\n", passed, failed);
    return failed > 0;
}
