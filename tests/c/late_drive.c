/* Random steps of a net whose server keeps what asks (homa_open_late), beside a mirror of the calls that it keeps. While a call is kept it is
 * shown once, as it was made. An entry HOMA_RAN comes with exactly the answer that was given to that call, and at most once in an
 * incarnation. A call makes room only if its datagram is too old, and the oldest one does. Each result is the mirror's. If nothing
 * happened, nothing is shown.
 * Prints what failed, and 'late_drive: N steps, M failed'.
 *
 * usage: late_drive STEPS SEED [MODE]     MODE has the letters h (a fourth of the datagrams is forged), m (a third of some allocations is
 * refused; linked with -Wl,--wrap=malloc,--wrap=realloc), s (small rooms) */
#include "homa.h"
#include <errno.h>
#include <stdio.h>
#include <stdlib.h>
#include <string.h>

enum { HOSTS = 4, NET = 4000, CALLS = 1 << 14, FRAME = 1500, MOST = 1000000 };

static uint64_t state;
static unsigned long steps, failed, refusals;
static bool hostile, wants_memory, is_small, may_refuse;

static uint64_t any(uint64_t below) {
    state ^= state << 13;
    state ^= state >> 7;
    state ^= state << 17;
    return below ? state % below : 0;
}

static void checked(bool holds, int line, const char *what) {
    if (!holds && failed++ < 30) printf("failed at line %d, step %lu: %s\n", line, steps, what);
}
#define CHECK(it) checked((it), __LINE__, #it)

void *__real_malloc(size_t n);
void *__real_realloc(void *at, size_t n);
static bool refuses(void) {
    if (!may_refuse || any(3) > 0) return false;
    refusals++;
    errno = ENOMEM;
    return true;
}
void *__wrap_malloc(size_t n) { return refuses() ? NULL : __real_malloc(n); }
void *__wrap_realloc(void *at, size_t n) { return refuses() ? NULL : __real_realloc(at, n); }

/* A call, one that a forged datagram made up too. Kept is whether the server should keep it, answered whether an answer was given to it since. */
typedef struct {
    homa_call_id id;
    uint8_t service;
    uint32_t seed, answer_seed, ran_in;
    size_t len, answer_len;
    bool is_forged, is_ended, is_kept, is_answered, has_ran;
    unsigned given;
    uint64_t at; /* when it asked last */
    unsigned long told; /* the how many-th that was told */
} call;

static struct {
    uint16_t from, to;
    size_t len;
    uint64_t at;
    uint8_t bytes[FRAME];
} net[NET];
static size_t net_len, call_count, kept_count;
static uint32_t table_room;
static call calls[CALLS];
static homa_host hosts[HOSTS];
static uint32_t incarnations[HOSTS], live[HOSTS];
static homa_settings settings;
static uint64_t now, keep;
static uint8_t *room, *text;
static unsigned long told, again, full, answers, ran, at_once, done, later, gone, kept_back, no_memory, thrown_out;

static uint8_t byte_of(uint64_t *at) {
    *at = *at * 6364136223846793005u + 1442695040888963407u;
    return (uint8_t)(*at >> 56);
}

static void fill(uint8_t *at, size_t len, uint32_t seed) {
    uint64_t it = seed * 0x9e3779b97f4a7c15u + 7;
    for (size_t i = 0; i < len; i++) at[i] = byte_of(&it);
}

static bool is_of(const uint8_t *at, size_t len, uint32_t seed) {
    uint64_t it = seed * 0x9e3779b97f4a7c15u + 7;
    for (size_t i = 0; i < len; i++)
        if (at[i] != byte_of(&it)) return false;
    return true;
}

static bool is_same(homa_call_id a, homa_call_id b) { return a.client == b.client && a.incarnation == b.incarnation && a.number == b.number; }

static call *call_of(homa_call_id id) {
    for (size_t i = call_count; i-- > 0;)
        if (is_same(calls[i].id, id)) return &calls[i];
    return NULL;
}

/* The call whose answer comes with its datagram in this step, if one does. */
static call *in_hand;

static void leaves(call *it) {
    it->is_kept = it->is_answered = false;
    kept_count--;
}

/* ---- reading a step */

/* In an honest net an entry has the request of its call. In each net the call was told, and it or this step was given an answer. */
static void has_ran(uint16_t host, const homa_entry_info *entry) {
    call *it = call_of(entry->id);
    ran++;
    CHECK(host == 0 && it && (it->is_answered || in_hand == it));
    if (!it) return;
    if (!hostile) CHECK(it->service == entry->service && it->len == entry->len && !(it->has_ran && it->ran_in == incarnations[0]));
    at_once += in_hand == it;
    if (it->is_kept) leaves(it);
    it->has_ran = true;
    it->ran_in = incarnations[0];
}

static void has_ended(uint16_t host, const homa_entry_info *entry) {
    size_t len;
    call *it = call_of(entry->id);
    CHECK(it && !it->is_forged && !it->is_ended && it->id.client == host && it->id.incarnation == incarnations[host]);
    live[host]--;
    done += entry->kind == HOMA_DONE;
    if (!it) return;
    it->is_ended = true;
    if (hostile || entry->kind != HOMA_DONE) return;
    CHECK(homa_whole(&hosts[host], room, MOST, &len) == HOMA_OK && len == entry->len && it->given > 0);
    if (it->given == 1) CHECK(len == it->answer_len && is_of(room, len, it->answer_seed)); /* with more, it may be of an earlier life */
}

static void read_step(uint16_t host) {
    homa_frame_info frame;
    homa_entry_info entry;
    for (size_t i = 0; i < homa_frames(&hosts[host]); i++) {
        size_t at = net_len < NET ? net_len++ : any(NET);
        CHECK(homa_frame(&hosts[host], i, net[at].bytes, FRAME, &frame) == HOMA_OK);
        net[at].from = host;
        net[at].to = frame.to;
        net[at].len = frame.len;
        net[at].at = now;
    }
    for (size_t i = 0; i < homa_entries(&hosts[host]); i++) {
        CHECK(homa_entry(&hosts[host], i, &entry) == HOMA_OK);
        if (entry.kind == HOMA_RAN) has_ran(host, &entry);
        if (entry.kind == HOMA_DONE || entry.kind == HOMA_TIMEOUT || entry.kind == HOMA_FORGOTTEN) has_ended(host, &entry);
    }
}

/* ---- hosts, and nets of them */

static void open_host(uint16_t host) {
    hosts[host] = (homa_host)HOMA_CLOSED;
    live[host] = 0;
    uint32_t inc = ++incarnations[host];
    if (host != 0) {
        CHECK(homa_open(&settings, host, inc, now, &hosts[host]) == HOMA_OK);
        return;
    }
    CHECK(homa_open_late(&settings, host, inc, now, table_room, (uint32_t)keep, &hosts[0]) == HOMA_OK);
    for (size_t i = 0; i < call_count; i++) calls[i].is_kept = calls[i].is_answered = false;
    kept_count = 0;
}

static void close_host(uint16_t host) { CHECK(homa_close(&hosts[host]) == HOMA_OK); }

static void new_net(void) {
    for (uint16_t k = 0; k < HOSTS; k++)
        if (hosts[k].is_open) close_host(k);
    net_len = call_count = 0;
    homa_usual(&settings);
    settings.hosts = HOSTS;
    settings.seg = (uint32_t)(any(3) ? 1400 : 20 + any(1380));
    settings.window = (uint32_t)(1 + any(20000));
    settings.unsched = (uint32_t)(1 + any(settings.window));
    settings.rate = (uint32_t)(settings.seg + any(200000));
    settings.resend = (uint32_t)(1 + any(12));
    settings.tries = (uint32_t)(1 + any(12));
    settings.life = (uint32_t)(1 + any(300));
    settings.pages = (uint32_t)(is_small ? 1 + any(6) : 1 + any(300));
    settings.calls = (uint32_t)(1 + any(40));
    settings.served = (uint32_t)(is_small ? 1 + any(4) : 1 + any(200));
    settings.skew = (uint32_t)any(3);
    settings.wire = (uint32_t)(1 + any(2));
    keep = settings.wire == 1 ? any(settings.life) : settings.life; /* with version 1 a datagram comes within life - keep */
    table_room = (uint32_t)(is_small ? 1 + any(4) : 1 + any(60));
    now = any(100000);
    memset(incarnations, 0, sizeof incarnations);
    for (uint16_t k = 0; k < HOSTS; k++) open_host(k);
}

/* ---- the steps */

/* A forged datagram may have asked for a call that is made only later: to the server it is the same one. */
static void take_over(call *it) {
    call *forged = call_of(it->id);
    CHECK(hostile || !forged);
    if (!forged) return;
    it->is_kept = forged->is_kept;
    it->is_answered = forged->is_answered;
    it->at = forged->at;
    it->told = forged->told;
    *forged = (call){ .is_forged = true, .is_ended = true };
}

static void try_call(void) {
    uint16_t host = (uint16_t)(1 + any(HOSTS - 1));
    uint64_t pick = any(100);
    size_t len = pick < 50 ? 1 + any(300) : pick < 85 ? 1 + any(6000) : pick < 98 ? 1 + any(40000) : 1 + any(200000);
    if (live[host] >= settings.calls || call_count == CALLS || (len + 4095) / 4096 > settings.pages) return;
    call *it = &calls[call_count];
    *it = (call){ .service = (uint8_t)any(256), .seed = (uint32_t)any(1u << 30), .len = len };
    fill(text, len, it->seed);
    may_refuse = wants_memory;
    uint32_t result = homa_call(&hosts[host], 0, it->service, text, len, now, &it->id);
    may_refuse = false;
    if (result == HOMA_NO_MEMORY) return;
    CHECK(result == HOMA_OK);
    take_over(it);
    call_count++;
    live[host]++;
    read_step(host);
}

/* The oldest call had to make room: the one whose datagram came first, and of several at one tick the one that was told first. */
static void make_room(void) {
    call *oldest = NULL;
    for (size_t i = 0; i < call_count; i++) {
        call *it = &calls[i];
        if (it->is_kept && (!oldest || it->at < oldest->at || (it->at == oldest->at && it->told < oldest->told))) oldest = it;
    }
    CHECK(oldest && now > oldest->at + keep);
    if (oldest) leaves(oldest);
    thrown_out++;
}

/* Whether each call that is kept asked so lately that its datagram may be delivered. */
static bool all_fresh(void) {
    for (size_t i = 0; i < call_count; i++)
        if (calls[i].is_kept && now > calls[i].at + keep) return false;
    return true;
}

static uint32_t number_at(const uint8_t *at) { return (uint32_t)at[0] << 24 | (uint32_t)at[1] << 16 | (uint32_t)at[2] << 8 | at[3]; }

/* The call whose request a datagram has a piece of, as docs/understand/protocol.md lays it out. */
static homa_call_id id_in(uint16_t from, const uint8_t *bytes, size_t len) {
    return len < 16 ? (homa_call_id){ 0 } : (homa_call_id){ from, number_at(bytes + 8), number_at(bytes + 12) };
}

/* A datagram that is under way, or none: this one is lost or too old. */
static bool some_datagram(uint16_t *from, uint16_t *to, uint8_t *bytes, size_t *len) {
    if (!net_len) return false;
    size_t i = any(net_len);
    uint64_t age = now - net[i].at, most = settings.wire == 1 ? settings.life - keep : settings.life;
    *from = net[i].from;
    *to = net[i].to;
    memcpy(bytes, net[i].bytes, *len = net[i].len);
    if (age > most || any(10)) net[i] = net[--net_len];
    if ((age > most && settings.wire == 1) || any(40) == 0) return false;
    if (!hostile || any(4) > 0) return true;
    for (uint64_t n = 1 + any(3); n; n--) bytes[any(any(2) && *len > 48 ? 48 : *len)] = (uint8_t)(any(2) ? any(4) : any(256));
    if (any(8) == 0) *len = any(*len + 1);
    return true;
}

/* A call is told. One that nobody made is known from now on. */
static void see_told(const homa_asked *asked) {
    size_t len;
    call *it = call_of(asked->id);
    CHECK(hostile || it);
    if (!it) {
        it = &calls[call_count++];
        *it = (call){ .id = asked->id, .is_forged = true, .is_ended = true };
    }
    CHECK(!it->is_kept);
    if (!hostile) {
        CHECK(it->service == asked->service && !(it->has_ran && it->ran_in == incarnations[0]));
        CHECK(homa_whole(&hosts[0], room, MOST, &len) == HOMA_OK && len == it->len && is_of(room, len, it->seed));
    }
    if (kept_count == table_room) make_room();
    it->is_kept = true;
    it->is_answered = false;
    it->at = now;
    it->told = told++;
    kept_count++;
}

/* A datagram came to the server that asks for a call. */
static void see_asked(uint32_t result, homa_call_id id, const homa_asked *asked) {
    call *it = call_of(id);
    CHECK(homa_frames(&hosts[0]) == 0 && homa_entries(&hosts[0]) == 0 && homa_whole_len(&hosts[0]) > 0);
    CHECK(result == HOMA_ASKS || result == HOMA_AT_WORK || result == HOMA_FULL || (result == HOMA_NO_MEMORY && wants_memory));
    full += result == HOMA_FULL;
    again += result == HOMA_AT_WORK;
    if (result == HOMA_ASKS) {
        CHECK(is_same(asked->id, id));
        see_told(asked);
    } else if (result == HOMA_AT_WORK) {
        CHECK(it && it->is_kept && !it->is_answered);
        if (it) it->at = now;
    } else if (result == HOMA_FULL) CHECK((!it || !it->is_kept) && kept_count == table_room && all_fresh());
}

/* A datagram comes to the server, seldom with an answer in hand for the call that it may ask for. */
static void serve(uint16_t from, const uint8_t *bytes, size_t len) {
    homa_asked asked, was;
    homa_call_id id = id_in(from, bytes, len);
    call *it = any(50) ? NULL : call_of(id);
    size_t answer_len = it ? 1 + any(2000) : 0;
    uint32_t seed = (uint32_t)any(1u << 30);
    fill(text, answer_len, seed);
    memset(&was, 0xa5, sizeof was);
    asked = was;
    in_hand = it;
    may_refuse = wants_memory;
    uint32_t result = homa_deliver(&hosts[0], from, bytes, len, now, text, answer_len, &asked);
    may_refuse = false;
    CHECK(result == HOMA_ASKS || memcmp(&asked, &was, sizeof was) == 0);
    if (it) {
        CHECK(result == HOMA_OK || (result == HOMA_NO_MEMORY && wants_memory) || (result == HOMA_TOO_MANY_PAGES && answer_len > 4096u * settings.pages));
        unsigned long before = at_once;
        if (result == HOMA_OK) read_step(0);
        if (at_once > before) {
            it->answer_seed = seed;
            it->answer_len = answer_len;
            it->given++;
        }
    } else if (result == HOMA_OK) read_step(0);
    else see_asked(result, id, &asked);
    in_hand = NULL;
}

static void try_deliver(void) {
    static uint8_t bytes[FRAME];
    uint16_t from, to;
    size_t len;
    homa_asked asked;
    if (!some_datagram(&from, &to, bytes, &len)) return;
    if (to == 0) {
        serve(from, bytes, len);
        return;
    }
    uint32_t result = homa_deliver(&hosts[to], from, bytes, len, now, HOMA_NONE, 0, &asked);
    CHECK(result == HOMA_OK || (result == HOMA_ASKS && hostile));
    if (result == HOMA_OK) read_step(to);
}

static size_t some_length(void) { return any(30) ? 1 + any(3000) : any(3) ? 1 + any(100000) : any(2) * (MOST + 1); }

static bool is_bad(size_t len, uint32_t *result) {
    *result = len == 0 ? HOMA_NO_BYTES : len > MOST ? HOMA_TOO_LONG : HOMA_TOO_MANY_PAGES;
    return len == 0 || len > MOST || (len + 4095) / 4096 > settings.pages;
}

static void see_answered(call *it, const call *was, uint32_t result, size_t frames, size_t entries) {
    if (result == HOMA_NO_MEMORY) {
        CHECK(wants_memory);
        no_memory++;
        *it = *was;
    } else if (result == HOMA_LATER) {
        later++;
        CHECK(now > was->at + keep && homa_frames(&hosts[0]) == frames && homa_entries(&hosts[0]) == entries);
    } else {
        unsigned long before = ran;
        CHECK(result == HOMA_OK && now <= was->at + keep);
        read_step(0);
        kept_back += ran == before;
    }
}

static void try_answer(void) {
    if (!call_count) return;
    call *it = &calls[any(call_count)];
    for (int i = 0; i < 40 && !it->is_kept; i++) it = &calls[call_count - 1 - any(call_count < 200 ? call_count : 200)];
    if (!it->is_kept && any(20)) return;
    size_t len = some_length(), frames = homa_frames(&hosts[0]), entries = homa_entries(&hosts[0]);
    uint32_t seed = (uint32_t)any(1u << 30), wanted;
    bool is_due = it->is_kept && !it->is_answered, bad = is_bad(len, &wanted);
    call was = *it;
    fill(text, len, seed);
    if (is_due) {
        it->answer_seed = seed;
        it->answer_len = len;
        it->is_answered = true;
        it->given++;
    }
    may_refuse = wants_memory;
    uint32_t result = homa_answer(&hosts[0], &it->id, text, len, now);
    may_refuse = false;
    answers++;
    gone += result == HOMA_GONE;
    if (!is_due) CHECK(result == HOMA_GONE);
    else if (bad) CHECK(result == wanted);
    else see_answered(it, &was, result, frames, entries);
    if (is_due && bad) *it = was;
}

static void try_decline(void) {
    if (!call_count) return;
    call *it = &calls[any(call_count)];
    uint32_t result = homa_decline(&hosts[0], &it->id);
    CHECK(result == (it->is_kept ? HOMA_OK : HOMA_GONE));
    if (it->is_kept) leaves(it);
}

static void step(void) {
    uint64_t pick = any(1000);
    uint16_t host = (uint16_t)any(HOSTS);
    if (any(30000) == 0 || call_count == CALLS) new_net();
    else if (pick < 60) try_call();
    else if (pick < 660) try_deliver();
    else if (pick < 740) try_answer();
    else if (pick < 742) {
        close_host(host);
        open_host(host);
    } else if (pick < 745) try_decline();
    else if (pick < 900) {
        CHECK(homa_turn(&hosts[host], now) == HOMA_OK);
        read_step(host);
    } else now += any(30) ? any(2) : any(40);
    CHECK(homa_count(&hosts[0], HOMA_COUNT_KEPT) == kept_count && kept_count <= table_room);
}

int main(int argc, char **argv) {
    unsigned long count = argc > 1 ? strtoul(argv[1], NULL, 10) : 100000;
    const char *mode = argc > 3 ? argv[3] : "";
    state = 0x9e3779b97f4a7c15u * (argc > 2 ? strtoul(argv[2], NULL, 10) + 1 : 1);
    hostile = strchr(mode, 'h') != NULL;
    wants_memory = strchr(mode, 'm') != NULL;
    is_small = strchr(mode, 's') != NULL;
    room = malloc(MOST + 100), text = malloc(MOST + 100);
    if (!room || !text) return 1;
    for (new_net(); steps < count; steps++) step();
    for (uint16_t k = 0; k < HOSTS; k++) close_host(k);
    free(room), free(text);
    printf("told %lu, again %lu, no room %lu, answers %lu, gone %lu, no memory %lu, not taken %lu, too old %lu, ", told, again, full, answers, gone,
           no_memory, kept_back, later);
    printf("ran %lu, at once %lu, done %lu, thrown out %lu, refused allocations %lu\n", ran, at_once, done, thrown_out, refusals);
    printf("late_drive: %lu steps, %lu failed\n", steps, failed);
    return failed > 0;
}
