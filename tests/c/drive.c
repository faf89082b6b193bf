/* Random steps of five hosts by all calls of homa.h, beside a model of what the header says: the result of each call, what it writes, what
 * stays and what is shown. A call that comes to its server was made, and its response is what was given. It runs at most once in an
 * incarnation of its server. A turn before the tick of homa_next_turn does nothing. Prints what failed, and 'drive: N steps, M failed'.
 *
 * usage: drive STEPS SEED [MODE]     MODE has the letters h (a third of the datagrams is forged) and m (a third of some allocations is
 * refused; linked with -Wl,--wrap=malloc,--wrap=realloc) */
#include "homa.h"
#include <errno.h>
#include <stdio.h>
#include <stdlib.h>
#include <string.h>

enum { HOSTS = 5, NET = 4000, FRAME = 1500, CALLS = 1 << 14, MOST = 1000000, GUARD = 8 };
static const uint64_t LAST_TICK = 1000000002000;

static uint64_t state;
static unsigned long steps, failed, refusals;
static bool hostile, wants_memory, may_refuse;

static uint64_t any(uint64_t below) {
    state ^= state << 13;
    state ^= state >> 7;
    state ^= state << 17;
    return state % below;
}

void *__real_malloc(size_t n);
void *__real_realloc(void *at, size_t n);
static bool refuses(void) {
    if (!may_refuse || any(3) > 0) return false;
    refusals++;
    errno = ENOMEM;
    return true;
}
void *__wrap_malloc(size_t n) { return refuses() ? NULL : __real_malloc(n); }
void *__wrap_realloc(void *at, size_t n) { return refuses() ? NULL : __real_realloc(at, n); }

static void checked(bool holds, int line, const char *what) {
    if (!holds && failed++ < 30) printf("failed at line %d, step %lu: %s\n", line, steps, what);
}
#define CHECK(it) checked((it), __LINE__, #it)

typedef struct {
    homa_host host;
    bool is_open;
    uint16_t id;
    uint32_t incarnation, live;
    uint64_t last, shown; /* the tick of the last step, and a sum of what is shown of it */
    homa_counts counts;
} node;

/* A call that was made: what its request was, whether it ended, and what was answered in which life of the server. */
typedef struct {
    homa_call_id id;
    uint16_t server;
    uint8_t service;
    size_t len;
    uint32_t seed, answer_seed, ran_in;
    size_t answer_len;
    unsigned runs;
    bool is_ended;
} call;

static struct {
    uint16_t from, to;
    size_t len;
    uint64_t at;
    uint8_t bytes[FRAME];
} net[NET];
static size_t net_len, call_count;
static node nodes[HOSTS];
static call calls[CALLS];
static homa_settings settings;
static uint32_t incarnations[HOSTS];
static uint64_t now;
static uint8_t *text, *room, *wanted;
static unsigned long done, ended, ran, asked_for, idle, no_memory, refused;

static void fill(uint8_t *at, size_t len, uint32_t seed) {
    uint64_t it = seed * 0x9e3779b97f4a7c15u + 7;
    for (size_t i = 0; i < len; i++) {
        it = it * 6364136223846793005u + 1442695040888963407u;
        at[i] = (uint8_t)(it >> 56);
    }
}

static bool is_of(const uint8_t *at, size_t len, uint32_t seed) {
    fill(wanted, len, seed);
    return memcmp(at, wanted, len) == 0;
}

static bool is_unwritten(const void *at, size_t len) {
    for (size_t i = 0; i < len; i++)
        if (((const uint8_t *)at)[i] != 0xa5) return false;
    return true;
}
static void unwritten(void *at, size_t len) { memset(at, 0xa5, len); }

static uint64_t summed(uint64_t sum, const void *at, size_t len) {
    for (size_t i = 0; i < len; i++) sum = (sum ^ ((const uint8_t *)at)[i]) * 1099511628211u;
    return sum;
}

static call *call_of(homa_call_id id) {
    for (size_t i = call_count; i-- > 0;)
        if (calls[i].id.client == id.client && calls[i].id.incarnation == id.incarnation && calls[i].id.number == id.number) return &calls[i];
    return NULL;
}

/* Whether an entry names the host that it should: `from` sent the datagram of the step, or there was none. */
static bool has_its_peer(const node *n, const homa_entry_info *entry, const homa_more_info *more, uint16_t from) {
    switch (entry->kind) {
    case HOMA_RAN: case HOMA_NO_ROW: case HOMA_DROPPED: case HOMA_BURIED: case HOMA_FREED: return more->peer == entry->id.client && more->peer != n->id;
    case HOMA_DONE: case HOMA_FORGOTTEN: return more->peer == from && entry->id.client == n->id;
    case HOMA_JUNK: case HOMA_STALE: return more->peer == from && entry->id.incarnation == 0;
    case HOMA_NO_PAGES: case HOMA_GAPS: return more->peer == from;
    case HOMA_TIMEOUT: return more->peer == HOMA_NO_PEER && from == HOMA_NO_PEER;
    case HOMA_CALLED: case HOMA_SENT: return more->peer < settings.hosts && more->peer != n->id;
    default: return entry->kind == HOMA_BALANCED && more->peer == HOMA_NO_PEER;
    }
}

static bool has_its_number(const homa_entry_info *entry, const homa_more_info *more) {
    switch (entry->kind) {
    case HOMA_STALE: return more->at <= LAST_TICK;
    case HOMA_NO_ROW: return more->at == settings.served && entry->len == settings.served;
    case HOMA_NO_PAGES: return entry->len > more->at && more->at <= settings.pages && entry->len <= 245;
    case HOMA_BURIED: return more->at >= now;
    case HOMA_SENT: return more->at >= 1 && more->at <= 8 && entry->len <= settings.seg && (more->at == 1) == (entry->len > 0);
    default: return more->at == 0;
    }
}

/* A sum of all that is shown of a host's last step. */
static uint64_t shown(node *n) {
    size_t counts[] = { homa_frames(&n->host), homa_entries(&n->host), homa_whole_len(&n->host) }, len;
    uint64_t sum = summed(1469598103934665603u, counts, sizeof counts);
    homa_frame_info frame;
    homa_entry_info entry;
    CHECK(counts[0] <= 64 && counts[1] <= 128 && counts[2] <= MOST);
    for (size_t i = 0; i < counts[0]; i++) {
        unwritten(room, FRAME + GUARD);
        CHECK(homa_frame(&n->host, i, room, FRAME, &frame) == HOMA_OK && frame.from == n->id && frame.to < settings.hosts && frame.to != n->id);
        CHECK(frame.len > 0 && frame.len <= FRAME && is_unwritten(room + frame.len, FRAME + GUARD - frame.len));
        CHECK(homa_frame_level(&n->host, i) == room[3] && room[3] <= 7);
        sum = summed(summed(sum, room, frame.len), &frame.to, sizeof frame.to);
    }
    for (size_t i = 0; i < counts[1]; i++) {
        CHECK(homa_entry(&n->host, i, &entry) == HOMA_OK && entry.kind >= HOMA_RAN && entry.kind <= HOMA_BALANCED);
        sum = summed(summed(sum, &entry.kind, 4), &entry.id.number, 4);
    }
    if (counts[2] > 0 && counts[2] < 3000) {
        CHECK(homa_whole(&n->host, room, counts[2], &len) == HOMA_OK && len == counts[2]);
        sum = summed(sum, room, len);
    }
    return sum;
}

/* ---- reading a step, as a program does */

/* Each entry and each frame counts, by its kind. */
static void count_entry(node *n, const homa_entry_info *entry) {
    uint64_t *counts[] = { NULL, &n->counts.ran, &n->counts.done, &n->counts.timeouts, &n->counts.forgotten, &n->counts.junk, &n->counts.stale,
                           &n->counts.no_row, &n->counts.no_pages, &n->counts.gaps, &n->counts.dropped, &n->counts.buried, &n->counts.freed,
                           &n->counts.calls };
    if (entry->kind < sizeof counts / sizeof *counts && counts[entry->kind]) ++*counts[entry->kind];
}

static void knows_itself(node *n) {
    homa_counts counts;
    homa_counts_of(&n->host, &counts);
    n->counts.live = n->live;
    n->counts.rows = counts.rows; /* those of calls that ran and aren't forgotten, and of requests that aren't whole */
    CHECK(counts.rows <= settings.served && counts.rows >= counts.ran - counts.freed);
    CHECK(memcmp(&counts, &n->counts, sizeof counts) == 0 && homa_count(&n->host, HOMA_COUNTS + (uint32_t)any(1000)) == 0);
    CHECK(homa_live(&n->host) == n->live && homa_last(&n->host) == n->last);
}

static void keep_frames(node *n) {
    homa_frame_info info;
    for (size_t i = 0, count = homa_frames(&n->host); i < count; i++) {
        size_t at = net_len < NET ? net_len++ : any(NET);
        CHECK(homa_frame(&n->host, i, net[at].bytes, FRAME, &info) == HOMA_OK);
        n->counts.sent++;
        n->counts.sent_bytes += info.len;
        n->counts.resends_sent += net[at].bytes[1] == 3;
        net[at].from = info.from;
        net[at].to = info.to;
        net[at].len = info.len;
        net[at].at = now;
    }
}

static void has_ran(node *n, const homa_entry_info *entry, uint32_t seed, size_t len) {
    size_t got;
    call *it = call_of(entry->id);
    ran++;
    CHECK(len > 0 && entry->service < 256 && entry->len == homa_whole_len(&n->host));
    if (hostile) return;
    CHECK(it && it->server == n->id && it->service == entry->service && it->len == entry->len);
    if (!it) return;
    CHECK(it->runs == 0 || it->ran_in != n->incarnation);
    CHECK(homa_whole(&n->host, room, MOST, &got) == HOMA_OK && got == it->len && is_of(room, got, it->seed));
    it->runs++;
    it->ran_in = n->incarnation;
    it->answer_seed = seed;
    it->answer_len = len;
}

static void has_ended(node *n, const homa_entry_info *entry) {
    size_t got;
    call *it = call_of(entry->id);
    n->live--;
    done += entry->kind == HOMA_DONE;
    ended++;
    CHECK(it && !it->is_ended && it->id.client == n->id && it->id.incarnation == n->incarnation);
    if (!it) return;
    it->is_ended = true;
    if (hostile || entry->kind == HOMA_TIMEOUT) return;
    CHECK(it->runs > 0);
    if (entry->kind == HOMA_FORGOTTEN || it->runs > 1) return; /* an answer of an earlier life of the server may come too */
    CHECK(homa_whole(&n->host, room, MOST, &got) == HOMA_OK && got == entry->len && got == it->answer_len && is_of(room, got, it->answer_seed));
}

/* A step was done, by a datagram from this host or by none, with an answer of so many bytes in hand. */
static void read_step(node *n, uint64_t tick, uint16_t from, uint32_t seed, size_t len) {
    homa_entry_info entry;
    homa_more_info more;
    size_t wholes = 0;
    n->counts.received += from != HOMA_NO_PEER;
    n->last = tick;
    keep_frames(n);
    for (size_t i = 0, count = homa_entries(&n->host); i < count; i++) {
        CHECK(homa_entry(&n->host, i, &entry) == HOMA_OK && homa_entry_more(&n->host, i, &more) == HOMA_OK);
        CHECK(has_its_peer(n, &entry, &more, from) && has_its_number(&entry, &more));
        count_entry(n, &entry);
        wholes += entry.kind == HOMA_RAN || entry.kind == HOMA_DONE;
        if (entry.kind == HOMA_RAN) has_ran(n, &entry, seed, len);
        if (entry.kind == HOMA_DONE || entry.kind == HOMA_TIMEOUT || entry.kind == HOMA_FORGOTTEN) has_ended(n, &entry);
    }
    CHECK(wholes == (homa_whole_len(&n->host) > 0));
    n->shown = shown(n);
    knows_itself(n);
}

/* No step was done: what was shown stays. (Behind a call that finds the numbers spent it may be gone; that takes 2^32 calls.) */
static void stays(node *n) {
    refused++;
    if (!n->is_open) return;
    CHECK(shown(n) == n->shown);
    knows_itself(n);
}

/* ---- what may be done */

static bool is_valid(const homa_settings *it) {
    static const uint32_t least[] = { 2, 1, 1, 1, 1, 1, 1, 1, 1, 1, 1, 1, 0, 0, 1 };
    static const uint32_t most[] = { 32, 1400, 1000000, 1000000, 7, 1000000, 1000, 100, 100000, 4096, 1024, 4096, 1024, 1000, 2 };
    uint32_t values[15];
    memcpy(values, it, sizeof values);
    for (uint32_t i = 0; i < 15; i++)
        if (values[i] < least[i] || values[i] > most[i]) return false;
    return it->unsched <= it->window && it->seg <= it->rate;
}

static bool is_other(const node *n, uint16_t host) { return host < settings.hosts && host != n->id; }

/* What each call answers, by homa.h: the first cause in its order, or HOMA_OK. */
static uint32_t turn_code(const node *n, uint64_t tick) {
    return !n->is_open ? HOMA_NOT_OPEN : tick > LAST_TICK ? HOMA_SPENT : tick < n->last ? HOMA_BAD_TICK : HOMA_OK;
}

static uint32_t length_code(size_t len) {
    return len > MOST ? HOMA_TOO_LONG : (len + 4095) / 4096 > settings.pages ? HOMA_TOO_MANY_PAGES : HOMA_OK;
}

static uint32_t call_code(const node *n, uint16_t server, size_t len, uint64_t tick) {
    if (!n->is_open) return HOMA_NOT_OPEN;
    if (!is_other(n, server)) return HOMA_BAD_HOST;
    if (turn_code(n, tick)) return turn_code(n, tick);
    if (!len) return HOMA_NO_BYTES;
    return length_code(len) ? length_code(len) : n->live >= settings.calls ? HOMA_FULL : HOMA_OK;
}

static uint32_t deliver_code(const node *n, uint16_t from, size_t len, size_t answer, uint64_t tick) {
    if (!n->is_open) return HOMA_NOT_OPEN;
    if (len > 65535) return HOMA_TOO_LONG;
    if (!is_other(n, from)) return HOMA_BAD_HOST;
    return turn_code(n, tick) ? turn_code(n, tick) : length_code(answer);
}

static uint32_t open_code(const node *n, const homa_settings *it, uint16_t id, uint32_t incarnation, uint64_t last) {
    if (n->is_open) return HOMA_IS_OPEN;
    if (!is_valid(it)) return HOMA_BAD_SETTING;
    if (id >= it->hosts) return HOMA_BAD_HOST;
    return !incarnation ? HOMA_BAD_INCARNATION : last > LAST_TICK ? HOMA_BAD_TICK : HOMA_OK;
}

/* ---- the steps */

static uint64_t some_tick(const node *n) {
    switch (any(200)) {
    case 0: return n->last ? n->last - 1 - any(n->last < 5 ? n->last : 5) : 0;
    case 1: return LAST_TICK + 1 + any(5);
    case 2: return UINT64_MAX - any(3);
    default: return now;
    }
}

static void try_open(uint16_t k) {
    node *n = &nodes[k];
    homa_settings it = settings;
    uint16_t id = k;
    uint32_t incarnation = incarnations[k];
    uint64_t last = now <= LAST_TICK ? now : LAST_TICK;
    bool is_odd = any(3) == 0;
    if (is_odd) {
        uint64_t which = any(4);
        if (which == 0) ((uint32_t *)&it)[any(15)] = (uint32_t)(any(2) ? any(3) : any(1ull << 32));
        if (which == 1) id = (uint16_t)any(65536);
        if (which == 2) incarnation = 0;
        if (which == 3) last = LAST_TICK + any(3);
    }
    uint32_t code = open_code(n, &it, id, incarnation, last);
    CHECK(is_valid(&it) == (homa_wrong_setting(&it) == 0));
    if (is_odd && code == HOMA_OK) return; /* it would be a host of another net */
    may_refuse = wants_memory;
    uint32_t result = homa_open(&it, id, incarnation, last, &n->host);
    may_refuse = false;
    if (result == HOMA_NO_MEMORY) {
        no_memory++;
        CHECK(code == HOMA_OK && !n->host.is_open);
        result = homa_open(&it, id, incarnation, last, &n->host);
    }
    CHECK(result == code);
    if (result != HOMA_OK) return stays(n);
    *n = (node){ .host = n->host, .is_open = true, .id = id, .incarnation = incarnation, .last = last };
    incarnations[k]++;
    CHECK(homa_frames(&n->host) == 0 && homa_entries(&n->host) == 0 && homa_whole_len(&n->host) == 0);
    n->shown = shown(n);
    knows_itself(n);
}

static void try_close(node *n) {
    uint32_t result = homa_close(&n->host);
    CHECK(result == (n->is_open ? HOMA_OK : HOMA_NOT_OPEN) && !n->host.is_open);
    n->is_open = false;
}

static size_t some_length(void) {
    uint64_t it = any(100);
    if (it < 60) return 1 + any(200);
    if (it < 85) return 1 + any(20000);
    if (it < 97) return 1 + any(100000);
    return it == 97 ? MOST - any(3) : it == 98 ? 0 : MOST + 1 + any(90);
}

static void try_call(node *n) {
    uint16_t server = (uint16_t)(any(20) ? any(HOSTS) : any(65536));
    uint64_t tick = some_tick(n);
    size_t len = some_length();
    uint8_t service = (uint8_t)any(256);
    uint32_t seed = (uint32_t)any(1u << 30);
    uint32_t code = call_code(n, server, len, tick);
    homa_call_id id;
    unwritten(&id, sizeof id);
    fill(text, len, seed);
    may_refuse = wants_memory;
    uint32_t result = homa_call(&n->host, server, service, text, len, tick, &id);
    may_refuse = false;
    if (result == HOMA_NO_MEMORY) {
        no_memory++;
        CHECK(code == HOMA_OK && is_unwritten(&id, sizeof id) && shown(n) == n->shown);
        result = homa_call(&n->host, server, service, text, len, tick, &id);
    }
    CHECK(result == code);
    if (result != HOMA_OK) {
        CHECK(is_unwritten(&id, sizeof id));
        return stays(n);
    }
    CHECK(id.client == n->id && id.incarnation == n->incarnation && !call_of(id));
    if (call_count == CALLS) call_count = 0;
    calls[call_count++] = (call){ .id = id, .server = server, .service = service, .len = len, .seed = seed };
    n->live++;
    read_step(n, tick, HOMA_NO_PEER, 0, 0);
}

/* The same datagram once more, with the answer, at once; without memory first, now and then. */
static void answer(node *n, uint16_t from, const uint8_t *datagram, size_t len, uint64_t tick) {
    size_t answer_len = any(50) ? 1 + any(3000) : 1 + any(MOST), most = settings.pages < 245 ? settings.pages * 4096 : MOST;
    if (answer_len > most) answer_len = most;
    uint32_t seed = (uint32_t)any(1u << 30);
    unsigned long ran_before = ran;
    homa_asked asked;
    unwritten(&asked, sizeof asked);
    fill(text, answer_len, seed);
    may_refuse = wants_memory;
    uint32_t result = homa_deliver(&n->host, from, datagram, len, tick, text, answer_len, &asked);
    may_refuse = false;
    if (result == HOMA_NO_MEMORY) {
        no_memory++;
        CHECK(homa_frames(&n->host) == 0 && homa_entries(&n->host) == 0);
        result = homa_deliver(&n->host, from, datagram, len, tick, text, answer_len, &asked);
    }
    CHECK(result == HOMA_OK && is_unwritten(&asked, sizeof asked));
    if (result == HOMA_OK) read_step(n, tick, from, seed, answer_len);
    CHECK(ran == ran_before + 1);
}

/* A call asks: nothing happened, and the request is the one that was made. */
static void asks(node *n, const homa_asked *asked) {
    size_t len;
    asked_for++;
    n->counts.asked++;
    CHECK(homa_frames(&n->host) == 0 && homa_entries(&n->host) == 0 && homa_whole_len(&n->host) > 0 && asked->service < 256);
    n->shown = shown(n);
    knows_itself(n);
    if (hostile) return;
    call *it = call_of(asked->id);
    CHECK(it && it->service == asked->service && it->server == n->id && (it->runs == 0 || it->ran_in != n->incarnation));
    if (it) CHECK(homa_whole(&n->host, room, MOST, &len) == HOMA_OK && len == it->len && is_of(room, len, it->seed));
}

/* Some datagram: one that is under way, which an honest net delivers within `life`; or, of a hostile one, bytes that nobody sent. */
static bool some_datagram(uint16_t k, uint16_t *from, uint8_t *to, size_t *len) {
    size_t i = net_len ? any(net_len) : 0;
    bool is_forged = hostile && any(3) == 0;
    for (int tries = 0; tries < 20 && net_len && net[i].to != k; tries++) i = any(net_len);
    if (!net_len || (net[i].to != k && !is_forged)) return false;
    bool is_old = now - net[i].at >= settings.life;
    memcpy(to, net[i].bytes, *len = net[i].len);
    *from = net[i].from;
    if (is_old || any(8)) net[i] = net[--net_len];
    if (is_old && !hostile) return false;
    if (!is_forged) return true;
    for (uint64_t n = any(4); n; n--) to[any(any(2) && *len > 48 ? 48 : *len)] = (uint8_t)(any(2) ? any(4) : any(256));
    if (any(8) == 0) *len = any(*len + 1);
    if (any(30) == 0) *len = 65530 + any(100);
    if (any(10) == 0) *from = (uint16_t)(any(2) ? any(HOSTS) : any(65536));
    return true;
}

static void try_deliver(uint16_t k) {
    static uint8_t datagram[70000];
    node *n = &nodes[k];
    uint64_t tick = some_tick(n);
    uint16_t from;
    size_t len, answer_len = any(10) ? 0 : any(40) ? 1 + any(5000) : MOST + 1;
    uint32_t seed = (uint32_t)any(1u << 30);
    homa_asked asked;
    unwritten(&asked, sizeof asked);
    if (!some_datagram(k, &from, datagram, &len)) return;
    fill(text, answer_len, seed);
    uint32_t code = deliver_code(n, from, len, answer_len, tick);
    uint32_t result = homa_deliver(&n->host, from, datagram, len, tick, text, answer_len, &asked);
    CHECK(result == code || (code == HOMA_OK && result == HOMA_ASKS && answer_len == 0));
    if (result == HOMA_OK) return read_step(n, tick, from, seed, answer_len);
    if (result != HOMA_ASKS) {
        CHECK(is_unwritten(&asked, sizeof asked));
        return stays(n);
    }
    asks(n, &asked);
    if (any(10)) return answer(n, from, datagram, len, tick);
    homa_asked again;
    CHECK(homa_deliver(&n->host, from, datagram, len, tick, HOMA_NONE, 0, &again) == HOMA_ASKS && again.id.number == asked.id.number);
    n->counts.asked++;
}

static void try_turn(node *n) {
    uint64_t tick = some_tick(n), at, before = n->last;
    unwritten(&at, sizeof at);
    uint32_t next = homa_next_turn(&n->host, &at);
    CHECK(n->is_open ? next == HOMA_OK || next == HOMA_NEVER : next == HOMA_NOT_OPEN);
    CHECK(next == HOMA_OK ? at <= LAST_TICK : is_unwritten(&at, sizeof at));
    uint32_t result = homa_turn(&n->host, tick);
    CHECK(result == turn_code(n, tick));
    if (result != HOMA_OK) return stays(n);
    if (tick > before && (next != HOMA_OK || tick < at)) {
        idle++;
        CHECK(homa_frames(&n->host) == 0 && homa_entries(&n->host) == 0);
    }
    read_step(n, tick, HOMA_NO_PEER, 0, 0);
}

/* Frames, entries and rooms that aren't there, and a room of exactly the length. */
static void look(node *n) {
    size_t frames = homa_frames(&n->host), entries = homa_entries(&n->host), whole = homa_whole_len(&n->host), len;
    homa_frame_info frame;
    homa_entry_info entry;
    homa_more_info more;
    unwritten(&more, sizeof more);
    unwritten(&frame, sizeof frame), unwritten(&entry, sizeof entry), unwritten(&len, sizeof len), unwritten(room, FRAME);
    CHECK(n->is_open || (frames == 0 && entries == 0 && whole == 0));
    size_t beyond = any(2) ? any(4) : SIZE_MAX - 200 + any(72);
    uint32_t not_there = n->is_open ? HOMA_NOT_THERE : HOMA_NOT_OPEN;
    CHECK(homa_frame(&n->host, frames + beyond, room, FRAME, &frame) == not_there && is_unwritten(room, FRAME));
    CHECK(homa_frame_level(&n->host, frames + beyond) == 0);
    CHECK(homa_entry(&n->host, entries + beyond, &entry) == not_there && is_unwritten(&entry, sizeof entry));
    CHECK(homa_entry_more(&n->host, entries + beyond, &more) == not_there && is_unwritten(&more, sizeof more));
    if (frames) {
        size_t i = any(frames);
        CHECK(homa_frame(&n->host, i, room, any(16), &frame) == HOMA_NO_ROOM && is_unwritten(room, FRAME) && is_unwritten(&frame, sizeof frame));
    }
    if (!n->is_open) CHECK(homa_whole(&n->host, room, FRAME, &len) == HOMA_NOT_OPEN && is_unwritten(&len, sizeof len));
    if (whole) CHECK(homa_whole(&n->host, room, any(whole), &len) == HOMA_NO_ROOM && is_unwritten(&len, sizeof len) && is_unwritten(room, FRAME));
    if (n->is_open) CHECK(homa_whole(&n->host, room, whole, &len) == HOMA_OK && len == whole && shown(n) == n->shown);
}

/* Another net: other settings, another time, all hosts closed. */
static void new_net(void) {
    for (size_t k = 0; k < HOSTS; k++) {
        try_close(&nodes[k]);
        incarnations[k] = 1;
    }
    net_len = call_count = 0;
    homa_usual(&settings);
    settings.hosts = (uint32_t)(HOSTS + any(28));
    settings.seg = (uint32_t)(any(3) ? 1400 : 1 + any(1400));
    settings.window = (uint32_t)(1 + any(any(2) ? 20000 : MOST));
    settings.unsched = (uint32_t)(1 + any(settings.window));
    settings.overcommit = (uint32_t)(1 + any(7));
    settings.rate = (uint32_t)(settings.seg + any(MOST - settings.seg + 1));
    settings.resend = (uint32_t)(1 + any(20));
    settings.tries = (uint32_t)(1 + any(10));
    settings.life = (uint32_t)(1 + any(200));
    settings.pages = (uint32_t)(1 + any(any(2) ? 40 : 4096));
    settings.calls = (uint32_t)(1 + any(any(2) ? 8 : 1024));
    settings.served = (uint32_t)(1 + any(any(2) ? 8 : 4096));
    settings.rebalance = (uint32_t)(any(3) ? 0 : any(1025));
    settings.skew = (uint32_t)any(4);
    settings.wire = (uint32_t)(1 + any(2));
    now = any(10) ? any(MOST) : LAST_TICK - any(3000);
}

/* A handle may be moved, where the old place isn't used any more. */
static void move(node *n) {
    homa_host *at = malloc(sizeof *at);
    if (!at) return;
    memcpy(at, &n->host, sizeof *at);
    memset(&n->host, 0x5a, sizeof n->host);
    memcpy(&n->host, at, sizeof *at);
    free(at);
}

static void step(void) {
    uint16_t k = (uint16_t)any(HOSTS);
    uint64_t what = any(1000);
    if (any(20000) == 0) new_net();
    if ((!nodes[k].is_open && any(4)) || what < 2) try_open(k);
    else if (what < 4) try_close(&nodes[k]);
    else if (what < 60) try_call(&nodes[k]);
    else if (what < 800) try_deliver(k);
    else if (what < 900) try_turn(&nodes[k]);
    else if (what < 940) look(&nodes[k]);
    else if (what < 945) move(&nodes[k]);
    else now += any(40) ? any(2) : any(100);
}

int main(int argc, char **argv) {
    unsigned long count = argc > 1 ? strtoul(argv[1], NULL, 10) : 100000;
    const char *mode = argc > 3 ? argv[3] : "";
    state = 0x9e3779b97f4a7c15u * (argc > 2 ? strtoul(argv[2], NULL, 10) + 1 : 1);
    hostile = strchr(mode, 'h') != NULL;
    wants_memory = strchr(mode, 'm') != NULL;
    text = malloc(MOST + 100), room = malloc(MOST + 100), wanted = malloc(MOST + 100);
    if (!text || !room || !wanted) return 1;
    for (size_t k = 0; k < HOSTS; k++) nodes[k].host = (homa_host)HOMA_CLOSED;
    for (new_net(); steps < count; steps++) step();
    for (size_t k = 0; k < HOSTS; k++) try_close(&nodes[k]);
    free(text), free(room), free(wanted);
    printf("asked %lu, ran %lu, ended %lu, done %lu, idle turns %lu, ", asked_for, ran, ended, done, idle);
    printf("refused %lu, refused allocations %lu, NO_MEMORY %lu", refused, refusals, no_memory);
    printf("\ndrive: %lu steps, %lu failed\n", steps, failed);
    return failed > 0;
}
