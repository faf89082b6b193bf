/* One call between two hosts, answered at once and later, with each allocation refused in turn: what wants memory answers HOMA_NO_MEMORY, the same again is done,
 * the call ends well, and all memory is given back. A call that can't start is refused before it asks for memory. Link with
 * -Wl,--wrap=malloc,--wrap=realloc,--wrap=free. Prints 'memory: N passed, M failed', one for each allocation. */
#include "homa.h"
#include <stdio.h>
#include <stdlib.h>
#include <string.h>

void *__real_malloc(size_t size);
void *__real_realloc(void *at, size_t size);
void __real_free(void *at);

static unsigned long asked_for, refused_at;
static long held;

static bool is_refused(void) { return ++asked_for == refused_at; }

void *__wrap_malloc(size_t size) {
    void *at = is_refused() ? NULL : __real_malloc(size);
    held += at != NULL;
    return at;
}

void *__wrap_realloc(void *at, size_t size) {
    if (is_refused()) return NULL;
    void *now = __real_realloc(at, size);
    held += at == NULL && now != NULL;
    return now;
}

void __wrap_free(void *at) {
    held -= at != NULL;
    __real_free(at);
}

static const uint8_t request[3000] = "request", answer[2000] = "answer";
static uint8_t whole[1000000];
static unsigned refused, done;
static bool is_late, is_told;
static homa_call_id job;

/* What one call of the library answers, tried again where there was no memory. */
#define AGAIN(call) ({ uint32_t r_ = (call); if (r_ == HOMA_NO_MEMORY) { refused++; r_ = (call); } r_; })

static bool hand_over(homa_host *hosts, uint16_t from, uint64_t now) {
    uint8_t frames[8][1500];
    homa_frame_info info[8];
    homa_asked asked;
    homa_entry_info entry;
    size_t count = homa_frames(&hosts[from]), len;
    uint16_t to = 1 - from;
    if (count > 8) return false;
    for (size_t i = 0; i < count; i++)
        if (homa_frame(&hosts[from], i, frames[i], 1500, &info[i]) != HOMA_OK) return false;
    for (size_t i = 0; i < count; i++) {
        uint32_t result = AGAIN(homa_deliver(&hosts[to], from, frames[i], info[i].len, now, answer, 0, &asked));
        if (result == HOMA_ASKS && is_late) {
            job = asked.id;
            is_told = true;
            continue;
        }
        if (result == HOMA_ASKS) result = AGAIN(homa_deliver(&hosts[to], from, frames[i], info[i].len, now, answer, sizeof answer, &asked));
        if (result == HOMA_AT_WORK) continue;
        if (result != HOMA_OK) return false;
        for (size_t k = 0; k < homa_entries(&hosts[to]); k++) {
            if (homa_entry(&hosts[to], k, &entry) != HOMA_OK) return false;
            if (entry.kind != HOMA_DONE) continue;
            if (homa_whole(&hosts[to], whole, sizeof whole, &len) != HOMA_OK || len != sizeof answer || memcmp(whole, answer, len) != 0) return false;
            done++;
        }
        if (!hand_over(hosts, to, now)) return false;
    }
    return true;
}

/* Calls that can't start: for want of another host, of bytes, and of room for one more live call. */
static bool is_refused_first(homa_host *host) {
    homa_call_id id;
    unsigned long before = asked_for;
    bool refuses = homa_call(host, 9, 7, request, sizeof request, 0, &id) == HOMA_BAD_HOST && homa_call(host, 1, 7, request, 0, 0, &id) == HOMA_NO_BYTES
        && homa_call(host, 1, 7, request, sizeof request, 0, &id) == HOMA_FULL;
    return refuses && asked_for == before;
}

/* The answer of a server that keeps what asks, five ticks after the call. */
static bool answers(homa_host *hosts, uint64_t now) {
    if (!is_told) return false;
    return AGAIN(homa_answer(&hosts[1], &job, answer, sizeof answer, now)) == HOMA_OK && hand_over(hosts, 1, now)
        && homa_answer(&hosts[1], &job, answer, sizeof answer, now) == HOMA_GONE;
}

/* The whole of it. */
static bool one_call(void) {
    homa_settings settings;
    homa_host hosts[2] = { HOMA_CLOSED, HOMA_CLOSED };
    homa_call_id id;
    homa_usual(&settings);
    settings.calls = 1;
    if (AGAIN(homa_open(&settings, 0, 1, 0, &hosts[0])) != HOMA_OK) return false;
    if (is_late && AGAIN(homa_open_late(&settings, 1, 1, 0, 4, settings.life, &hosts[1])) != HOMA_OK) return false;
    if (!is_late && AGAIN(homa_open(&settings, 1, 1, 0, &hosts[1])) != HOMA_OK) return false;
    if (AGAIN(homa_call(&hosts[0], 1, 7, request, sizeof request, 0, &id)) != HOMA_OK) return false;
    if (!is_refused_first(&hosts[0])) return false;
    if (!hand_over(hosts, 0, 0)) return false;
    for (uint64_t now = 0; now < 10; now++) {
        if (is_late && now == 5 && !answers(hosts, now)) return false;
        for (uint16_t i = 0; i < 2; i++)
            if (homa_turn(&hosts[i], now) != HOMA_OK || !hand_over(hosts, i, now)) return false;
    }
    for (uint16_t i = 0; i < 2; i++)
        if (homa_close(&hosts[i]) != HOMA_OK) return false;
    return done == 1;
}

/* With each allocation refused in turn; how many failed. */
static unsigned each_refused(unsigned *passed) {
    unsigned failed = 0;
    unsigned long all = 1;
    for (refused_at = 0; refused_at <= all; refused_at++) {
        long before = held;
        asked_for = 0;
        refused = done = 0;
        is_told = false;
        bool holds = one_call() && held == before && refused == (refused_at > 0);
        if (refused_at == 0) all = asked_for;
        if (holds) ++*passed;
        else {
            failed++;
            printf("failed: with allocation %lu of %lu refused: %u refused, %u done, %ld held\n", refused_at, all, refused, done, held - before);
        }
    }
    return failed + (all < 3);
}

int main(void) {
    unsigned passed = 0, failed = each_refused(&passed);
    is_late = true;
    failed += each_refused(&passed);
    printf("memory: %u passed, %u failed\n", passed, failed);
    return failed > 0;
}
