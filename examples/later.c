/* A server that answers some ticks after it was asked. Its host keeps the datagram that asks (homa_open_late), so the program keeps the call's
 * id alone. Two hosts in one process, the usual settings but for `life`; ticks are counted by hand, and no datagram is lost. Prints a
 * line for each delay. */
#include "homa.h"
#include <stdio.h>
#include <stdlib.h>
#include <string.h>

enum { CLIENT = 0, SERVER = 1, MOST_FRAMES = 64, MOST_FRAME = 1500, LAST = 400, MOST_KEPT = 16 };

/* The one call: when its answer is ready, and whether it was told and answered. */
typedef struct {
    homa_host hosts[2];
    homa_call_id id;
    uint64_t now, delay, ready;
    bool is_told, is_answered;
    unsigned frames, told, again, done, failed;
} world;

static const uint8_t request[3000] = "request", answer[] = "answer";
static uint8_t whole[1000000];

static void need(bool holds, const char *what) {
    if (holds) return;
    fprintf(stderr, "later: %s\n", what);
    exit(1);
}

static void deliver(world *w, uint16_t to, const uint8_t *bytes, size_t len);

/* Hands the frames of a host's last step to the other, and all that this leads to. */
static void after_step(world *w, uint16_t of) {
    size_t count = homa_frames(&w->hosts[of]);
    struct { uint8_t bytes[MOST_FRAME]; size_t len; } *frames = calloc(MOST_FRAMES, sizeof *frames);
    homa_frame_info frame;
    homa_entry_info entry;
    need(frames != NULL, "memory");
    for (size_t i = 0; i < homa_entries(&w->hosts[of]); i++) {
        need(homa_entry(&w->hosts[of], i, &entry) == HOMA_OK, "an entry");
        w->done += entry.kind == HOMA_DONE;
        w->failed += entry.kind == HOMA_TIMEOUT || entry.kind == HOMA_FORGOTTEN;
    }
    for (size_t i = 0; i < count; i++) {
        need(homa_frame(&w->hosts[of], i, frames[i].bytes, MOST_FRAME, &frame) == HOMA_OK && frame.from == of, "a frame");
        frames[i].len = frame.len;
    }
    w->frames += (unsigned)count;
    for (size_t i = 0; i < count; i++) deliver(w, 1 - of, frames[i].bytes, frames[i].len);
    free(frames);
}

static void deliver(world *w, uint16_t to, const uint8_t *bytes, size_t len) {
    homa_asked asked;
    size_t whole_len;
    uint32_t result = homa_deliver(&w->hosts[to], 1 - to, bytes, len, w->now, HOMA_NONE, 0, &asked);
    w->again += result == HOMA_AT_WORK; /* the client repeats a call that is at work: there is nothing to do */
    if (result == HOMA_OK) after_step(w, to);
    if (result != HOMA_ASKS) return;
    need(to == SERVER && asked.service == 7, "who asks");
    need(homa_whole(&w->hosts[to], whole, sizeof whole, &whole_len) == HOMA_OK && memcmp(whole, request, whole_len) == 0, "the request");
    w->told++;
    w->is_told = true;
    w->id = asked.id;
    w->ready = w->now + w->delay;
}

/* The work is done: if the step doesn't take the answer, the library gives it to the next datagram that asks. */
static void answer_it(world *w) {
    w->is_answered = true;
    uint32_t result = homa_answer(&w->hosts[SERVER], &w->id, answer, sizeof answer, w->now);
    need(result == HOMA_OK || result == HOMA_LATER, homa_text_of(result));
    if (result == HOMA_OK) after_step(w, SERVER);
}

/* One call of so many bytes, whose answer is ready after so many ticks. */
static void one_call(size_t len, uint64_t delay) {
    static world w;
    homa_settings settings;
    homa_call_id id;
    uint64_t ended = LAST;
    homa_usual(&settings);
    settings.life = 1000;
    memset(&w, 0, sizeof w);
    w.delay = delay;
    need(homa_open(&settings, CLIENT, 1, 0, &w.hosts[CLIENT]) == HOMA_OK, "open");
    need(homa_open_late(&settings, SERVER, 1, 0, MOST_KEPT, 500, &w.hosts[SERVER]) == HOMA_OK, "open");
    need(homa_call(&w.hosts[CLIENT], SERVER, 7, request, len, 0, &id) == HOMA_OK, "a call");
    after_step(&w, CLIENT);
    for (; w.now < LAST; w.now++) {
        if (w.is_told && !w.is_answered && w.ready == w.now) answer_it(&w);
        for (uint16_t i = 0; i < 2; i++) {
            need(homa_turn(&w.hosts[i], w.now) == HOMA_OK, "a turn");
            after_step(&w, i);
        }
        if (ended == LAST && w.done + w.failed > 0) ended = w.now;
    }
    printf("%zu bytes, ready after %llu: %s at %llu, %u frames, told %u times, asked %u times\n", len, (unsigned long long)delay,
           w.done ? "done" : w.failed ? "failed" : "open", (unsigned long long)ended, w.frames, w.told, w.told + w.again);
    for (int i = 0; i < 2; i++) need(homa_close(&w.hosts[i]) == HOMA_OK, "close");
}

int main(void) {
    static const uint64_t delays[] = { 0, 3, 20, 24, 30, 200 };
    static const size_t lens[] = { 100, 3000 };
    for (size_t i = 0; i < 2; i++)
        for (size_t k = 0; k < sizeof delays / sizeof *delays; k++) one_call(lens[i], delays[k]);
    return 0;
}
