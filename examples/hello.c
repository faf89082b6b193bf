/* One call between two hosts in one process: what a program has to do, without a net. Prints what is asked and what comes back. */
#include "homa.h"
#include <stdio.h>
#include <string.h>

static homa_host hosts[2] = { HOMA_CLOSED, HOMA_CLOSED };
static uint8_t message[1000000];

/* Hands the frames of a host's last step to the other host, and so on. */
static void hand_over(uint16_t from) {
    uint8_t frames[64][1500];
    homa_frame_info info[64];
    homa_entry_info entry;
    homa_asked asked;
    size_t count = homa_frames(&hosts[from]), len;
    for (size_t i = 0; i < count; i++) homa_frame(&hosts[from], i, frames[i], sizeof frames[i], &info[i]);
    for (size_t i = 0; i < count; i++) {
        homa_host *to = &hosts[info[i].to];
        if (homa_deliver(to, from, frames[i], info[i].len, 0, message, 0, &asked) == HOMA_ASKS) {
            homa_whole(to, message, sizeof message, &len);
            printf("service %u is asked: %.*s\n", (unsigned)asked.service, (int)len, (char *)message);
            homa_deliver(to, from, frames[i], info[i].len, 0, (const uint8_t *)"good day", 8, &asked);
        }
        for (size_t k = 0; k < homa_entries(to); k++)
            if (homa_entry(to, k, &entry) == HOMA_OK && entry.kind == HOMA_DONE && homa_whole(to, message, sizeof message, &len) == HOMA_OK)
                printf("done: %.*s\n", (int)len, (char *)message);
        hand_over(info[i].to);
    }
}

int main(void) {
    homa_settings settings;
    homa_call_id id;
    homa_service(&settings);
    for (uint16_t i = 0; i < 2; i++)
        if (homa_open(&settings, i, 1, 0, &hosts[i]) != HOMA_OK) return 1;
    if (homa_call(&hosts[0], 1, 7, (const uint8_t *)"hello", 5, 0, &id) != HOMA_OK) return 1;
    hand_over(0);
    for (int i = 0; i < 2; i++) homa_close(&hosts[i]);
    return 0;
}
