#ifndef TICK_H
#define TICK_H
/* A clock for a host: ticks of `tick_us` microseconds since EPOCH, by the wall clock, that never fall.
 *
 * The other clocks of POSIX don't do as they are. CLOCK_MONOTONIC and CLOCK_BOOTTIME begin anew at a reboot, and differ from machine to
 * machine; with version 2 the clocks of a net agree. CLOCK_REALTIME may step back, and counted from 1970 it is past the last tick.
 * EPOCH and `tick_us` are the program's own. */
#include <stdint.h>
#include <time.h>

#define EPOCH 1767225600 /* 2026-01-01: one number for all hosts of a net, shortly before the net was set up */
#define LAST_TICK 1000000002000u /* with ticks of 100 us, 3.17 years after EPOCH */

static int64_t tick_us = 100; /* microseconds of a tick */
static int (*read_clock)(clockid_t, struct timespec *) = clock_gettime;
static uint64_t last_tick; /* 0, or what the host was opened with */

/* The tick of now. Where the wall clock steps back, it stands still until that has caught up. */
static inline uint64_t tick(void) {
    struct timespec t;
    read_clock(CLOCK_REALTIME, &t);
    int64_t us = ((int64_t)t.tv_sec - EPOCH) * 1000000 + t.tv_nsec / 1000;
    uint64_t now = us < 0 ? 0 : (uint64_t)(us / tick_us);
    return last_tick = now > last_tick ? now : last_tick;
}

/* How many nanoseconds are left until a tick: what a wait is given. */
static inline int64_t left_until(uint64_t at) {
    struct timespec t;
    read_clock(CLOCK_REALTIME, &t);
    int64_t left = (int64_t)at * tick_us * 1000 - (((int64_t)t.tv_sec - EPOCH) * 1000000000 + t.tv_nsec);
    return left > 0 ? left : 0;
}
#endif
