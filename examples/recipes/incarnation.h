#ifndef INCARNATION_H
#define INCARNATION_H
/* An incarnation without a disk: the second of the wall clock in which the program began, used when that second is over.
 *
 * So two starts of one host have two incarnations, as long as one process is this host at a time (a bound port is such a lock), and the
 * wall clock doesn't step back further than the earlier start. It lasts until 2106. */
#include <stdint.h>
#include <time.h>

static inline uint32_t incarnation(void) {
    time_t began = time(NULL);
    struct timespec rest = { 0, 5000000 };
    while (time(NULL) <= began) nanosleep(&rest, NULL);
    return (uint32_t)began;
}
#endif
