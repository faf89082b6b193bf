#ifndef IDENTITY_H
#define IDENTITY_H
/* The incarnation and the last tick of a host in a file.
 *
 * A crash leaves no time to write. So the file has a tick that is ahead: it is written anew before a step has a later one. A host that
 * opens again begins at that tick. So it waits until its clock is there before it opens: with version 2 a host whose clock is ahead takes
 * what the others send for too old. */
#include <fcntl.h>
#include <stdbool.h>
#include <stdint.h>
#include <stdio.h>
#include <unistd.h>

static uint64_t lease = 10000; /* ticks: one write a second, and a wait of a second at most, where a tick is 100 us */

typedef struct {
    char path[200], beside[210];
    int folder;
    uint32_t incarnation;
    uint64_t leased; /* no step may have a later tick before the next write */
} identity;

/* Writes a file beside the old one, which then takes its name. The name too has to be on the disk. */
static inline bool put_identity(identity *it, uint64_t leased) {
    FILE *file = fopen(it->beside, "w");
    if (!file) return false;
    bool is_put = fprintf(file, "%u %llu\n", it->incarnation, (unsigned long long)leased) > 0 && fflush(file) == 0;
    is_put = is_put && fsync(fileno(file)) == 0;
    is_put = fclose(file) == 0 && is_put;
    is_put = is_put && rename(it->beside, it->path) == 0 && fsync(it->folder) == 0;
    if (is_put) it->leased = leased;
    return is_put;
}

/* What the file of the last incarnation says, or 0 and 0 where there was none. */
static inline bool get_identity(const identity *it, uint32_t *incarnation, unsigned long long *leased) {
    *incarnation = 0;
    *leased = 0;
    FILE *file = fopen(it->path, "r");
    if (!file) return access(it->path, F_OK) != 0;
    bool is_read = fscanf(file, "%u %llu", incarnation, leased) == 2;
    fclose(file);
    return is_read;
}

/* The next incarnation, and the tick that homa_open takes as `last`. Where the file can't be read or written, the host isn't to be opened. */
static inline bool next_life(identity *it, const char *folder, const char *name, uint64_t now, uint64_t *last) {
    uint32_t was;
    unsigned long long leased;
    snprintf(it->path, sizeof it->path, "%s/%s", folder, name);
    snprintf(it->beside, sizeof it->beside, "%s.new", it->path);
    it->folder = open(folder, O_RDONLY | O_DIRECTORY);
    if (it->folder < 0 || !get_identity(it, &was, &leased)) return false;
    it->incarnation = was + 1;
    *last = leased > now ? leased : now;
    return put_identity(it, *last + lease);
}

/* Before each step. */
static inline bool may_step(identity *it, uint64_t now) { return now <= it->leased || put_identity(it, now + lease); }
#endif
