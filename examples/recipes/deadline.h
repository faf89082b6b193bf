#ifndef DEADLINE_H
#define DEADLINE_H
/* A deadline of the program's own for each call. The host's call goes on, and stays one of `calls`; its later end is passed over. */
#include "homa.h"

#define WAITING 64 /* as many as the setting `calls` */

typedef struct {
    homa_call_id id;
    uint64_t until;
    bool is_live, is_wanted;
} waiting;

static waiting all[WAITING];
static unsigned given_up;  /* those that are live and not wanted: where they near WAITING, open the host in its next incarnation */

/* Behind a homa_call that was OK. */
static inline void begun(homa_call_id id, uint64_t until) {
    for (size_t i = 0; i < WAITING; i++) {
        if (all[i].is_live) continue;
        all[i] = (waiting){ id, until, true, true };
        return;
    }
}

/* At an entry DONE, TIMEOUT or FORGOTTEN: whether the program still wants to hear of it. */
static inline bool is_wanted(homa_call_id id) {
    for (size_t i = 0; i < WAITING; i++) {
        if (!all[i].is_live || all[i].id.number != id.number || all[i].id.incarnation != id.incarnation) continue;
        all[i].is_live = false;
        given_up -= !all[i].is_wanted;
        return all[i].is_wanted;
    }
    return false;
}

/* In each round of the loop: gives up the calls whose time is over, and says how many. */
static inline unsigned give_up(uint64_t now) {
    unsigned over = 0;
    for (size_t i = 0; i < WAITING; i++) {
        if (!all[i].is_live || !all[i].is_wanted || now <= all[i].until) continue;
        all[i].is_wanted = false;
        over++;
    }
    given_up += over;
    return over;
}
#endif
