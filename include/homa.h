/* The proved core of one Homa host, for programs that have a net and a clock of their own.
 *
 * A host calls services of other hosts and serves their calls. The program feeds it with datagrams, turns and calls; each is one
 * step of the host. After a step it sends the frames of that step (homa_frames, homa_frame) and reads its entries (homa_entries,
 * homa_entry, homa_whole), before it does anything else. After the next homa_call, homa_deliver, homa_answer or homa_turn they may be
 * gone, even if it isn't done. docs/use/library.md shows the loops of a client and of a server.
 *
 * Ticks: `now` counts ticks of the host's own clock, 0 to 1,000,000,002,000. The program says how long a tick is. A host's clock
 * never falls; two steps may have one tick. No step begins if `now` is below the tick of the last step (BAD_TICK), past the last tick, or
 * once 2^56 steps were begun (SPENT); a step that asks counts too.
 *
 * Link with libhoma, as tools/install-library puts it, or with libhoma_c.a and liblibc_c.a of the kit; memory comes from malloc,
 * realloc and free.
 *
 * What is proved holds as long as the program keeps to this, which no call can see:
 * - no pointer is NULL (not even that of 0 bytes), each is valid for its length, and none overlaps another or the handle;
 * - a handle is HOMA_CLOSED at first, is written by these calls alone, and isn't copied. It may be moved (memcpy, realloc) where the old
 *   place isn't used any more. After a fork() only one of the processes may go on with it: two would be one host in one incarnation,
 *   and give two calls one id;
 * - one call at a time on a handle, and none from a signal handler. A handle may go from one thread to another where one has ended its
 *   call before the other begins, as with a mutex; different handles know nothing of each other;
 * - `from` is the host that sent the datagram, or no host at all did; and a datagram isn't delivered to another host.
 * What is proved of many hosts, as that a call runs at most once in an incarnation of its server, is proved of a world. No clause says that
 * a net of programs is one: docs/use/library.md, 'What a program must guarantee', says what they see to.
 */
#ifndef HOMA_H
#define HOMA_H

/* The version of the project (the file VERSION), in words, and as 65,536 * MAJOR + 256 * MINOR + PATCH. */
#define HOMA_VERSION "0.1.0"
#define HOMA_VERSION_NUMBER 0x000100u

#include <stdbool.h>
#include <stddef.h>
#include <stdint.h>
#include <string.h>

/* What a call answers. A right program meets those below 16; from 16 on it made a mistake. homa_text_of has a word for each. Unless it is
 * HOMA_OK, nothing happened to the host, and nothing was written but what the call says. The last step's frames and entries can still be
 * read, unless a datagram asks or finds no memory: then they are gone. After a homa_call that is SPENT, and a homa_answer that finds no
 * memory, they can still be read or are gone. If more than one cause holds, the result is the first of this order. At opening: the handle, a
 * setting, `id`, the incarnation, `last`. At other calls: the handle, the length of the datagram, the host, SPENT by the clock or the steps,
 * BAD_TICK, the length of the message, its pages, FULL, SPENT by the numbers. At homa_answer: the handle, GONE, NO_BYTES, then as at
 * other calls. */
enum {
    HOMA_OK = 0,
    HOMA_ASKS = 1,             /* of homa_deliver: an answer is needed */
    HOMA_NO_MEMORY = 3,        /* there is no memory; the same call may be tried again */
    HOMA_FULL = 4,             /* of homa_call, later: as many calls are live as `calls` says; of homa_deliver: no room to keep what asks */
    HOMA_SPENT = 5,            /* never in this incarnation: its numbers, its steps or its clock are at their end */
    HOMA_AT_WORK = 6,          /* of homa_deliver: it asks for a call that is kept */
    HOMA_LATER = 7,            /* of homa_answer: the kept datagram is too old for a step; the answer is kept */
    HOMA_GONE = 8,             /* of homa_answer and homa_decline: no such call waits for an answer */
    HOMA_NEVER = 9,            /* of homa_next_turn: no turn does anything before the next call or datagram */
    HOMA_NOT_OPEN = 16,        /* the handle isn't open */
    HOMA_IS_OPEN = 17,         /* of homa_open: it is */
    HOMA_BAD_SETTING = 18,     /* of homa_open: homa_wrong_setting says which; of homa_open_late also `kept` or `keep` */
    HOMA_BAD_HOST = 19,        /* `id` isn't below `hosts`; or there is no other host of that number */
    HOMA_BAD_INCARNATION = 20, /* of homa_open: it is 0 */
    HOMA_BAD_TICK = 21,        /* `last` is past the last tick; or `now` is below the tick of the last step */
    HOMA_NO_BYTES = 22,        /* a request of 0 bytes, or an answer of homa_answer */
    HOMA_TOO_LONG = 23,        /* a message of over 1,000,000 bytes, or a datagram of over 65,535 */
    HOMA_TOO_MANY_PAGES = 24,  /* the message takes more pages than `pages`: no host of this net could ever take it */
    HOMA_NOT_THERE = 25,       /* there is no such frame or entry */
    HOMA_NO_ROOM = 26          /* the room is too small */
};
#define HOMA_IS_MISTAKE(result) ((result) >= 16u)

/* Kinds of entries. After each: what it has beside its kind, in homa_entry_info; and in homa_entry_more the `peer` and `at`. A program
 * passes over the kinds that it doesn't know. */
enum {
    HOMA_OTHER = 0,
    HOMA_RAN = 1,       /* a request was answered, and the answer that was given is its response. id, service, len: bytes of the request. peer:
                         * the client */
    HOMA_DONE = 2,      /* a call is done: its response is whole. id, len: bytes of the response. peer: who sent them */
    HOMA_TIMEOUT = 3,   /* a call failed: `tries` RESENDs in a row had no answer but UNKNOWN. It may have been served, and may still be after
                         * this entry (docs/use/library.md, 'After a timeout'). id */
    HOMA_FORGOTTEN = 4, /* a call failed: by its server's word it was served, and the response is gone. id. peer: who said so */
    HOMA_JUNK = 5,      /* the datagram is no packet of this version. peer: who sent it */
    HOMA_STALE = 6,     /* the packet is too old. peer: who sent it. at: the tick of its clock at which it did */
    HOMA_NO_ROW = 7,    /* a request wasn't taken: all rows are in use. id, len: how many there are. peer: the client. at: `served` */
    HOMA_NO_PAGES = 8,  /* a message wasn't taken: too few pages are free. id, len: how many it takes. peer: who sent it. at: how many are free */
    HOMA_GAPS = 9,      /* a piece wasn't taken: its message would have over 64 gaps. id. peer: who sent it */
    HOMA_DROPPED = 10,  /* a request was given up before it was whole. id. peer: the client */
    HOMA_BURIED = 11,   /* a call that was served is over, and is remembered for a time. id. peer: the client. at: up to which tick */
    HOMA_FREED = 12,    /* a call that was served isn't remembered any more. id. peer: the client */
    HOMA_CALLED = 13,   /* a call began. id, service, len: bytes of the request. peer: its server */
    HOMA_SENT = 14,     /* a frame was sent. id, len: bytes of its payload. peer: to whom. at: the kind of packet (docs/understand/protocol.md) */
    HOMA_BALANCED = 15  /* levels were computed anew. len: their version */
};

/* A host. It owns all memory of the host while it is open. */
typedef struct {
    void *at;
    bool is_open;
} homa_host;
#define HOMA_CLOSED { NULL, false }

/* For each pointer to 0 bytes, since none may be NULL: `homa_deliver(&host, from, frame, len, now, HOMA_NONE, 0, &asked)`. */
#define HOMA_NONE ((const uint8_t *)"")

/* Settings. All hosts of a net have the same: what is proved of many hosts speaks of such a net alone. */
typedef struct {
    uint32_t hosts;      /* how many hosts there are: 2 to 32 */
    uint32_t seg;        /* most payload bytes of a packet: 1 to 1400. A frame has its header beside them: 1500 bytes at most */
    uint32_t window;     /* most bytes of a message that are granted and haven't come: 1 to 1,000,000 */
    uint32_t unsched;    /* bytes of a message that are sent without a grant: 1 to window */
    uint32_t overcommit; /* to how many messages a host grants at a time: 1 to 7 */
    uint32_t rate;       /* payload bytes that may be sent until the first turn of a tick (but 0) fills the credit up: seg to 1,000,000 */
    uint32_t resend;     /* after how many ticks of silence a timer acts: 1 to 1000 */
    uint32_t tries;      /* how many questions in a row may stay without an answer: 1 to 100 */
    uint32_t life;       /* for how many ticks a datagram may be delivered: 1 to 100,000. With wire 1 the program sees to it */
    uint32_t pages;      /* pages of 4096 bytes for messages that arrive: 1 to 4096. A message takes one for each 4096 bytes until it is
                          * whole; below 245 the longest can't arrive, and a call or an answer that could never fit is TOO_MANY_PAGES */
    uint32_t calls;      /* most live calls as a client: 1 to 1024 */
    uint32_t served;     /* most rows as a server: 1 to 4096 */
    uint32_t rebalance;  /* after how many messages levels are computed anew: 0 (never) to 1024 */
    uint32_t skew;       /* by how many ticks a host's clock may be off: 0 to 1000 */
    uint32_t wire;       /* version of the packets: 1 or 2 */
} homa_settings;

/* A call: its client, the client's incarnation, and its number in that incarnation. No two calls have one, if no incarnation is used twice. */
typedef struct {
    uint16_t client;
    uint32_t incarnation;
    uint32_t number;
} homa_call_id;

/* A call whose request is whole, and the service that it asks: 0 to 255. */
typedef struct {
    homa_call_id id;
    uint32_t service;
} homa_asked;

/* A frame: who sent it, to whom, and how many bytes it has. */
typedef struct {
    uint16_t from, to;
    size_t len;
} homa_frame_info;

/* An entry: its kind, and what that has of a call, a service and a number. What it hasn't is 0. */
typedef struct {
    uint32_t kind, service;
    homa_call_id id;
    size_t len;
} homa_entry_info;

/* What more an entry has: another host, or HOMA_NO_PEER, and a second number, or 0. */
#define HOMA_NO_PEER 0xffffu
typedef struct {
    uint16_t peer;
    uint64_t at;
} homa_more_info;

/* What a host counts from its opening on; the last three say how it is now. A count that rises stands still at 2^64 - 1. */
enum {
    HOMA_COUNT_CALLS, HOMA_COUNT_DONE, HOMA_COUNT_TIMEOUTS, HOMA_COUNT_FORGOTTEN, /* calls that began, and how they ended */
    HOMA_COUNT_ASKED, HOMA_COUNT_RAN,                                             /* datagrams that asked, and requests that were answered */
    HOMA_COUNT_SENT, HOMA_COUNT_SENT_BYTES, HOMA_COUNT_RECEIVED,                  /* frames, their bytes, datagrams that were a step */
    HOMA_COUNT_RESENDS_SENT,                                                      /* frames that ask for bytes again */
    HOMA_COUNT_JUNK, HOMA_COUNT_STALE, HOMA_COUNT_NO_ROW, HOMA_COUNT_NO_PAGES, HOMA_COUNT_GAPS, /* entries of these kinds */
    HOMA_COUNT_DROPPED, HOMA_COUNT_BURIED, HOMA_COUNT_FREED,
    HOMA_COUNT_LIVE, /* calls that are live */
    HOMA_COUNT_KEPT, /* calls that are kept until they are answered (homa_open_late) */
    HOMA_COUNT_ROWS, /* calls that the host serves, those that are over but remembered among them: at most `served` */
    HOMA_COUNTS
};

/* All of them, in this order, as far as this header knows. */
typedef struct {
    uint64_t calls, done, timeouts, forgotten, asked, ran, sent, sent_bytes, received, resends_sent, junk, stale, no_row, no_pages, gaps, dropped,
        buried, freed, live, kept, rows;
} homa_counts;

#ifdef __GNUC__
#define HOMA_POINTERS __attribute__((nonnull))
#else
#define HOMA_POINTERS
#endif

#ifdef __cplusplus
extern "C" {
#endif

/* The version of the library that is linked, as HOMA_VERSION_NUMBER. */
uint32_t homa_version(void);

/* The usual settings, with small numbers: 2 hosts, packets of 1400 bytes and version 1, window and unsched 10,000, rate 14,000, patience of 24
 * ticks, life 20. */
HOMA_POINTERS void homa_usual(homa_settings *settings);

/* Settings for a network of services, with ticks of 100 us to 10 ms: 32 hosts, packets of 1400 bytes and version 2, skew 10, window 60,000,
 * unsched 10,000, rate 100,000. The patience is 2,100 ticks, life 3,000; there are 4,096 pages and rows, 256 calls, rebalance 100.
 * docs/use/library.md, 'Settings of a service', says what to change. */
HOMA_POINTERS void homa_service(homa_settings *settings);

/* What is wrong with settings: 0 nothing; 1 to 15 the first that is outside its range, by its place in homa_settings; 16 `unsched` is over
 * `window`; 17 `rate` is under `seg`. homa_text_of_setting has a word for each. */
HOMA_POINTERS uint32_t homa_wrong_setting(const homa_settings *settings);

/* Opens a host without calls in a closed handle. `id` is its number, 0 to hosts - 1; `incarnation`, at least 1, is larger than
 * each earlier one of this host. In one that was used, a new call gets an old call's response as its own, and is DONE. `last` is the tick
 * of its last step then, 0 before the first. Memory: see docs/use/limits.md.
 * IS_OPEN, BAD_SETTING, BAD_HOST, BAD_INCARNATION, BAD_TICK, NO_MEMORY: the handle stays as it was. */
HOMA_POINTERS uint32_t homa_open(const homa_settings *settings, uint16_t id, uint32_t incarnation, uint64_t last, homa_host *host);

/* Opens a host as homa_open does, that keeps what asks: of each call the datagram that asked last. While a call is kept it is reported once,
 * and its answer may come later, by homa_answer. There is room for `kept` calls, 1 to 4,096. A kept datagram is delivered at most `keep` ticks
 * after it came, 0 to `life`; let it be several times `resend`, so that a client that waits has a fresh datagram here. With wire 2 the host
 * looks at a datagram's age besides, and `life` will do. With wire 1 nothing else does: a datagram comes to homa_deliver at most
 * `life - keep` ticks after it was sent.
 * As homa_open; BAD_SETTING also if `kept` or `keep` is outside its range: homa_wrong_setting is 0 then. */
HOMA_POINTERS uint32_t homa_open_late(const homa_settings *settings, uint16_t id, uint32_t incarnation, uint64_t last, uint32_t kept, uint32_t keep,
                                      homa_host *host);

/* Closes a host and gives its memory back. NOT_OPEN. */
HOMA_POINTERS uint32_t homa_close(homa_host *host);

/* Calls service 0 to 255 of another host with a request of 1 to 1,000,000 bytes, which are copied. OK: `id` names the call. It
 * ends by one entry DONE, TIMEOUT or FORGOTTEN, or has no end: docs/use/library.md, 'How a call ends', says when. It has no deadline and
 * can't be taken back; until it ends it is one of `calls`.
 * FULL: later. SPENT: never in this incarnation. NOT_OPEN, BAD_HOST, BAD_TICK, NO_BYTES, TOO_LONG, TOO_MANY_PAGES, NO_MEMORY. */
HOMA_POINTERS uint32_t homa_call(homa_host *host, uint16_t server, uint8_t service, const uint8_t *request, size_t len, uint64_t now,
                                 homa_call_id *id);

/* A datagram came from the host `from`. `answer` has 1 to 1,000,000 bytes for the request that it may make whole, or 0 bytes if there is
 * none. A service whose answers may be empty puts a byte of its own in front. Bytes that are no packet change no call, but are a step
 * all the same, which may send what waits.
 * OK: the step is done. That the answer was taken says an entry HOMA_RAN alone: it names the call, and exactly these bytes are its
 *   response. Without one it wasn't taken (docs/use/library.md, 'An answer that isn't taken').
 * ASKS, only with no answer: it makes the request of the call `asked` whole, which homa_whole gives. Nothing happened: deliver the
 *   same datagram again with the answer, at once and at the same tick, or later ('An answer that isn't ready').
 * NO_MEMORY, only with an answer: it makes a request whole, and there is no memory for the answer. Nothing happened, and `asked` isn't
 *   written. Keep the answer by the call's id, and deliver it with the next datagram that asks for that call.
 * SPENT, NOT_OPEN, BAD_HOST, BAD_TICK; TOO_LONG, of the datagram or the answer; TOO_MANY_PAGES, of the answer.
 *
 * At a host that keeps what asks (homa_open_late), with no answer:
 * OK: the step is done. If it asks for a call whose answer is kept, the step has that answer, and an entry HOMA_RAN names the call.
 * ASKS: it asks for the call `asked`, which is kept from now on, and homa_whole has its request. It is reported once as long as it is kept.
 *   Give the answer by homa_answer.
 * AT_WORK: it asks for a call that is kept, and takes the place of the datagram that asked before. Nothing is to be done.
 * FULL: it asks, and there is no room to keep it. A client that still waits asks again.
 * NO_MEMORY: it asks, and there is no memory to keep it, or for the answer that is kept. A client that still waits asks again.
 * With these four nothing happened to the host, and there is no frame and no entry.
 * With an answer it is as at a host that keeps nothing; a call that runs isn't kept any more. */
HOMA_POINTERS uint32_t homa_deliver(homa_host *host, uint16_t from, const uint8_t *frame, size_t len, uint64_t now, const uint8_t *answer,
                                    size_t answer_len, homa_asked *asked);

/* The answer to a call that was reported (ASKS) and is kept, of 1 to 1,000,000 bytes: the step of the datagram that asked last for it.
 * OK: the step is done; read its frames and entries. An entry HOMA_RAN names the call if the answer was taken. If it wasn't, the library
 *   keeps the answer, and gives it to the next datagram that asks for the call.
 * LATER: the datagram is older than `keep`, and there was no step. The answer is kept as above.
 * GONE: no such call waits for an answer. It was answered or declined, it had to make room, or it never asked.
 * NO_MEMORY: the call waits on. The last step's frames and entries can still be read, or are gone.
 * SPENT, NOT_OPEN, BAD_HOST, BAD_TICK, NO_BYTES, TOO_LONG, TOO_MANY_PAGES: the call waits on.
 *
 * A call isn't kept any more when a step ran it, when it is declined, or when it makes room. If another call asks and there is no room, the
 * call goes whose datagram came first, unless that is at most `keep` ticks old. */
HOMA_POINTERS uint32_t homa_answer(homa_host *host, const homa_call_id *id, const uint8_t *answer, size_t len, uint64_t now);

/* No answer to a call will come: it isn't kept any more, and is reported again if it asks again. GONE: it wasn't kept. NOT_OPEN. */
HOMA_POINTERS uint32_t homa_decline(homa_host *host, const homa_call_id *id);

/* A turn: of the rows that are due at this tick 32 at most act, and what waits may be sent. SPENT, NOT_OPEN, BAD_TICK. */
HOMA_POINTERS uint32_t homa_turn(homa_host *host, uint64_t now);

/* The tick before which no turn does anything. At each tick after the last step and before `at`, a turn would send no frame and have
 * no entry. It would change nothing but the host's clock and its credit, which it may fill up (`rate`). `at` is the tick after the
 * last step's if bytes of a message wait to be sent, and otherwise the deadline of a row, which may be past.
 * NEVER: no turn that may begin does anything before the next call or datagram; at the clock's end that is so too, but at the last tick
 *   itself what waits may be sent. NOT_OPEN. `at` isn't written then. */
HOMA_POINTERS uint32_t homa_next_turn(homa_host *host, uint64_t *at);

/* How many frames the last step sent: 0 to 64. */
HOMA_POINTERS size_t homa_frames(homa_host *host);

/* Copies frame `i`, from 0, to the beginning of `room`; 1500 bytes are always enough, and the rest of `room` stays as it is. NOT_THERE,
 * NO_ROOM, NOT_OPEN: nothing is written. */
HOMA_POINTERS uint32_t homa_frame(homa_host *host, size_t i, uint8_t *room, size_t room_len, homa_frame_info *info);

/* The level of frame `i`: 0 to 7, where 7 goes first. A program may give it a priority of its net, as DSCP. 0 if there is no such frame. */
HOMA_POINTERS uint32_t homa_frame_level(homa_host *host, size_t i);

/* How many entries the last step has: 0 to 128. */
HOMA_POINTERS size_t homa_entries(homa_host *host);

/* Entry `i`, from 0. NOT_THERE, NOT_OPEN: nothing is written. */
HOMA_POINTERS uint32_t homa_entry(homa_host *host, size_t i, homa_entry_info *info);

/* What more entry `i` has. NOT_THERE, NOT_OPEN: nothing is written. */
HOMA_POINTERS uint32_t homa_entry_more(homa_host *host, size_t i, homa_more_info *more);

/* How many bytes the message has that became whole in the last step: 1 to 1,000,000, or 0 if none did. It is the
 * request that is asked about or was answered (HOMA_RAN), or the response of a call that is done (HOMA_DONE). A step makes one message whole
 * at most. */
HOMA_POINTERS size_t homa_whole_len(homa_host *host);

/* Copies that message to the beginning of `room`; the rest of `room` stays as it is. NO_ROOM, NOT_OPEN: nothing is written. */
HOMA_POINTERS uint32_t homa_whole(homa_host *host, uint8_t *room, size_t room_len, size_t *len);

/* How many calls are live: 0 to `calls`. 0 if the handle isn't open. */
HOMA_POINTERS uint32_t homa_live(homa_host *host);

/* The tick of the last step, and before the first what the host was opened with. 0 if the handle isn't open. */
HOMA_POINTERS uint64_t homa_last(homa_host *host);

/* The count of this number, one of HOMA_COUNT_*. 0 if the handle isn't open, or there is no such count. */
HOMA_POINTERS uint64_t homa_count(homa_host *host, uint32_t which);

#ifdef __cplusplus
}
#endif

/* A word for a result. */
static inline const char *homa_text_of(uint32_t result) {
    switch (result) {
    case HOMA_OK: return "ok";
    case HOMA_ASKS: return "asks";
    case HOMA_NO_MEMORY: return "no memory";
    case HOMA_FULL: return "full";
    case HOMA_SPENT: return "spent";
    case HOMA_AT_WORK: return "at work";
    case HOMA_LATER: return "later";
    case HOMA_GONE: return "gone";
    case HOMA_NEVER: return "never";
    case HOMA_NOT_OPEN: return "not open";
    case HOMA_IS_OPEN: return "is open";
    case HOMA_BAD_SETTING: return "bad setting";
    case HOMA_BAD_HOST: return "bad host";
    case HOMA_BAD_INCARNATION: return "bad incarnation";
    case HOMA_BAD_TICK: return "bad tick";
    case HOMA_NO_BYTES: return "no bytes";
    case HOMA_TOO_LONG: return "too long";
    case HOMA_TOO_MANY_PAGES: return "too many pages";
    case HOMA_NOT_THERE: return "not there";
    case HOMA_NO_ROOM: return "no room";
    default: return "unknown";
    }
}

/* A word for what homa_wrong_setting says. */
static inline const char *homa_text_of_setting(uint32_t wrong) {
    static const char *const words[] = { "nothing", "hosts", "seg", "window", "unsched", "overcommit", "rate", "resend", "tries", "life", "pages",
                                         "calls", "served", "rebalance", "skew", "wire", "unsched over window", "rate under seg" };
    return wrong < sizeof words / sizeof *words ? words[wrong] : "unknown";
}

/* A word for a kind of entries. */
static inline const char *homa_text_of_entry(uint32_t kind) {
    static const char *const words[] = { "other", "ran", "done", "timeout", "forgotten", "junk", "stale", "no row", "no pages", "gaps", "dropped",
                                         "buried", "freed", "called", "sent", "balanced" };
    return kind < sizeof words / sizeof *words ? words[kind] : "unknown";
}

/* All counts at once. */
HOMA_POINTERS static inline void homa_counts_of(homa_host *host, homa_counts *counts) {
    uint64_t all[HOMA_COUNTS];
    for (uint32_t i = 0; i < HOMA_COUNTS; i++) all[i] = homa_count(host, i);
    memcpy(counts, all, sizeof all);
}
#endif
