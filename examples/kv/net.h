/* A host's socket: many datagrams in one call of the system. */
#ifndef NET_H
#define NET_H
#include "homa.h"
#include <netinet/in.h>

enum { MOST_HOSTS = 32, MOST_DATAGRAM = 65536 };

typedef struct {
    int socket;
    uint16_t id;
    unsigned hosts;
    struct sockaddr_in at[MOST_HOSTS]; /* where each host is reached */
    bool has_runs;                     /* whether datagrams of one length leave as one (UDP_SEGMENT) */
    unsigned long sent, received, foreign, lost;
} net;

/* Reads FILE: a line 'ADDRESS PORT [ADDRESS PORT]' for each host, from 0: where it is reached, and where it binds, if that is elsewhere. Binds
 * the socket of host `id`. What went wrong, or NULL. */
const char *net_open(net *it, const char *file, uint16_t id);

/* Sends the frames of a host's last step: runs of one length, to one host, leave as one. */
void net_send(net *it, homa_host *host);

/* Takes all datagrams that have come, each with the host that it came from; those of strangers are counted. */
void net_receive(net *it, void (*take)(void *to, uint16_t from, const uint8_t *bytes, size_t len), void *to);
#endif
