#define _GNU_SOURCE
#include "net.h"
#include <arpa/inet.h>
#include <errno.h>
#include <netinet/udp.h>
#include <stdio.h>
#include <string.h>
#include <sys/socket.h>
#include <unistd.h>

#ifndef UDP_SEGMENT
#define UDP_SEGMENT 103
#define UDP_GRO 104
#endif

enum { MOST_FRAMES = 64, FRAME = 1500, MOST_RUN = 60000, BATCH = 8, RECEIVE_BUFFER = 8 << 20 };

static bool read_address(const char *address, unsigned port, struct sockaddr_in *at) {
    *at = (struct sockaddr_in){ .sin_family = AF_INET, .sin_port = htons((uint16_t)port) };
    return port < 65536 && inet_pton(AF_INET, address, &at->sin_addr) == 1;
}

/* Where this host binds. */
static const char *read_hosts(net *it, const char *file, struct sockaddr_in *own) {
    char line[200], address[64], bound[64];
    unsigned port, bound_port;
    FILE *from = fopen(file, "r");
    if (!from) return strerror(errno);
    const char *fault = NULL;
    for (it->hosts = 0; !fault && fgets(line, sizeof line, from); it->hosts++) {
        int words = sscanf(line, "%63s %u %63s %u", address, &port, bound, &bound_port);
        if (it->hosts == MOST_HOSTS || (words != 2 && words != 4) || !read_address(address, port, &it->at[it->hosts])) fault = "not a line 'ADDRESS PORT'";
        else if (it->hosts != it->id) continue;
        else if (words == 2) *own = it->at[it->id];
        else if (!read_address(bound, bound_port, own)) fault = "not a line 'ADDRESS PORT ADDRESS PORT'";
    }
    fclose(from);
    return fault ? fault : it->id < it->hosts ? NULL : "it has no line for this host";
}

const char *net_open(net *it, const char *file, uint16_t id) {
    struct sockaddr_in own;
    int room = RECEIVE_BUFFER, on = 1;
    *it = (net){ .id = id, .has_runs = true };
    const char *fault = read_hosts(it, file, &own);
    if (fault) return fault;
    it->socket = socket(AF_INET, SOCK_DGRAM | SOCK_NONBLOCK, 0);
    setsockopt(it->socket, SOL_SOCKET, SO_RCVBUF, &room, sizeof room);
    setsockopt(it->socket, IPPROTO_UDP, UDP_GRO, &on, sizeof on); /* where the system hasn't it, datagrams come one by one */
    return bind(it->socket, (struct sockaddr *)&own, sizeof own) ? strerror(errno) : NULL;
}

/* A run: datagrams to one host, of one length but for the last, which may be shorter. */
typedef struct {
    uint16_t to;
    size_t len, each, count;
    struct iovec bytes;
    char control[CMSG_SPACE(sizeof(uint16_t))];
} run;

/* Whether a frame goes on with a run. */
static bool goes_on(const net *it, const run *last, const homa_frame_info *frame) {
    return it->has_runs && last->to == frame->to && last->len == last->each * last->count && frame->len <= last->each
        && last->len + frame->len <= MOST_RUN;
}

static struct msghdr message_of(net *it, run *one) {
    struct msghdr message = { .msg_name = &it->at[one->to], .msg_namelen = sizeof it->at[0], .msg_iov = &one->bytes, .msg_iovlen = 1 };
    one->bytes.iov_len = one->len;
    if (one->count == 1) return message;
    uint16_t each = (uint16_t)one->each;
    message.msg_control = one->control;
    message.msg_controllen = sizeof one->control;
    struct cmsghdr *part = CMSG_FIRSTHDR(&message);
    *part = (struct cmsghdr){ .cmsg_len = CMSG_LEN(sizeof each), .cmsg_level = IPPROTO_UDP, .cmsg_type = UDP_SEGMENT };
    memcpy(CMSG_DATA(part), &each, sizeof each);
    return message;
}

void net_send(net *it, homa_host *host) {
    static uint8_t room[MOST_FRAMES * FRAME];
    static run runs[MOST_FRAMES];
    static struct mmsghdr messages[MOST_FRAMES];
    homa_frame_info frame;
    size_t count = 0, used = 0;
    for (size_t i = 0, frames = homa_frames(host); i < frames; i++, it->sent++) {
        if (homa_frame(host, i, room + used, FRAME, &frame) != HOMA_OK) continue;
        if (count == 0 || !goes_on(it, &runs[count - 1], &frame)) runs[count++] = (run){ .to = frame.to, .each = frame.len, .bytes = { room + used, 0 } };
        runs[count - 1].len += frame.len;
        runs[count - 1].count++;
        used += frame.len;
    }
    for (size_t i = 0; i < count; i++) messages[i].msg_hdr = message_of(it, &runs[i]);
    for (size_t i = 0; i < count;) {
        int done = sendmmsg(it->socket, messages + i, (unsigned)(count - i), 0);
        if (done < 0 && runs[i].count > 1 && (errno == EINVAL || errno == EIO)) it->has_runs = false; /* the system has no runs: from now on, one by one */
        if (done < 0) it->lost += runs[i].count; /* as on any net */
        i += done > 0 ? (size_t)done : 1;
    }
}

/* The host at this address, or -1. */
static int host_at(const net *it, const struct sockaddr_in *at) {
    for (unsigned i = 0; i < it->hosts; i++)
        if (i != it->id && it->at[i].sin_port == at->sin_port && it->at[i].sin_addr.s_addr == at->sin_addr.s_addr) return (int)i;
    return -1;
}

/* How long each datagram of a message is, but the last. */
static size_t each_of(struct msghdr *message, size_t len) {
    for (struct cmsghdr *part = CMSG_FIRSTHDR(message); part; part = CMSG_NXTHDR(message, part)) {
        if (part->cmsg_level != IPPROTO_UDP || part->cmsg_type != UDP_GRO) continue;
        int each;
        memcpy(&each, CMSG_DATA(part), sizeof each);
        return each > 0 ? (size_t)each : len;
    }
    return len;
}

void net_receive(net *it, void (*take)(void *to, uint16_t from, const uint8_t *bytes, size_t len), void *to) {
    static uint8_t room[BATCH][MOST_DATAGRAM];
    static char control[BATCH][CMSG_SPACE(sizeof(int))];
    struct sockaddr_in at[BATCH];
    struct iovec bytes[BATCH];
    struct mmsghdr messages[BATCH];
    int count;
    do {
        for (int i = 0; i < BATCH; i++) {
            bytes[i] = (struct iovec){ room[i], MOST_DATAGRAM };
            messages[i].msg_hdr = (struct msghdr){ &at[i], sizeof at[i], &bytes[i], 1, control[i], sizeof control[i], 0 };
        }
        count = recvmmsg(it->socket, messages, BATCH, 0, NULL);
        for (int i = 0; i < count; i++) {
            size_t len = messages[i].msg_len, each = each_of(&messages[i].msg_hdr, len);
            int from = host_at(it, &at[i]);
            if (from < 0) it->foreign++;
            for (size_t begin = 0; from >= 0 && begin < len; begin += each, it->received++)
                take(to, (uint16_t)from, room[i] + begin, len - begin < each ? len - begin : each);
        }
    } while (count == BATCH);
}
