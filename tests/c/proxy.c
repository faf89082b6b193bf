/* A net on the loopback that loses datagrams, and sends some of them twice. Host i, which is at BASE + i, reaches host j by BASE + 100 + j.
 * Host j sees it come from BASE + 100 + i. Ends with SIGTERM, and prints how many came and were lost.
 *
 * usage: proxy BASE HOSTS LOST_PERCENT */
#define _GNU_SOURCE
#include <arpa/inet.h>
#include <poll.h>
#include <signal.h>
#include <stdbool.h>
#include <stdint.h>
#include <stdio.h>
#include <stdlib.h>
#include <sys/socket.h>

enum { MOST_HOSTS = 32, BATCH = 64, TWICE_IN = 200 };

static volatile sig_atomic_t is_over;
static int sockets[MOST_HOSTS], base, hosts;
static uint64_t state = 88172645463325252u, lost_in_a_million;
static unsigned long came, lost;

static void end(int signal) {
    (void)signal;
    is_over = 1;
}

static uint64_t any(uint64_t below) {
    state ^= state << 13;
    state ^= state >> 7;
    state ^= state << 17;
    return state % below;
}

static struct sockaddr_in port(int number) {
    return (struct sockaddr_in){ .sin_family = AF_INET, .sin_port = htons((uint16_t)number), .sin_addr.s_addr = htonl(INADDR_LOOPBACK) };
}

/* Carries one datagram for host `to`. Whether there was one. */
static bool carry(int to) {
    static uint8_t bytes[65536];
    struct sockaddr_in from, there = port(base + to);
    socklen_t from_len = sizeof from;
    ssize_t len = recvfrom(sockets[to], bytes, sizeof bytes, MSG_DONTWAIT, (struct sockaddr *)&from, &from_len);
    int sender = ntohs(from.sin_port) - base;
    if (len < 0) return false;
    if (sender < 0 || sender >= hosts) return true;
    came++;
    if (any(1000000) < lost_in_a_million) lost++;
    else
        for (int copies = any(TWICE_IN) ? 1 : 2; copies; copies--)
            (void)!sendto(sockets[sender], bytes, (size_t)len, 0, (struct sockaddr *)&there, sizeof there);
    return true;
}

int main(int argc, char **argv) {
    struct pollfd waits[MOST_HOSTS];
    struct sigaction action = { .sa_handler = end };
    int room = 8 << 20;
    if (argc != 4) return 2;
    base = atoi(argv[1]);
    hosts = atoi(argv[2]);
    lost_in_a_million = (uint64_t)(atof(argv[3]) * 10000);
    sigaction(SIGTERM, &action, NULL);
    for (int i = 0; i < hosts; i++) {
        struct sockaddr_in at = port(base + 100 + i);
        sockets[i] = socket(AF_INET, SOCK_DGRAM, 0);
        setsockopt(sockets[i], SOL_SOCKET, SO_RCVBUF, &room, sizeof room);
        if (bind(sockets[i], (struct sockaddr *)&at, sizeof at)) return 1;
        waits[i] = (struct pollfd){ sockets[i], POLLIN, 0 };
    }
    printf("up\n");
    fflush(stdout);
    while (!is_over) {
        if (poll(waits, (nfds_t)hosts, 1000) < 1) continue;
        for (int i = 0; i < hosts; i++)
            for (int n = 0; n < BATCH && (waits[i].revents & POLLIN) && carry(i); n++) {}
    }
    printf("proxy: %lu came, %lu lost\n", came, lost);
    return 0;
}
