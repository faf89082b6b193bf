/* A net in user space between network namespaces, for systems without netem: for each NAME a device `homa0` in the namespace NAME (as `ip netns
 * add` makes it), with the address 10.77.0.K, K from 1. A packet is late by DELAY_US and up to JITTER_US more, so that packets overtake each
 * other, and is lost, or sent twice, by chance. Ends with SIGTERM. Needs Linux, root and /dev/net/tun.
 *
 * usage: cable DELAY_US JITTER_US LOST_PERCENT TWICE_PERCENT NAME .. */
#define _GNU_SOURCE
#include <arpa/inet.h>
#include <fcntl.h>
#include <linux/if_tun.h>
#include <net/if.h>
#include <poll.h>
#include <sched.h>
#include <signal.h>
#include <stdbool.h>
#include <stdint.h>
#include <stdio.h>
#include <stdlib.h>
#include <string.h>
#include <sys/ioctl.h>
#include <time.h>
#include <unistd.h>

enum { MOST = 1 << 15, PACKET = 2048, MOST_HOSTS = 32, BATCH = 64, QUEUE = 10000 };
#define ADDRESSES 0x0a4d0000u

typedef struct {
    uint64_t at;
    int to;
    size_t len;
    uint8_t bytes[PACKET];
} packet;

static packet *packets;
static uint32_t heap[MOST], spare[MOST], queued, spares; /* packets under way, the first to come on top; and room for more */
static int devices[MOST_HOSTS], hosts;
static uint64_t state = 88172645463325252u, delay, jitter, lost_in_a_million, twice_in_a_million;
static unsigned long carried, lost, twice, dropped;
static volatile sig_atomic_t is_over;

static void end(int signal) {
    (void)signal;
    is_over = 1;
}

static void need(bool holds, const char *what) {
    if (holds) return;
    perror(what);
    exit(1);
}

static uint64_t nanoseconds(void) {
    struct timespec t;
    clock_gettime(CLOCK_MONOTONIC, &t);
    return (uint64_t)t.tv_sec * 1000000000u + (uint64_t)t.tv_nsec;
}

static uint64_t any(uint64_t below) {
    state ^= state << 13;
    state ^= state >> 7;
    state ^= state << 17;
    return state % below;
}

static void push(uint32_t it) {
    uint32_t i = queued++;
    for (; i && packets[it].at < packets[heap[(i - 1) / 2]].at; i = (i - 1) / 2) heap[i] = heap[(i - 1) / 2];
    heap[i] = it;
}

static uint32_t pop(void) {
    uint32_t first = heap[0], last = heap[--queued], i = 0;
    for (uint32_t k = 1; k < queued; k = 2 * i + 1) {
        if (k + 1 < queued && packets[heap[k + 1]].at < packets[heap[k]].at) k++;
        if (packets[heap[k]].at >= packets[last].at) break;
        heap[i] = heap[k];
        i = k;
    }
    heap[i] = last;
    return first;
}

static void address(struct ifreq *request, uint32_t it) {
    struct sockaddr_in *at = (struct sockaddr_in *)&request->ifr_addr;
    at->sin_family = AF_INET;
    at->sin_addr.s_addr = htonl(it);
}

/* A device in a namespace, up, with its address; it is read and written from this one. */
static int device_in(const char *name, int number) {
    char path[200];
    struct ifreq request = { .ifr_flags = IFF_TUN | IFF_NO_PI };
    snprintf(path, sizeof path, "/run/netns/%s", name);
    int own = open("/proc/self/ns/net", O_RDONLY), other = open(path, O_RDONLY);
    need(own >= 0 && other >= 0 && setns(other, CLONE_NEWNET) == 0, path);
    strcpy(request.ifr_name, "homa0");
    int device = open("/dev/net/tun", O_RDWR | O_NONBLOCK), sets = socket(AF_INET, SOCK_DGRAM, 0);
    need(device >= 0 && sets >= 0 && ioctl(device, TUNSETIFF, &request) == 0, "tun");
    address(&request, ADDRESSES + (uint32_t)number);
    need(ioctl(sets, SIOCSIFADDR, &request) == 0, "address");
    address(&request, 0xffffff00u);
    need(ioctl(sets, SIOCSIFNETMASK, &request) == 0, "mask");
    request.ifr_qlen = QUEUE;
    need(ioctl(sets, SIOCSIFTXQLEN, &request) == 0, "queue");
    request.ifr_flags = IFF_UP | IFF_RUNNING;
    need(ioctl(sets, SIOCSIFFLAGS, &request) == 0, "up");
    need(setns(own, CLONE_NEWNET) == 0, "back");
    close(sets), close(other), close(own);
    return device;
}

/* Takes a packet of IPv4 for one of the hosts. */
static void take(const uint8_t *bytes, size_t len) {
    if (bytes[0] >> 4 != 4 || bytes[16] != 10 || bytes[17] != 77 || bytes[18] != 0 || bytes[19] < 1 || bytes[19] > hosts) return;
    carried++;
    if (any(1000000) < lost_in_a_million) {
        lost++;
        return;
    }
    bool is_twice = any(1000000) < twice_in_a_million;
    twice += is_twice;
    for (int copies = 1 + is_twice; copies; copies--) {
        if (!spares) {
            dropped++;
            return;
        }
        uint32_t it = spare[--spares];
        packets[it].at = nanoseconds() + delay + any(jitter + 1);
        packets[it].to = bytes[19] - 1;
        packets[it].len = len;
        memcpy(packets[it].bytes, bytes, len);
        push(it);
    }
}

static void give_what_is_due(void) {
    uint64_t now = nanoseconds();
    while (queued && packets[heap[0]].at <= now) {
        uint32_t it = pop();
        dropped += write(devices[packets[it].to], packets[it].bytes, packets[it].len) < 0;
        spare[spares++] = it;
    }
}

static void carry(void) {
    static uint8_t room[PACKET];
    struct pollfd waits[MOST_HOSTS];
    uint64_t now = nanoseconds(), left = 1000000000u;
    if (queued) left = packets[heap[0]].at > now ? packets[heap[0]].at - now : 0;
    struct timespec rest = { (time_t)(left / 1000000000u), (long)(left % 1000000000u) };
    for (int i = 0; i < hosts; i++) waits[i] = (struct pollfd){ devices[i], POLLIN, 0 };
    ppoll(waits, (nfds_t)hosts, &rest, NULL);
    give_what_is_due();
    for (int i = 0; i < hosts; i++)
        for (int n = 0; n < BATCH; n++) {
            ssize_t len = read(devices[i], room, sizeof room);
            if (len < 20) break;
            take(room, (size_t)len);
        }
}

int main(int argc, char **argv) {
    struct sigaction action = { .sa_handler = end };
    hosts = argc - 5;
    if (hosts < 1 || hosts > MOST_HOSTS) return 2;
    delay = strtoull(argv[1], NULL, 10) * 1000;
    jitter = strtoull(argv[2], NULL, 10) * 1000;
    lost_in_a_million = (uint64_t)(atof(argv[3]) * 10000);
    twice_in_a_million = (uint64_t)(atof(argv[4]) * 10000);
    sigaction(SIGTERM, &action, NULL);
    packets = malloc(MOST * sizeof *packets);
    need(packets, "memory");
    for (spares = 0; spares < MOST; spares++) spare[spares] = spares;
    for (int i = 0; i < hosts; i++) devices[i] = device_in(argv[5 + i], i + 1);
    printf("up\n");
    fflush(stdout);
    while (!is_over) carry();
    printf("cable: %lu carried, %lu lost, %lu twice, %lu without room\n", carried, lost, twice, dropped);
    free(packets);
    return 0;
}
