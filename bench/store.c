/* Stores of a benchmark: takes connections on some ports of 127.0.0.1 and counts the newlines that come on each.
 *
 *     store EXPECTED PORT ..
 *
 * Prints `ready` once it listens. It ends when EXPECTED newlines have come in all, or when nothing came for two
 * seconds after the first byte, or when its standard input ends, and then prints for each port `PORT newlines bytes`,
 * and last `at NANOSECONDS`: when the last bytes came, by the monotonic clock. A port with `-` before it accepts
 * and never reads, and one with `u` before it takes datagrams in place of connections. */
#define _GNU_SOURCE
#include <arpa/inet.h>
#include <poll.h>
#include <stdint.h>
#include <stdio.h>
#include <stdlib.h>
#include <string.h>
#include <sys/socket.h>
#include <time.h>
#include <unistd.h>

enum { MOST_PORTS = 64, MOST_STREAMS = 1024, BLOCK = 1 << 20, PATIENCE_MS = 2000 };

static struct { int port, reads; uint64_t lines, bytes; } ports[MOST_PORTS];
static struct pollfd watched[1 + MOST_PORTS + MOST_STREAMS];
static int owner[1 + MOST_PORTS + MOST_STREAMS];
static char block[BLOCK];

static uint64_t now(void) {
    struct timespec t;
    clock_gettime(CLOCK_MONOTONIC, &t);
    return (uint64_t)t.tv_sec * 1000000000u + (uint64_t)t.tv_nsec;
}

static int bound(int kind, int port) {
    int s = socket(AF_INET, kind, 0), on = 1;
    struct sockaddr_in a = {.sin_family = AF_INET, .sin_port = htons((uint16_t)port)};
    a.sin_addr.s_addr = htonl(INADDR_LOOPBACK);
    setsockopt(s, SOL_SOCKET, SO_REUSEADDR, &on, sizeof on);
    if (bind(s, (struct sockaddr *)&a, sizeof a) || (kind == SOCK_STREAM && listen(s, 128))) {
        perror("store");
        exit(1);
    }
    return s;
}

static uint64_t newlines(const char *p, size_t n) {
    uint64_t count = 0;
    for (const char *end = p + n; (p = memchr(p, '\n', (size_t)(end - p))); p++) count++;
    return count;
}

int main(int argc, char **argv) {
    uint64_t expected = argc > 1 ? strtoull(argv[1], NULL, 10) : 0, lines = 0, last = 0;
    int count = argc - 2, used = 1 + count;
    if (count < 1 || count > MOST_PORTS) return 2;
    watched[0] = (struct pollfd){.fd = 0, .events = POLLIN};
    for (int i = 0; i < count; i++) {
        const char *word = argv[i + 2];
        int datagrams = *word == 'u';
        ports[i].reads = *word != '-';
        ports[i].port = atoi(word + (datagrams || !ports[i].reads));
        int s = bound(datagrams ? SOCK_DGRAM : SOCK_STREAM, ports[i].port);
        watched[1 + i] = (struct pollfd){.fd = datagrams ? -1 : s, .events = POLLIN};
        if (!datagrams) continue;
        watched[used] = (struct pollfd){.fd = s, .events = POLLIN};
        owner[used++] = i;
    }
    puts("ready");
    fflush(stdout);
    while (lines < expected) {
        int found = poll(watched, (nfds_t)used, last ? PATIENCE_MS : -1);
        if (found <= 0 || watched[0].revents) break;
        for (int i = 1; i <= count; i++) {
            if (!watched[i].revents || used == 1 + MOST_PORTS + MOST_STREAMS) continue;
            int stream = accept(watched[i].fd, NULL, NULL);
            if (stream < 0) continue;
            watched[used] = (struct pollfd){.fd = stream, .events = ports[i - 1].reads ? POLLIN : 0};
            owner[used++] = i - 1;
        }
        for (int i = 1 + count; i < used; i++) {
            if (!(watched[i].revents & POLLIN)) continue;
            ssize_t n = read(watched[i].fd, block, BLOCK);
            if (n <= 0) {
                close(watched[i].fd);
                watched[i].fd = -1;
                continue;
            }
            uint64_t more = newlines(block, (size_t)n);
            last = now();
            lines += more;
            ports[owner[i]].lines += more;
            ports[owner[i]].bytes += (uint64_t)n;
        }
    }
    for (int i = 0; i < count; i++)
        printf("%d %llu %llu\n", ports[i].port, (unsigned long long)ports[i].lines, (unsigned long long)ports[i].bytes);
    printf("at %llu\n", (unsigned long long)last);
    return 0;
}
