/* Producers of a benchmark: each sends the bytes of a file, some times over, to 127.0.0.1.
 *
 *     producer tcp PORT CONNECTIONS TIMES FILE
 *     producer udp PORT RATE TIMES FILE
 *
 * Over TCP each of CONNECTIONS has a thread of its own. Over UDP one socket sends each line of the file in a datagram
 * of its own, RATE of them a second. Prints `from NANOSECONDS` and `to NANOSECONDS`: before the first byte and after
 * the last, by the monotonic clock. */
#define _GNU_SOURCE
#include <arpa/inet.h>
#include <pthread.h>
#include <stdint.h>
#include <stdio.h>
#include <stdlib.h>
#include <string.h>
#include <sys/socket.h>
#include <time.h>
#include <unistd.h>

enum { MOST_CONNECTIONS = 1024, CHUNK = 65536 };

static struct sockaddr_in target;
static char *text;
static size_t length;
static unsigned long times;

static uint64_t now(void) {
    struct timespec t;
    clock_gettime(CLOCK_MONOTONIC, &t);
    return (uint64_t)t.tv_sec * 1000000000u + (uint64_t)t.tv_nsec;
}

static void fail(const char *what) {
    perror(what);
    exit(1);
}

static int connected(int kind) {
    int s = socket(AF_INET, kind, 0);
    if (s < 0 || connect(s, (struct sockaddr *)&target, sizeof target)) fail("producer: connect");
    return s;
}

static void *send_all(void *argument) {
    int s = *(int *)argument;
    for (unsigned long i = 0; i < times; i++)
        for (size_t done = 0; done < length;) {
            size_t left = length - done;
            ssize_t n = write(s, text + done, left < CHUNK ? left : CHUNK);
            if (n <= 0) fail("producer: write");
            done += (size_t)n;
        }
    close(s);
    return NULL;
}

static void send_datagrams(double rate) {
    int s = connected(SOCK_DGRAM);
    uint64_t began = now(), sent = 0;
    for (unsigned long i = 0; i < times; i++)
        for (char *p = text, *end = text + length; p < end; sent++) {
            char *newline = memchr(p, '\n', (size_t)(end - p));
            if (!newline) break;
            while ((double)(now() - began) * rate < (double)sent * 1e9) usleep(50);
            if (send(s, p, (size_t)(newline + 1 - p), 0) < 0) fail("producer: send");
            p = newline + 1;
        }
    close(s);
}

static void read_file(const char *path) {
    FILE *file = fopen(path, "rb");
    if (!file) fail(path);
    fseek(file, 0, SEEK_END);
    length = (size_t)ftell(file);
    rewind(file);
    text = malloc(length);
    if (!text || fread(text, 1, length, file) != length) fail(path);
    fclose(file);
}

int main(int argc, char **argv) {
    if (argc != 6) return 2;
    target = (struct sockaddr_in){.sin_family = AF_INET, .sin_port = htons((uint16_t)atoi(argv[2]))};
    target.sin_addr.s_addr = htonl(INADDR_LOOPBACK);
    times = strtoul(argv[4], NULL, 10);
    read_file(argv[5]);
    uint64_t began;
    if (!strcmp(argv[1], "udp")) {
        began = now();
        send_datagrams(atof(argv[3]));
    } else {
        static int streams[MOST_CONNECTIONS];
        static pthread_t threads[MOST_CONNECTIONS];
        int count = atoi(argv[3]);
        if (count < 1 || count > MOST_CONNECTIONS) return 2;
        for (int i = 0; i < count; i++) streams[i] = connected(SOCK_STREAM);
        began = now();
        for (int i = 0; i < count; i++)
            if (pthread_create(&threads[i], NULL, send_all, &streams[i])) fail("producer: thread");
        for (int i = 0; i < count; i++) pthread_join(threads[i], NULL);
    }
    printf("from %llu\nto %llu\n", (unsigned long long)began, (unsigned long long)now());
    return 0;
}
