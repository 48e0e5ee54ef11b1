/* What the examples share: a clock, and a socket that hears partners. A controller has one partner, and may see it in a second network, by
   a socket of its own. Others than partners aren't heard. */
#ifndef UDP_H
#define UDP_H
#define _POSIX_C_SOURCE 200809L
#include <arpa/inet.h>
#include <fcntl.h>
#include <poll.h>
#include <stdint.h>
#include <stdio.h>
#include <stdlib.h>
#include <string.h>
#include <sys/socket.h>
#include <time.h>
#include <unistd.h>

enum { PARTNERS = 81, NETWORKS = 2 };
static struct sockaddr_in partners[NETWORKS][PARTNERS];
static size_t partner_count;
static struct pollfd sockets[NETWORKS];
static nfds_t networks;

static uint64_t clock_ms(void) {
    struct timespec t;
    clock_gettime(CLOCK_MONOTONIC, &t);
    return (uint64_t)t.tv_sec * 1000 + (uint64_t)t.tv_nsec / 1000000;
}

/* A socket in one more network. */
static void open_udp(const char *own_port) {
    struct sockaddr_in own = {.sin_family = AF_INET, .sin_port = htons((uint16_t)atoi(own_port))};
    int udp = socket(AF_INET, SOCK_DGRAM, 0);
    if (udp < 0 || bind(udp, (struct sockaddr *)&own, sizeof own) || fcntl(udp, F_SETFL, O_NONBLOCK)) perror("udp"), exit(1);
    sockets[networks++] = (struct pollfd){udp, POLLIN, 0};
}

/* Where a partner is in the last network. */
static void add_partner(size_t number, const char *address, const char *port) {
    struct sockaddr_in *it = &partners[networks - 1][number];
    *it = (struct sockaddr_in){.sin_family = AF_INET, .sin_port = htons((uint16_t)atoi(port))};
    inet_pton(AF_INET, address, &it->sin_addr);
    if (number >= partner_count) partner_count = number + 1;
}

/* The words of a controller: OWN-PORT PARTNER-ADDRESS PARTNER-PORT, and again for a second network. */
static inline void open_networks(int words, char **word) {
    for (int i = 0; i + 2 < words && networks < NETWORKS; i += 3) open_udp(word[i]), add_partner(0, word[i + 1], word[i + 2]);
}

static int is_partner(size_t network, const struct sockaddr_in *from) {
    for (size_t i = 0; i < partner_count; i++)
        if (from->sin_port == partners[network][i].sin_port && from->sin_addr.s_addr == partners[network][i].sin_addr.s_addr) return 1;
    return 0;
}

/* How many bytes came from a partner; 0 where nothing waits in any network. */
static size_t receive(uint8_t *in, size_t room) {
    for (size_t network = 0; network < networks; network++)
        for (;;) {
            struct sockaddr_in from;
            socklen_t size = sizeof from;
            ssize_t n = recvfrom(sockets[network].fd, in, room, 0, (struct sockaddr *)&from, &size);
            if (n < 0) break;
            if (n > 0 && is_partner(network, &from)) return (size_t)n;
        }
    return 0;
}

static void send_to(size_t number, const uint8_t *out, size_t size) {
    for (size_t network = 0; network < networks; network++)
        (void)!sendto(sockets[network].fd, out, size, 0, (struct sockaddr *)&partners[network][number], sizeof partners[network][number]);
}

/* A line of standard input, if one has come whole. */
static inline char *read_line(void) {
    static char line[128];
    static size_t length;
    char byte;
    while (read(0, &byte, 1) == 1) {
        if (byte != '\n' && length < sizeof line - 1) {
            line[length++] = byte;
            continue;
        }
        line[length] = 0, length = 0;
        return line;
    }
    return NULL;
}
#endif
