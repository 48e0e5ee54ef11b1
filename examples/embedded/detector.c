/* A detector whose contacts are lines on standard input, over UDP: D1 of examples/small.toml. A line has the place of a section and
   its state: `0 1` says that the first one is occupied, `0 0` that it is clear. All begin clear.
   usage: detector NAME ID STATION STATION-ID OWN-PORT PARTNER-ADDRESS PARTNER-PORT SECTION .. */
#include "udp.h"
#include "zendurai.h"

static _Alignas(ZENDURAI_ROOM_ALIGN) uint8_t room[ZENDURAI_ROOM_BYTES];
static struct zendurai_detector detector = {room, 0};

static void send_all(void) {
    uint8_t out[ZENDURAI_DATAGRAM_BYTES];
    size_t size;
    while (zendurai_detector_next(&detector, clock_ms(), out, sizeof out, &size) == ZENDURAI_OK && size) send_to(0, out, size);
}

static void hear_all(void) {
    uint8_t in[512];
    for (;;) {
        uint64_t before = clock_ms();
        size_t size = receive(in, sizeof in);
        if (!size) {
            zendurai_detector_empty(&detector, before);
            return;
        }
        if (zendurai_detector_hear(&detector, clock_ms(), in, size) == ZENDURAI_OK) send_all();
    }
}

static void read_contacts(void) {
    for (char *line; (line = read_line());) {
        unsigned place, state;
        if (sscanf(line, "%u %u", &place, &state) != 2) continue;
        uint32_t answer = zendurai_detector_report(&detector, clock_ms(), place, state);
        printf("section %u %s: %u\n", place, state ? "occupied" : "clear", (unsigned)answer), fflush(stdout);
        if (answer == ZENDURAI_OK) send_all();
    }
}

int main(int argc, char **argv) {
    if (argc < 9) return fprintf(stderr, "usage: detector NAME ID STATION STATION-ID OWN-PORT PARTNER-ADDRESS PARTNER-PORT SECTION ..\n"), 2;
    uint8_t sections[16 * 22];
    size_t size = 0;
    for (int i = 8; i < argc && i < 24; i++) { /* clear; so many bytes; the name */
        size_t length = strlen(argv[i]);
        if (length > 20) return 2;
        sections[size++] = ZENDURAI_CLEAR;
        sections[size++] = (uint8_t)length;
        memcpy(sections + size, argv[i], length);
        size += length;
    }
    open_networks(3, argv + 5);
    fcntl(0, F_SETFL, O_NONBLOCK);
    struct zendurai_setup setup = {(uint32_t)atoi(argv[2]), (uint32_t)atoi(argv[4]), {0x67452301, 0xefcdab89, 0x98badcfe, 0x10325476},
                                   (uint32_t)time(NULL), 1};
    uint32_t answer = zendurai_detector_start(&detector, sizeof room, &setup, (const uint8_t *)argv[1], strlen(argv[1]),
                                              (const uint8_t *)argv[3], strlen(argv[3]), sections, size, clock_ms());
    if (answer) return fprintf(stderr, "no start: %u\n", (unsigned)answer), 1;
    for (;;) {
        poll(sockets, networks, 10);
        hear_all();
        read_contacts();
        if (zendurai_detector_tick(&detector, clock_ms()) == ZENDURAI_OK) send_all();
    }
}
