/* A point with a motor on the terminal, over UDP in one network or two: P1 of examples/small.toml. A turn takes 2 s. It
   begins at the left, or where the variable LIES says: neither, left or right.
   usage: point NAME ID STATION STATION-ID OWN-PORT PARTNER-ADDRESS PARTNER-PORT [OWN-PORT PARTNER-ADDRESS PARTNER-PORT] */
#include "udp.h"
#include "zendurai.h"

static _Alignas(ZENDURAI_ROOM_ALIGN) uint8_t room[ZENDURAI_ROOM_BYTES];
static struct zendurai_point point = {room, 0};

/* ---- the motor and the contacts: in a real unit a relay with a timer of the hardware, and contacts that bounce no more */

static const char *const sides[] = {"neither", "left", "right"};
static struct zendurai_drive drive;              /* what was ordered */
static uint32_t lies = ZENDURAI_LEFT, turns_to; /* where it lies, and to where it turns */
static uint64_t arrives;

/* The motor is on at this reading: from `until` on it is off. */
static uint32_t driven(uint64_t now) { return now < drive.until ? drive.side : ZENDURAI_NEITHER; }

/* Where the contacts tell that the point lies: it leaves its side as the motor is switched on, and arrives 2 s later. */
static uint32_t contacts(uint64_t now) {
    uint32_t side = driven(now);
    if (side != turns_to) turns_to = side, arrives = now + 2000;
    if (side && side != lies) return now >= arrives ? side : (uint32_t)ZENDURAI_NEITHER;
    return lies;
}

/* ---- the loop */

static void after_step(uint64_t now) {
    struct zendurai_drive ordered;
    uint8_t out[ZENDURAI_DATAGRAM_BYTES];
    size_t size;
    if (zendurai_point_order(&point, now, &ordered) != ZENDURAI_OK) return;
    if (ordered.side != drive.side) printf("%llu driven %s\n", (unsigned long long)now, sides[ordered.side]), fflush(stdout);
    drive = ordered;
    zendurai_point_done(&point);
    while (zendurai_point_next(&point, clock_ms(), out, sizeof out, &size) == ZENDURAI_OK && size) send_to(0, out, size);
}

static void hear_all(void) {
    uint8_t in[512];
    for (;;) {
        uint64_t before = clock_ms();
        size_t size = receive(in, sizeof in);
        if (!size) {
            zendurai_point_empty(&point, before);
            return;
        }
        uint64_t now = clock_ms();
        if (zendurai_point_hear(&point, now, in, size) == ZENDURAI_OK) after_step(now);
    }
}

int main(int argc, char **argv) {
    const char *begins = getenv("LIES");
    if (argc != 8 && argc != 11) return fprintf(stderr, "usage: point NAME ID STATION STATION-ID OWN-PORT PARTNER-ADDRESS PARTNER-PORT ..\n"), 2;
    for (uint32_t side = 0; begins && side < 3; side++) if (!strcmp(begins, sides[side])) lies = side;
    open_networks(argc - 5, argv + 5);
    struct zendurai_setup setup = {(uint32_t)atoi(argv[2]), (uint32_t)atoi(argv[4]), {0x67452301, 0xefcdab89, 0x98badcfe, 0x10325476},
                                   (uint32_t)time(NULL), 1};
    uint32_t answer = zendurai_point_start(&point, sizeof room, &setup, (const uint8_t *)argv[1], strlen(argv[1]),
                                           (const uint8_t *)argv[3], strlen(argv[3]), lies, clock_ms());
    if (answer) return fprintf(stderr, "no start: %u\n", (unsigned)answer), 1;
    for (;;) {
        poll(sockets, networks, 10);
        hear_all();
        uint32_t now_lies = contacts(clock_ms());
        uint64_t now = clock_ms();
        if (now_lies != lies && zendurai_point_reached(&point, now, now_lies) == ZENDURAI_OK) {
            lies = now_lies;
            printf("%llu lies %s\n", (unsigned long long)now, sides[lies]), fflush(stdout);
            after_step(now);
        }
        now = clock_ms();
        if (zendurai_point_tick(&point, now) == ZENDURAI_OK) after_step(now);
    }
}
