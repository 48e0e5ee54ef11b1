/* The three controllers and an interlocking with no C library at all: what the library needs is defined here and in arena.c. */
#include "zendurai.h"

void *memcpy(void *to, const void *from, size_t n);
void *memmove(void *to, const void *from, size_t n);
void *memset(void *to, int c, size_t n);
void _start(void);

void *memcpy(void *to, const void *from, size_t n) {
    uint8_t *a = to;
    const uint8_t *b = from;
    while (n--) *a++ = *b++;
    return to;
}

void *memmove(void *to, const void *from, size_t n) {
    uint8_t *a = to;
    const uint8_t *b = from;
    if (a < b) return memcpy(to, from, n);
    while (n--) a[n] = b[n];
    return to;
}

void *memset(void *to, int c, size_t n) {
    uint8_t *a = to;
    while (n--) *a++ = (uint8_t)c;
    return to;
}

static _Alignas(ZENDURAI_ROOM_ALIGN) uint8_t rooms[3][ZENDURAI_ROOM_BYTES], ixl_room[ZENDURAI_INTERLOCKING_ROOM_BYTES];

static const char layout[] = "section = [\"GA\", \"GB\"]\n"
                             "point = []\n"
                             "border = [\"W\", \"E\"]\n"
                             "joint = [[\"W.end\", \"A.a\"], [\"A.b\", \"B.a\"], [\"B.b\", \"E.end\"]]\n"
                             "track = [{ name = \"A\", section = \"GA\" }, { name = \"B\", section = \"GB\" }]\n"
                             "signal = [{ name = \"S1\", id = 2, at = \"A.b\" }]\n"
                             "detector = [{ name = \"D1\", id = 20, sections = [\"GA\", \"GB\"] }]\n"
                             "[[route]]\n"
                             "name = \"R1\"\n"
                             "entry = \"S1\"\n"
                             "exit = \"E\"\n"
                             "path = [\"B.b\"]\n"
                             "points = {}\n"
                             "approach = [\"GA\"]\n"
                             "[station]\n"
                             "name = \"IXL1\"\n"
                             "id = 1\n";

static int run(void) {
    static const struct zendurai_setup setup = {2, 1, {1, 2, 3, 4}, 1000, 2};
    static const uint8_t name[] = "S1", peer[] = "IXL1", sections[] = "\0\2GA\1\2GP";
    struct zendurai_signal signal = {rooms[0], 0};
    struct zendurai_point point = {rooms[1], 0};
    struct zendurai_detector detector = {rooms[2], 0};
    struct zendurai_lamp lamp;
    struct zendurai_drive drive;
    uint8_t out[ZENDURAI_DATAGRAM_BYTES];
    size_t size;
    if (zendurai_signal_start(&signal, sizeof rooms[0], &setup, name, 2, peer, 4, 0)) return 1;
    if (zendurai_point_start(&point, sizeof rooms[1], &setup, name, 2, peer, 4, ZENDURAI_LEFT, 0)) return 2;
    if (zendurai_detector_start(&detector, sizeof rooms[2], &setup, name, 2, peer, 4, sections, 8, 0)) return 3;
    if (zendurai_signal_tick(&signal, 2000) || zendurai_signal_order(&signal, 2000, &lamp) || lamp.aspect) return 4;
    if (zendurai_point_tick(&point, 2000) || zendurai_point_order(&point, 2000, &drive) || drive.side) return 5;
    if (zendurai_detector_report(&detector, 2000, 0, ZENDURAI_OCCUPIED)) return 6;
    if (zendurai_signal_next(&signal, 2000, out, sizeof out, &size) != ZENDURAI_NOT_DONE) return 7;
    if (zendurai_signal_done(&signal) || zendurai_signal_next(&signal, 2000, out, sizeof out, &size) || size) return 8;
    struct zendurai_interlocking ixl = {ixl_room, 0};
    struct zendurai_cause cause;
    size_t to;
    if (zendurai_interlocking_start(&ixl, sizeof ixl_room, (const uint8_t *)layout, sizeof layout - 1, 1000, 0, out, sizeof out, &size)) return 9;
    if (zendurai_interlocking_tick(&ixl, 6000) || zendurai_interlocking_next(&ixl, 6000, out, sizeof out, &size, &to) || !size || to != 1) return 10;
    if (zendurai_interlocking_resume(&ixl, 6000, &cause) || cause.number) return 11;
    if (zendurai_interlocking_request(&ixl, 6000, 0, &cause) || cause.number != 8) return 12;
    return 0;
}

__attribute__((force_align_arg_pointer)) void _start(void) {
    int status = run();
    __asm__ volatile("syscall" ::"a"(60), "D"(status));
    __builtin_unreachable();
}
