/* Drives a signal, a point and a detector with what a hostile network and a careless driver may bring: datagrams of a record, changed
   ones, random bytes; a clock that stands, jumps and falls; calls left out and in any order. The rooms have canaries on both sides. What
   each answer says is judged by a model of the rules of the loop. usage: embed_hostile RECORD STEPS SEED */
#include "zendurai.h"

#include <stdio.h>
#include <stdlib.h>
#include <string.h>

struct guarded {
    uint8_t before[64];
    _Alignas(ZENDURAI_ROOM_ALIGN) uint8_t room[ZENDURAI_ROOM_BYTES];
    uint8_t after[64];
};
static struct guarded memory[3];
static struct zendurai_signal sig;
static struct zendurai_point point;
static struct zendurai_detector detector;

/* the arena, which is begun anew with each life */
struct answer {
    size_t given;
    void *at;
};
static _Alignas(16) uint8_t arena[3 * 14336];
static size_t used;
struct answer rattle_alloc(size_t size, size_t align) {
    (void)align;
    if (size > sizeof arena - used) return (struct answer){0, arena};
    void *at = arena + used;
    used += (size + 15) & ~(size_t)15;
    return (struct answer){1, at};
}
struct answer rattle_realloc(void *at, size_t old, size_t size, size_t align) {
    (void)at, (void)old, (void)size, (void)align;
    return (struct answer){0, arena};
}
void rattle_dealloc(void *at) { (void)at; }

static uint8_t datagrams[64][256];
static size_t lengths[64], count;
static uint64_t came_at[64], state, first_life;
static uint32_t first_number;

static uint64_t drawn(void) {
    uint64_t z = (state += 0x9e3779b97f4a7c15u);
    z = (z ^ (z >> 30)) * 0xbf58476d1ce4e5b9u;
    z = (z ^ (z >> 27)) * 0x94d049bb133111ebu;
    return z ^ (z >> 31);
}

static void expect(int holds, const char *what) {
    if (holds) return;
    fprintf(stderr, "embed_hostile: %s\n", what);
    abort();
}

static void read_record(const char *name) {
    FILE *record = fopen(name, "r");
    static char text[1024];
    int comes = 0;
    unsigned long long reading;
    if (!record) exit(2);
    while (fgets(text, sizeof text, record) && count < 64)
        if (!strncmp(text, "node ", 5)) first_number = (uint32_t)strtoul(strrchr(text, ' ') + 1, NULL, 10);
        else if (comes && sscanf(text, "at %llu", &reading) == 1) came_at[count - 1] = reading, comes = 0;
        else if (!strncmp(text, "from ", 5)) {
            const char *hex = strrchr(text, ' ') + 1;
            size_t n = 0;
            while (n < 256 && sscanf(hex + 2 * n, "%2hhx", &datagrams[count][n]) == 1) n++;
            lengths[count++] = n;
            comes = 1;
        }
    fclose(record);
    first_life = came_at[0] - 8000;
}

/* ---- one interface to the three kinds */

static int kind;
static uint32_t hear(uint64_t now, const uint8_t *in, size_t n) {
    return kind == 0 ? zendurai_signal_hear(&sig, now, in, n) : kind == 1 ? zendurai_point_hear(&point, now, in, n) : zendurai_detector_hear(&detector, now, in, n);
}
static uint32_t tick(uint64_t now) {
    return kind == 0 ? zendurai_signal_tick(&sig, now) : kind == 1 ? zendurai_point_tick(&point, now) : zendurai_detector_tick(&detector, now);
}
static uint32_t empty(uint64_t now) {
    return kind == 0 ? zendurai_signal_empty(&sig, now) : kind == 1 ? zendurai_point_empty(&point, now) : zendurai_detector_empty(&detector, now);
}
static uint32_t next(uint64_t now, uint8_t *out, size_t room, size_t *size) {
    return kind == 0 ? zendurai_signal_next(&sig, now, out, room, size)
         : kind == 1 ? zendurai_point_next(&point, now, out, room, size) : zendurai_detector_next(&detector, now, out, room, size);
}
static uint32_t done(void) { return kind == 0 ? zendurai_signal_done(&sig) : kind == 1 ? zendurai_point_done(&point) : ZENDURAI_OK; }

/* what is ordered, its moment, and whether it is restrictive */
static uint32_t order(uint64_t now, uint64_t *until, int *restrictive) {
    struct zendurai_lamp lamp = {9, 0};
    struct zendurai_drive drive = {9, 0};
    uint32_t answer = kind == 0 ? zendurai_signal_order(&sig, now, &lamp) : kind == 1 ? zendurai_point_order(&point, now, &drive) : ZENDURAI_OK;
    if (answer == ZENDURAI_OK) expect(kind == 2 || (kind == 0 ? lamp.aspect : drive.side) <= 2, "an order");
    else expect(kind == 0 ? lamp.aspect == 9 : drive.side == 9, "a refused order that wrote");
    *until = kind == 0 ? lamp.until : drive.until;
    *restrictive = kind == 0 ? !lamp.aspect : !drive.side;
    return answer;
}

/* ---- the model of the rules */

static uint64_t begun, since, latest, found_empty;
static int in_force, was_empty, stepped;
static unsigned long refused[16], left, opened;

static uint32_t wants_reading(uint64_t now) { return now < latest ? ZENDURAI_CLOCK : ZENDURAI_OK; }
static uint32_t wants_hearing(uint64_t now) {
    return now < latest ? ZENDURAI_CLOCK : now - begun < 2000 ? ZENDURAI_SOON : was_empty && now - found_empty <= 400 ? ZENDURAI_OK : ZENDURAI_OLD;
}
static uint32_t wants_next(uint64_t now, size_t room) {
    return room < ZENDURAI_DATAGRAM_BYTES ? ZENDURAI_TOO_SMALL
         : now < latest ? ZENDURAI_CLOCK : now - begun < 2000 ? ZENDURAI_SOON : in_force ? ZENDURAI_OK : ZENDURAI_NOT_DONE;
}
static void answered(uint32_t answer, uint32_t wanted, const char *what) {
    expect(answer == wanted, what);
    refused[answer]++;
}
static void steps(uint64_t now) { since = latest = now, in_force = kind == 2, stepped = 1; }

static void starts(uint64_t now) {
    static const struct zendurai_setup other = {11, 1, {0x67452301, 0xefcdab89, 0x98badcfe, 0x10325476}, 0, 2};
    struct zendurai_setup setup = other;
    const uint8_t *own = (const uint8_t *)"A", *peer = (const uint8_t *)"HALDEN", *all = (const uint8_t *)"\0\2GA\1\3G-2";
    setup.first_sequence_number = first_number;
    used = 0;
    struct guarded *m = &memory[kind];
    memset(m, 0xa5, sizeof *m);
    if (kind == 0) {
        sig = (struct zendurai_signal){m->room, 0};
        expect(zendurai_signal_tick(&sig, now) == ZENDURAI_NOT_STARTED, "not started");
        expect(zendurai_signal_start(&sig, ZENDURAI_ROOM_BYTES - 1, &setup, own, 1, peer, 6, now) == ZENDURAI_TOO_SMALL, "too small");
        expect(zendurai_signal_start(&sig, ZENDURAI_ROOM_BYTES, &setup, own, 0, peer, 6, now) == ZENDURAI_NAME, "no name");
        expect(zendurai_signal_start(&sig, ZENDURAI_ROOM_BYTES, &setup, own, 1, (const uint8_t *)"H LDEN", 6, now) == ZENDURAI_NAME, "no name");
        expect(!zendurai_signal_start(&sig, ZENDURAI_ROOM_BYTES, &setup, own, 1, peer, 6, now), "start");
        expect(zendurai_signal_start(&sig, ZENDURAI_ROOM_BYTES, &setup, own, 1, peer, 6, now) == ZENDURAI_STARTED, "a second start");
    } else if (kind == 1) {
        point = (struct zendurai_point){m->room, 0};
        expect(zendurai_point_tick(&point, now) == ZENDURAI_NOT_STARTED, "not started");
        expect(zendurai_point_start(&point, ZENDURAI_ROOM_BYTES, &setup, own, 1, peer, 6, 3, now) == ZENDURAI_VALUE, "no position");
        expect(!zendurai_point_start(&point, ZENDURAI_ROOM_BYTES, &setup, own, 1, peer, 6, ZENDURAI_LEFT, now), "start");
        expect(zendurai_point_start(&point, ZENDURAI_ROOM_BYTES, &setup, own, 1, peer, 6, 0, now) == ZENDURAI_STARTED, "a second start");
    } else {
        detector = (struct zendurai_detector){m->room, 0};
        expect(zendurai_detector_tick(&detector, now) == ZENDURAI_NOT_STARTED, "not started");
        expect(zendurai_detector_start(&detector, ZENDURAI_ROOM_BYTES, &setup, own, 1, peer, 6, all, 8, now) == ZENDURAI_PLACE, "no sections");
        expect(!zendurai_detector_start(&detector, ZENDURAI_ROOM_BYTES, &setup, own, 1, peer, 6, all, 9, now), "start");
        expect(zendurai_detector_start(&detector, ZENDURAI_ROOM_BYTES, &setup, own, 1, peer, 6, all, 9, now) == ZENDURAI_STARTED, "a second start");
    }
    begun = since = latest = now, in_force = was_empty = stepped = 0;
}

static void takes_all(uint64_t now) {
    uint8_t out[ZENDURAI_DATAGRAM_BYTES + 1];
    for (;;) {
        size_t size = 9999, room = drawn() % 16 ? ZENDURAI_DATAGRAM_BYTES : drawn() % ZENDURAI_DATAGRAM_BYTES;
        memset(out, 0x5c, sizeof out);
        uint32_t answer = next(now, out, room, &size);
        answered(answer, wants_next(now, room), "next");
        if (answer == ZENDURAI_TOO_SMALL) continue;
        if (answer) {
            expect(size == 9999 && out[0] == 0x5c, "a refused next that wrote");
            return;
        }
        latest = now;
        expect(out[ZENDURAI_DATAGRAM_BYTES] == 0x5c, "the end of the room");
        if (!size) return;
        expect(36 <= size && size <= 225, "a length");
        expect(stepped && in_force && now - since < 500, "in force and fresh");
        left++;
    }
}

static void hears_some(uint64_t now) {
    uint8_t copy[300];
    size_t n;
    if (drawn() % 8) {
        size_t which = drawn() % count;
        n = lengths[which], memcpy(copy, datagrams[which], n);
        if (n && drawn() % 2) for (uint64_t c = 1 + drawn() % 3; c; c--) copy[drawn() % n] = (uint8_t)drawn();
        if (drawn() % 8 == 0) n = drawn() % (n + 1);
    } else {
        n = drawn() % sizeof copy;
        for (size_t k = 0; k < n; k++) copy[k] = (uint8_t)drawn();
    }
    uint8_t *in = malloc(n ? n : 1); /* of exactly its length, so that a sanitizer sees a read after it */
    memcpy(in, copy, n);
    uint32_t answer = hear(now, in, n);
    free(in);
    answered(answer, wants_hearing(now), "hear");
    if (!answer) steps(now);
}

static void contact(uint64_t now) {
    uint32_t value = (uint32_t)(drawn() % 4), answer, wanted = wants_reading(now);
    size_t place = drawn() % 3;
    if (kind == 0) return;
    if (kind == 1) {
        if (value > 2) wanted = ZENDURAI_VALUE;
        answer = zendurai_point_reached(&point, now, value);
    } else {
        if (value > 1) wanted = ZENDURAI_VALUE;
        if (place > 1) wanted = ZENDURAI_PLACE;
        answer = zendurai_detector_report(&detector, now, place, value);
    }
    answered(answer, wanted, "a contact");
    if (!answer) steps(now);
}

static void orders(uint64_t now) {
    uint64_t until, later;
    int restrictive;
    answered(order(now, &until, &restrictive), kind == 2 ? ZENDURAI_OK : wants_reading(now), "order");
    if (kind == 2 || now < latest) return;
    latest = now;
    expect(restrictive || now < until, "no longer than until");
    opened += !restrictive;
    if (restrictive) return;
    expect(until <= since + 1802 || kind == 1, "no longer than a datagram lives");
    if (drawn() % 64) return;
    expect(!order(until, &later, &restrictive) && restrictive, "restrictive at until");
    latest = until;
}

static void judge_canaries(void) {
    for (int k = 0; k < 3; k++)
        for (size_t i = 0; i < 64; i++) expect(memory[k].before[i] == 0xa5 && memory[k].after[i] == 0xa5, "a canary");
}

int main(int argc, char **argv) {
    if (argc < 4) return 2;
    read_record(argv[1]);
    unsigned long all = strtoul(argv[2], NULL, 10);
    state = strtoull(argv[3], NULL, 10);
    memset(memory, 0xa5, sizeof memory);
    size_t most = 0;
    for (kind = 0; kind < 3; kind++) {
        size_t upto = 0;
        for (unsigned long i = 0; i < all; i++) {
            if (i % 128 == 0) starts(first_life), upto = 0;
            /* the record, as far as it is drawn; a point and a detector refuse it in words of their own */
            if (upto < count && came_at[upto] >= latest && drawn() % 8) {
                uint64_t now = came_at[upto];
                if (drawn() % 16) answered(empty(now), wants_reading(now), "empty"), latest = found_empty = now, was_empty = 1;
                answered(hear(now, datagrams[upto], lengths[upto]), wants_hearing(now), "the record");
                if (wants_hearing(now) == ZENDURAI_OK) steps(now);
                upto++;
                orders(latest);
                if (drawn() % 8) expect(!done(), "done"), in_force |= kind != 2;
                takes_all(latest);
                continue;
            }
            uint64_t chance = drawn() % 16;
            uint64_t now = chance == 0 ? latest + drawn() % 3000 : chance == 1 ? latest - drawn() % 100 : latest + drawn() % 3;
            switch (drawn() % 8) {
            case 0: answered(tick(now), wants_reading(now), "tick"); if (now >= latest) steps(now); break;
            case 1: answered(empty(now), wants_reading(now), "empty"); if (now >= latest) latest = found_empty = now, was_empty = 1; break;
            case 2: orders(now); break;
            case 3: expect(!done(), "done"); in_force |= kind != 2; break;
            case 4: takes_all(now); break;
            case 5: contact(now); break;
            default: hears_some(now); break;
            }
        }
        for (size_t i = 0; i < ZENDURAI_ROOM_BYTES; i++) if (memory[kind].room[i] != 0xa5 && i >= most) most = i + 1;
    }
    judge_canaries();
    printf("%lu steps of each kind: %lu datagrams left, %lu orders not restrictive; refused %lu by the clock, %lu too soon, %lu too old, %lu not done; %zu bytes of a room used\n",
           all, left, opened, refused[ZENDURAI_CLOCK], refused[ZENDURAI_SOON], refused[ZENDURAI_OLD], refused[ZENDURAI_NOT_DONE], most);
    return 0;
}
