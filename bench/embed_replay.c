/* Replays what a process of `station node` recorded through the library: each line of the record has to follow, in its place, from what came
   before it: the same orders, and the same datagrams, byte for byte. A record that ends early is a beginning.
   usage: embed_replay signal|point|detector RECORD OWN PARTNER OWN-NAME PARTNER-NAME VERSION [SECTION ..]
          embed_replay interlocking RECORD LAYOUT */
#include "zendurai.h"

#include <inttypes.h>
#include <stdio.h>
#include <stdlib.h>
#include <string.h>

enum { SIGNAL, POINT, DETECTOR, IXL };
static int kind;
static _Alignas(ZENDURAI_ROOM_ALIGN) uint8_t room[ZENDURAI_INTERLOCKING_ROOM_BYTES];
static struct zendurai_signal sig = {room, 0};
static struct zendurai_point point = {room, 0};
static struct zendurai_detector detector = {room, 0};
static struct zendurai_interlocking ixl = {room, 0};

/* ---- the record, line by line */

static FILE *record;
static char line[2048], after[2048];
static unsigned long line_number;
static unsigned steps, datagrams, orders;

static void ends(void) {
    printf("same: %u steps, %u datagrams, %u orders\n", steps, datagrams, orders);
    exit(0);
}
static void read_one(char *into) {
    into[0] = 0;
    if (!fgets(into, sizeof line, record)) return;
    if (!strchr(into, '\n')) into[0] = 0; /* a line that isn't whole is none */
    into[strcspn(into, "\n")] = 0;
}
/* The next line, which is there; `after` is the one after it. What tells of the process itself is no part of the replay. */
static void go_on(void) {
    do {
        strcpy(line, after), line_number++;
        read_one(after);
    } while (!strncmp(line, "complains ", 10) || !strncmp(line, "throws ", 7) || (kind == IXL && (!strncmp(line, "writes ", 7) || !strcmp(line, "listens"))));
}
static void differs(const char *wanted) {
    fprintf(stderr, "line %lu: %s\n  here: %s\n", line_number, line, wanted);
    exit(1);
}
static int begins(const char *word) { return !strncmp(line, word, strlen(word)); }
static uint64_t reading(void) {
    uint64_t now;
    if (!line[0] || !strcmp(line, "closed")) ends(); /* its lines ended, and so does the process */
    if (sscanf(line, "at %" SCNu64, &now) != 1) differs("a reading");
    go_on();
    return now;
}

/* ---- what was handed out waits for its order, as it does there */

struct waiting {
    uint64_t behind, since;
    char text[640];
};
static struct waiting queue[4096];
static size_t first, count;
static uint64_t written, in_force, begun;
static char order[64];

static const char *receiver(size_t to) {
    static char name[24];
    size_t size = 0;
    if (zendurai_interlocking_name(&ixl, ZENDURAI_KIND_NODE, to, (uint8_t *)name, 20, &size)) differs("a datagram to no node");
    name[size] = 0;
    return name;
}

static void takes_all(uint64_t now, const char *partner) {
    uint8_t out[ZENDURAI_DATAGRAM_BYTES];
    size_t size = 0, to = 0;
    for (;;) {
        uint32_t answer = kind == SIGNAL ? zendurai_signal_next(&sig, now, out, sizeof out, &size)
                        : kind == POINT ? zendurai_point_next(&point, now, out, sizeof out, &size)
                        : kind == DETECTOR ? zendurai_detector_next(&detector, now, out, sizeof out, &size)
                        : zendurai_interlocking_next(&ixl, now, out, sizeof out, &size, &to);
        if (answer == ZENDURAI_SOON || (!answer && !size)) return;
        if (answer || count == 4096) differs("no datagrams");
        struct waiting *it = &queue[count++];
        *it = (struct waiting){written, now, ""};
        char *at = it->text + sprintf(it->text, "sends %s ", kind == IXL ? receiver(to) : partner);
        for (size_t i = 0; i < size; i++) at += sprintf(at, "%02x", out[i]);
    }
}

/* What needn't wait any more leaves, at a reading of its own; what waited for 500 ms is dropped. */
static void release(uint64_t now) {
    if (kind == IXL && now - begun < 2000) { /* it sends nothing here yet */
        if (begins("at ") && !strncmp(after, "sends ", 6)) for (go_on(); begins("sends ");) go_on();
        return;
    }
    if (first == count) return;
    now = reading();
    for (; first < count; first++) {
        const struct waiting *it = &queue[first];
        int fresh = now < it->since || now - it->since < 500;
        if (fresh && it->behind > in_force) return;
        if (!fresh) continue;
        if (!line[0]) ends();
        if (strcmp(line, it->text)) differs(it->text);
        datagrams++;
        go_on();
    }
    first = count = 0;
}

static void ordered(uint64_t now, char *text, size_t size) {
    static const char *const aspects[] = {"stop", "proceed", "slow"}, *const sides[] = {"none", "left", "right"};
    struct zendurai_lamp lamp = {0, 0};
    struct zendurai_drive drive = {0, 0};
    uint32_t answer = kind == SIGNAL ? zendurai_signal_order(&sig, now, &lamp) | zendurai_signal_done(&sig)
                                     : zendurai_point_order(&point, now, &drive) | zendurai_point_done(&point);
    uint64_t until = kind == SIGNAL ? lamp.until : drive.until;
    int n = snprintf(text, size, "%s %s", kind == SIGNAL ? "show" : "drive", kind == SIGNAL ? aspects[lamp.aspect] : sides[drive.side]);
    if (answer) differs("no order");
    if (lamp.aspect || drive.side) snprintf(text + n, size - (size_t)n, " until %" PRIu64, until);
}

static void after_step(uint64_t now, const char *partner) {
    char text[64], wanted[128];
    steps++;
    if (kind == SIGNAL || kind == POINT) {
        ordered(now, text, sizeof text);
        if (strcmp(text, order)) {
            if (!line[0]) ends();
            snprintf(wanted, sizeof wanted, "writes %" PRIu64 " at %" PRIu64 " %s", ++written, now, text);
            if (strcmp(line, wanted)) differs(wanted);
            strcpy(order, text), orders++;
            go_on();
        }
    }
    takes_all(now, partner);
    release(now);
}

/* ---- what comes */

static const char *sections[16];
static int section_count, told[16];
static uint32_t position, states[16];

/* The kind and the place of what a name says, among kinds in the order in which names are looked up; what none says is the route after the
   last. */
static void find(const char *name, uint32_t *things, size_t *place) {
    static const uint32_t kinds[] = {ZENDURAI_KIND_SECTION, ZENDURAI_KIND_POINT, ZENDURAI_KIND_SIGNAL, ZENDURAI_KIND_ROUTE};
    for (int i = 0; i < 4; i++)
        if (!zendurai_interlocking_place(&ixl, *things = kinds[i], (const uint8_t *)name, strlen(name), place)) return;
    zendurai_interlocking_count(&ixl, *things, place);
}

/* The place of a route or a point, or that after the last. */
static size_t place_of(uint32_t things, const char *name) {
    size_t place = 0;
    if (zendurai_interlocking_place(&ixl, things, (const uint8_t *)name, strlen(name), &place)) zendurai_interlocking_count(&ixl, things, &place);
    return place;
}

/* An operator's line. It answers whether it made a step. */
static int obeys(const char *text, const char *word, const char *what, uint64_t now) {
    struct zendurai_cause cause;
    uint32_t things = ZENDURAI_KIND_POINT, side = ZENDURAI_NEITHER;
    char at[8] = "";
    size_t place = 0;
    if (sscanf(text, "hears %*s %*s %7s", at) == 1) side = strcmp(at, "left") ? ZENDURAI_RIGHT : ZENDURAI_LEFT;
    if (!strcmp(word, "resume")) return !zendurai_interlocking_resume(&ixl, now, &cause);
    if (!strcmp(word, "set")) return !zendurai_interlocking_request(&ixl, now, place_of(ZENDURAI_KIND_ROUTE, what), &cause);
    if (!strcmp(word, "cancel")) return !zendurai_interlocking_cancel(&ixl, now, place_of(ZENDURAI_KIND_ROUTE, what), &cause);
    if (!strcmp(word, "release")) return !zendurai_interlocking_release(&ixl, now, place_of(ZENDURAI_KIND_ROUTE, what), &cause);
    if (!strcmp(word, "move")) return !zendurai_interlocking_move(&ixl, now, place_of(ZENDURAI_KIND_POINT, what), side, &cause);
    if (side) place = place_of(ZENDURAI_KIND_POINT, what);
    else find(what, &things, &place);
    if (!strcmp(word, "close")) return !zendurai_interlocking_close(&ixl, now, things, place, side, &cause);
    return !strcmp(word, "open") && !zendurai_interlocking_open(&ixl, now, things, place, side, &cause);
}

/* A line that the process heard, before its first reading and after it. It answers whether it made a step. */
static int hears_line(const char *text, uint64_t now, int started) {
    static const char *const positions[] = {"none", "left", "right"};
    char word[16] = "", what[32] = "";
    if (sscanf(text, "hears done %" SCNu64, &in_force) == 1) return 0;
    sscanf(text, "hears %15s %31s", word, what);
    if (kind == POINT && !strcmp(word, "reach"))
        for (uint32_t p = 0; p < 3; p++)
            if (!strcmp(what, positions[p])) {
                if (!started) return position = p, told[0] = 1, 0;
                if (p == position) return 0; /* told again: it is dropped */
                return !zendurai_point_reached(&point, now, position = p);
            }
    for (int i = 0; kind == DETECTOR && i < section_count; i++)
        if (!strcmp(what, sections[i])) {
            uint32_t state = !strcmp(word, "occupy");
            if (!started) return states[i] = state, told[i] = 1, 0;
            if (state == states[i]) return 0;
            return !zendurai_detector_report(&detector, now, (size_t)i, states[i] = state);
        }
    return kind == IXL && obeys(text, word, what, now);
}

static int hears_datagram(const char *hex, uint64_t now) {
    uint8_t bytes[512];
    size_t n = 0;
    while (n < sizeof bytes && sscanf(hex + 2 * n, "%2hhx", &bytes[n]) == 1) n++;
    /* the socket of the process was found empty in its last round */
    uint32_t answer = kind == SIGNAL ? zendurai_signal_empty(&sig, now) : kind == POINT ? zendurai_point_empty(&point, now)
                    : kind == DETECTOR ? zendurai_detector_empty(&detector, now) : zendurai_interlocking_empty(&ixl, now);
    if (!answer) answer = kind == SIGNAL ? zendurai_signal_hear(&sig, now, bytes, n) : kind == POINT ? zendurai_point_hear(&point, now, bytes, n)
                        : kind == DETECTOR ? zendurai_detector_hear(&detector, now, bytes, n) : zendurai_interlocking_hear(&ixl, now, bytes, n);
    if (answer && answer != ZENDURAI_SOON) differs("it isn't heard"); /* too soon for the library, and its link takes none then either */
    return !answer;
}

static void starts(uint64_t now, char **words, uint32_t number) {
    struct zendurai_setup setup = {(uint32_t)atoi(words[0]), (uint32_t)atoi(words[1]), {0x67452301, 0xefcdab89, 0x98badcfe, 0x10325476}, number, 1};
    const uint8_t *own = (const uint8_t *)words[2], *peer = (const uint8_t *)words[3];
    size_t own_length = strlen(words[2]), peer_length = strlen(words[3]), size = 0;
    uint8_t all[16 * 22];
    setup.version = (uint8_t)atoi(words[4]);
    for (int i = 0; i < section_count; i++) {
        size_t n = strlen(sections[i]);
        all[size++] = (uint8_t)states[i], all[size++] = (uint8_t)n;
        memcpy(all + size, sections[i], n), size += n;
    }
    uint32_t answer = kind == SIGNAL ? zendurai_signal_start(&sig, sizeof room, &setup, own, own_length, peer, peer_length, now)
                    : kind == POINT ? zendurai_point_start(&point, sizeof room, &setup, own, own_length, peer, peer_length, position, now)
                    : zendurai_detector_start(&detector, sizeof room, &setup, own, own_length, peer, peer_length, all, size, now);
    if (answer) differs("no start");
}

static void starts_interlocking(uint64_t now, const char *layout, uint32_t number) {
    static uint8_t text[1 << 20], why[80];
    size_t size = 0;
    FILE *file = fopen(layout, "rb");
    if (!file) perror(layout), exit(2);
    size_t length = fread(text, 1, sizeof text, file);
    fclose(file);
    if (zendurai_interlocking_start(&ixl, sizeof room, text, length, number, now, why, sizeof why, &size)) differs("no start");
}

/* What rests is written behind the first step of its process. */
static void rests_written(void) {
    if (begins("writes ")) written = 1, go_on();
}

/* Before its controller is made a process writes what rests, and waits for its `done` and for its contacts. */
static uint64_t opens(void) {
    const char *rests = kind == SIGNAL ? "show stop" : "drive none";
    strcpy(order, rests);
    for (;;) {
        reading(); /* a round begins */
        while (begins("hears ") || begins("from ")) {
            char heard[2048];
            strcpy(heard, line), go_on(), hears_line(heard, reading(), 0);
            rests_written();
        }
        reading(); /* it ends */
        rests_written();
        int all = kind == DETECTOR ? 1 : in_force >= 1;
        for (int i = 0; i < (kind == DETECTOR ? section_count : kind == POINT); i++) all &= told[i];
        if (all) return reading();
    }
}

int main(int argc, char **argv) {
    static const char *const kinds[] = {"signal", "point", "detector", "interlocking"};
    for (kind = 0; argc > 3 && kind < 4 && strcmp(argv[1], kinds[kind]); kind++) continue;
    if (argc < 4 || kind == 4 || (kind != IXL && argc < 8)) return 2;
    record = fopen(argv[2], "r");
    if (!record) return perror(argv[2]), 2;
    for (int i = 8; i < argc && section_count < 16; i++) sections[section_count++] = argv[i];
    read_one(after), go_on();
    uint32_t number = 0;
    if (sscanf(line, "node %*s first %" SCNu32, &number) != 1) differs("a head");
    go_on();
    reading(); /* the process begins */
    const char *partner = kind == IXL ? NULL : argv[6];
    if (kind == IXL) starts_interlocking(begun = reading(), argv[3], number);
    else starts(begun = opens(), argv + 3, number);
    for (;;) {
        char heard[2048];
        uint64_t now = reading(); /* a round begins */
        while (begins("hears ") || begins("from ")) {
            strcpy(heard, line), go_on(), now = reading();
            if (heard[0] == 'h' ? hears_line(heard, now, 1) : hears_datagram(strrchr(heard, ' ') + 1, now)) after_step(now, partner);
            else release(now);
        }
        now = reading();
        if (kind == SIGNAL ? zendurai_signal_tick(&sig, now) : kind == POINT ? zendurai_point_tick(&point, now)
            : kind == DETECTOR ? zendurai_detector_tick(&detector, now) : zendurai_interlocking_tick(&ixl, now)) differs("no tick");
        after_step(now, partner);
    }
}
