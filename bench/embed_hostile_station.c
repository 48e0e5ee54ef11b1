/* The small station in one process, each node by the library: an interlocking, three signals, a point and a detector, over a network that
   loses, delays, repeats, reorders and damages datagrams. Nodes are stopped and restarted, each with its own clock; an operator and trains
   do what they like; and the interlocking is called with what a careless driver may bring. Judged are its answers, by a model of the rules
   of the loop; that nothing is heard which was made more than 2000 ms before; canaries round the rooms; and after each step the lamps
   and the point, by the layout alone. With STACK defined each call of the interlocking has a painted stack of its own, and the deepest of
   each are told. usage: embed_hostile_station LAYOUT STEPS SEED [MOST-STACK] */
#define _DEFAULT_SOURCE
#include "zendurai.h"

#include <stdio.h>
#include <stdlib.h>
#include <string.h>

enum { IXL, S1, S3, S4, P1, D1, NODES };
static const char *const names[NODES] = {"IXL1", "S1", "S3", "S4", "P1", "D1"};
static const uint32_t ids[NODES] = {1, 2, 3, 4, 10, 20};
static const uint8_t *bytes_of(const char *text) { return (const uint8_t *)text; }

static void expect(int holds, const char *what) {
    if (holds) return;
    fprintf(stderr, "embed_hostile_station: %s\n", what);
    abort();
}

static uint64_t state;
static uint64_t drawn(void) {
    uint64_t z = (state += 0x9e3779b97f4a7c15u);
    z = (z ^ (z >> 30)) * 0xbf58476d1ce4e5b9u;
    z = (z ^ (z >> 27)) * 0x94d049bb133111ebu;
    return z ^ (z >> 31);
}
static int one_in(uint64_t n) { return drawn() % n == 0; }

/* ---- memory: an arena for each node, begun anew with each life */

struct answer {
    size_t given;
    void *at;
};
static _Alignas(16) uint8_t arenas[NODES][1 << 22];
static size_t used[NODES], most_used[NODES];
static int taker = -1; /* the node that starts; no other call takes memory */
struct answer rattle_alloc(size_t size, size_t align) {
    (void)align;
    expect(taker >= 0, "memory taken after a start");
    if (size > sizeof arenas[taker] - used[taker]) return (struct answer){0, arenas[taker]};
    void *at = arenas[taker] + used[taker];
    used[taker] += (size + 15) & ~(size_t)15;
    if (used[taker] > most_used[taker]) most_used[taker] = used[taker];
    return (struct answer){1, at};
}
struct answer rattle_realloc(void *at, size_t old, size_t size, size_t align) {
    struct answer moved = rattle_alloc(size, align);
    if (moved.given) memcpy(moved.at, at, old < size ? old : size);
    return moved;
}
void rattle_dealloc(void *at) { (void)at; }

struct guarded {
    uint8_t before[64];
    _Alignas(ZENDURAI_ROOM_ALIGN) uint8_t room[ZENDURAI_INTERLOCKING_ROOM_BYTES];
    uint8_t after[64];
};
static struct guarded memory[NODES];
static struct zendurai_interlocking ixl;
static struct zendurai_signal lamps[S4 + 1];
static struct zendurai_point point;
static struct zendurai_detector detector;
static uint8_t text[1 << 16];
static size_t text_length;

/* ---- the world: true time, each node's clock, and the equipment */

static uint64_t true_now = 100000, offsets[NODES], stopped_until[NODES];
static struct zendurai_lamp shown[S4 + 1];
static struct zendurai_drive drive;
static uint32_t lies = ZENDURAI_LEFT, occupied[4];
static uint64_t clock_of(int node) { return true_now + offsets[node]; }
static uint32_t aspect_at(int node) { return clock_of(node) < shown[node].until ? shown[node].aspect : (uint32_t)ZENDURAI_STOP; }
static uint32_t driven(void) { return clock_of(P1) < drive.until ? drive.side : (uint32_t)ZENDURAI_NEITHER; }

static unsigned long proceeds, seen[8], closed_seen;
static void judge(void) {
    int s1 = aspect_at(S1) != ZENDURAI_STOP, s3 = aspect_at(S3) != ZENDURAI_STOP;
    expect(aspect_at(S4) == ZENDURAI_STOP, "S4 has no route");
    expect(!(s1 && s3), "two routes that conflict");
    expect(!s1 || (lies != ZENDURAI_NEITHER && !driven()), "S1 over a point that moves");
    expect(!s3 || (lies == ZENDURAI_LEFT && !driven()), "S3 over a point that doesn't lie left");
    proceeds += (unsigned long)(s1 + s3);
}

/* ---- the network: what is on its way, and what waits in a socket */

struct datagram {
    int to, in_socket;
    uint64_t made, due;
    size_t size;
    uint8_t bytes[ZENDURAI_DATAGRAM_BYTES];
};
enum { BAG = 512 };
static struct datagram bag[BAG];
static size_t bag_count;
static unsigned lost, repeated, damaged, delay;

static void post(int to, const uint8_t *bytes, size_t size, uint64_t made) {
    for (unsigned copies = 1 + (drawn() % 100 < repeated); copies; copies--) {
        if (bag_count == BAG || drawn() % 100 < lost) continue;
        struct datagram *it = &bag[bag_count++];
        *it = (struct datagram){.to = to, .made = made, .due = true_now + drawn() % (delay + 1), .size = size};
        memcpy(it->bytes, bytes, size);
        if (drawn() % 100 < damaged) it->bytes[drawn() % size] ^= (uint8_t)(1 + drawn() % 255), it->made = true_now;
    }
}

/* The next that waits in a node's socket, in the order in which they came. */
static int receive(int node, struct datagram *it) {
    size_t first = BAG;
    for (size_t i = 0; i < bag_count; i++)
        if (bag[i].to == node && bag[i].due <= true_now && (first == BAG || bag[i].due < bag[first].due)) first = i;
    if (first == BAG) return 0;
    *it = bag[first];
    bag[first] = bag[--bag_count];
    return 1;
}

/* ---- the controllers, whose drivers keep the rules; they may leave out what holds them up alone */

static uint64_t stepped[NODES]; /* the true time of a node's last step */
static int drive_in_force;      /* the order of the point's last step: before that its contacts tell nothing */

static void after_step(int node) {
    uint8_t out[ZENDURAI_DATAGRAM_BYTES];
    size_t size;
    uint64_t now = clock_of(node);
    stepped[node] = true_now;
    if (node == P1) drive_in_force = 0;
    if (one_in(32)) return;
    if (node == P1) drive_in_force = 1;
    if (node <= S4) expect(!zendurai_signal_order(&lamps[node], now, &shown[node]) && !zendurai_signal_done(&lamps[node]), "order");
    else if (node == P1) expect(!zendurai_point_order(&point, now, &drive) && !zendurai_point_done(&point), "order");
    judge();
    for (;;) {
        uint32_t answer = node <= S4 ? zendurai_signal_next(&lamps[node], now, out, sizeof out, &size)
                        : node == P1 ? zendurai_point_next(&point, now, out, sizeof out, &size) : zendurai_detector_next(&detector, now, out, sizeof out, &size);
        if (answer || !size) return;
        post(IXL, out, size, stepped[node]);
    }
}

static void start_controller(int node) {
    static uint32_t first = 1;
    struct zendurai_setup setup = {ids[node], ids[IXL], {0x67452301, 0xefcdab89, 0x98badcfe, 0x10325476}, first += 100000, 1};
    const uint8_t *own = bytes_of(names[node]), *peer = bytes_of(names[IXL]);
    uint8_t sections[] = "\0\2GA\0\2GP\0\2G1\0\2G2";
    uint64_t now = clock_of(node);
    struct guarded *m = &memory[node];
    memset(m, 0xa5, sizeof *m);
    used[node] = 0, taker = node;
    for (int i = 0; i < 4; i++) sections[4 * i] = (uint8_t)occupied[i];
    if (node <= S4) {
        lamps[node] = (struct zendurai_signal){m->room, 0}, shown[node] = (struct zendurai_lamp){0, 0};
        expect(!zendurai_signal_start(&lamps[node], ZENDURAI_ROOM_BYTES, &setup, own, 2, peer, 4, now), "start");
    } else if (node == P1) {
        point = (struct zendurai_point){m->room, 0}, drive = (struct zendurai_drive){0, 0};
        expect(!zendurai_point_start(&point, ZENDURAI_ROOM_BYTES, &setup, own, 2, peer, 4, lies, now), "start");
    } else {
        detector = (struct zendurai_detector){m->room, 0};
        expect(!zendurai_detector_start(&detector, ZENDURAI_ROOM_BYTES, &setup, own, 2, peer, 4, sections, 16, now), "start");
    }
    taker = -1;
}

static void hear_all(int node) {
    struct datagram it;
    for (;;) {
        uint64_t now = clock_of(node);
        if (!receive(node, &it)) {
            node <= S4 ? zendurai_signal_empty(&lamps[node], now) : node == P1 ? zendurai_point_empty(&point, now) : zendurai_detector_empty(&detector, now);
            return;
        }
        uint32_t answer = node <= S4 ? zendurai_signal_hear(&lamps[node], now, it.bytes, it.size)
                        : node == P1 ? zendurai_point_hear(&point, now, it.bytes, it.size) : zendurai_detector_hear(&detector, now, it.bytes, it.size);
        if (answer) continue;
        expect(true_now - it.made <= 2000, "an old datagram was heard");
        after_step(node);
    }
}

static void contacts(int node) {
    uint64_t now = clock_of(node);
    if (node == P1 && drive_in_force && driven() && driven() != lies && one_in(8)) {
        lies = lies == ZENDURAI_NEITHER ? driven() : (uint32_t)ZENDURAI_NEITHER;
        expect(!zendurai_point_reached(&point, now, lies), "reached");
        after_step(node);
    }
    if (node != D1) return;
    size_t section = drawn() % 4;
    if (!one_in(occupied[section] ? 64 : 2048)) return;
    occupied[section] ^= 1;
    expect(!zendurai_detector_report(&detector, now, section, occupied[section]), "report");
    after_step(node);
}

static void controller(int node) {
    if (one_in(100000)) start_controller(node);
    if (one_in(20000)) stopped_until[node] = true_now + drawn() % 3000;
    if (true_now < stopped_until[node]) return;
    hear_all(node);
    contacts(node);
    if (one_in(16)) return;
    uint64_t now = clock_of(node);
    expect(!(node <= S4 ? zendurai_signal_tick(&lamps[node], now) : node == P1 ? zendurai_point_tick(&point, now) : zendurai_detector_tick(&detector, now)), "tick");
    after_step(node);
}

/* ---- the interlocking, and the model of the rules of its loop */

static uint64_t begun, since, latest, found_empty;
static int was_empty, has_stepped;
static unsigned long calls, refused[16], left, causes[16];
static uint8_t shut[4][4][3]; /* what is closed: by kind, place and side, a point's alone */

static void answered(uint32_t answer, uint32_t wanted, const char *what) {
    expect(answer == wanted, what);
    refused[answer]++, calls++;
}

/* its calls that do most, each on a stack of its own where that is measured */
enum { START, HEAR, TICK, COMMAND, NEXT, KINDS };
static struct {
    int kind, command;
    uint32_t things, side;
    uint64_t now;
    const uint8_t *in;
    uint8_t *out;
    size_t length, room, route, *size, *to;
    struct zendurai_cause *cause;
    uint32_t first, answer;
} asked;

/* what an operator wants, by a number below COMMANDS */
enum { RESUME, CANCEL, RELEASE, MOVE, CLOSE, OPEN, REQUEST, COMMANDS = 12 };
static uint32_t commanded(void) {
    switch (asked.command) {
    case RESUME: return zendurai_interlocking_resume(&ixl, asked.now, asked.cause);
    case CANCEL: return zendurai_interlocking_cancel(&ixl, asked.now, asked.route, asked.cause);
    case RELEASE: return zendurai_interlocking_release(&ixl, asked.now, asked.route, asked.cause);
    case MOVE: return zendurai_interlocking_move(&ixl, asked.now, asked.route, asked.side, asked.cause);
    case CLOSE: return zendurai_interlocking_close(&ixl, asked.now, asked.things, asked.route, asked.side, asked.cause);
    case OPEN: return zendurai_interlocking_open(&ixl, asked.now, asked.things, asked.route, asked.side, asked.cause);
    default: return zendurai_interlocking_request(&ixl, asked.now, asked.route, asked.cause);
    }
}

static void asks(void) {
    switch (asked.kind) {
    case START: asked.answer = zendurai_interlocking_start(&ixl, sizeof memory[IXL].room, asked.in, asked.length, asked.first, asked.now, asked.out, asked.room, asked.size); break;
    case HEAR: asked.answer = zendurai_interlocking_hear(&ixl, asked.now, asked.in, asked.length); break;
    case TICK: asked.answer = zendurai_interlocking_tick(&ixl, asked.now); break;
    case NEXT: asked.answer = zendurai_interlocking_next(&ixl, asked.now, asked.out, asked.room, asked.size, asked.to); break;
    default:
        asked.answer = commanded();
    }
}

#ifdef STACK
#include <ucontext.h>
static size_t deepest[KINDS];
static uint32_t call(void) {
    static _Alignas(16) uint8_t stack[128 * 1024];
    static ucontext_t here, there;
    memset(stack, 0x5a, sizeof stack);
    getcontext(&there);
    there.uc_stack.ss_sp = stack, there.uc_stack.ss_size = sizeof stack, there.uc_link = &here;
    makecontext(&there, asks, 0);
    swapcontext(&here, &there);
    size_t i = 0;
    while (stack[i] == 0x5a) i++;
    if (sizeof stack - i > deepest[asked.kind]) deepest[asked.kind] = sizeof stack - i;
    return asked.answer;
}
static void tell_stack(size_t most) {
    static const char *const kinds[KINDS] = {"start", "hear", "tick", "command", "next"};
    printf("stack of an interlocking:");
    for (int kind = 0; kind < KINDS; kind++) printf(" %s %zu", kinds[kind], deepest[kind]), expect(deepest[kind] <= most, "more stack");
    printf(" bytes\n");
}
#else
static uint32_t call(void) { return asks(), asked.answer; }
static void tell_stack(size_t most) { (void)most; }
#endif

static uint32_t tick(uint64_t now) { return asked.kind = TICK, asked.now = now, call(); }
static uint32_t wants_reading(uint64_t now) { return now < latest ? ZENDURAI_CLOCK : ZENDURAI_OK; }
static uint32_t wants_hearing(uint64_t now) {
    return now < latest ? ZENDURAI_CLOCK : now - begun < 2000 ? ZENDURAI_SOON : was_empty && now - found_empty <= 400 ? ZENDURAI_OK : ZENDURAI_OLD;
}
static uint32_t wants_next(uint64_t now, size_t room) {
    return room < ZENDURAI_DATAGRAM_BYTES ? ZENDURAI_TOO_SMALL : now < latest ? ZENDURAI_CLOCK : now - begun < 2000 ? ZENDURAI_SOON : ZENDURAI_OK;
}

static void start_interlocking(void) {
    static uint32_t first = 7;
    static uint8_t told[80];
    size_t count = 999, size = sizeof memory[IXL].room;
    uint64_t now = clock_of(IXL);
    memset(&memory[IXL], 0xa5, sizeof memory[IXL]);
    ixl = (struct zendurai_interlocking){memory[IXL].room, 0};
    used[IXL] = 0, taker = IXL;
    expect(zendurai_interlocking_tick(&ixl, now) == ZENDURAI_NOT_STARTED, "not started");
    expect(zendurai_interlocking_start(&ixl, size - 1, text, text_length, first, now, told, sizeof told, &count) == ZENDURAI_TOO_SMALL && count == 999, "too small");
    expect(zendurai_interlocking_start(&ixl, size, bytes_of("\xff"), 1, first, now, told, sizeof told, &count) == ZENDURAI_UTF8 && count == 999, "no UTF-8");
    expect(zendurai_interlocking_start(&ixl, size, bytes_of("x"), 1, first, now, told, sizeof told, &count) == ZENDURAI_LAYOUT, "no layout");
    expect(count == 19 && !memcmp(told, "layout fault 1 Toml", 19), "the fault");
    used[IXL] = 0;
    asked.kind = START, asked.now = now, asked.in = text, asked.length = text_length, asked.first = first += 100000;
    asked.out = told, asked.room = sizeof told, asked.size = &count;
    expect(!call(), "start");
    expect(zendurai_interlocking_start(&ixl, size, text, text_length, first, now, told, sizeof told, &count) == ZENDURAI_STARTED, "a second start");
    taker = -1;
    begun = since = latest = now, was_empty = has_stepped = 0;
    memset(shut, 0, sizeof shut);
}

static void takes_all(uint64_t now) {
    uint8_t out[ZENDURAI_DATAGRAM_BYTES + 1];
    for (;;) {
        size_t size = 9999, to = 9999, room = one_in(16) ? drawn() % ZENDURAI_DATAGRAM_BYTES : ZENDURAI_DATAGRAM_BYTES;
        memset(out, 0x5c, sizeof out);
        asked.kind = NEXT, asked.now = now, asked.out = out, asked.room = room, asked.size = &size, asked.to = &to;
        uint32_t answer = call();
        answered(answer, wants_next(now, room), "next");
        if (answer == ZENDURAI_TOO_SMALL) continue;
        if (answer) {
            expect(size == 9999 && to == 9999 && out[0] == 0x5c, "a refused next that wrote");
            return;
        }
        latest = now;
        expect(out[ZENDURAI_DATAGRAM_BYTES] == 0x5c, "the end of the room");
        if (!size) return;
        expect(36 <= size && size <= 225 && S1 <= to && to < NODES, "a datagram");
        expect(has_stepped && now - since < 500, "fresh");
        left++;
        post((int)to, out, size, stepped[IXL]);
    }
}

static void steps(uint64_t now) {
    since = latest = now, has_stepped = 1, stepped[IXL] = true_now;
    if (!one_in(32)) takes_all(now);
}

static void hears(uint64_t now, const uint8_t *bytes, size_t size, uint64_t made) {
    uint8_t *in = malloc(size ? size : 1); /* of exactly its length, so that a sanitizer sees a read after it */
    memcpy(in, bytes, size);
    asked.kind = HEAR, asked.now = now, asked.in = in, asked.length = size;
    uint32_t answer = call();
    free(in);
    answered(answer, wants_hearing(now), "hear");
    if (answer) return;
    expect(true_now - made <= 2000, "an old datagram was heard");
    steps(now);
}

/* Whether the numbers of a move, a close or an open are those of something. */
static int names_something(void) {
    int is_side = asked.side == ZENDURAI_LEFT || asked.side == ZENDURAI_RIGHT;
    if (asked.command == MOVE) return is_side;
    if (asked.command != CLOSE && asked.command != OPEN) return 1;
    return asked.things < ZENDURAI_KIND_NODE && (asked.things != ZENDURAI_KIND_POINT || is_side || asked.side == ZENDURAI_NEITHER);
}

static void closes(uint8_t is_closed) {
    uint8_t *sides = shut[asked.things][asked.route];
    if (asked.things != ZENDURAI_KIND_POINT) sides[0] = is_closed;
    else
        for (uint32_t side = ZENDURAI_LEFT; side <= ZENDURAI_RIGHT; side++)
            if (asked.side == side || asked.side == ZENDURAI_NEITHER) sides[side] = is_closed;
}

static void commands(uint64_t now) {
    struct zendurai_cause cause = {99, 99, 99, 99};
    asked.kind = COMMAND, asked.now = now, asked.route = drawn() % 4, asked.command = (int)(drawn() % COMMANDS), asked.cause = &cause;
    asked.things = (uint32_t)(drawn() % 6), asked.side = (uint32_t)(drawn() % 4);
    if (asked.command == CLOSE && one_in(2)) asked.command = OPEN;
    uint32_t answer = call();
    answered(answer, names_something() ? wants_reading(now) : (uint32_t)ZENDURAI_VALUE, "a command");
    if (answer) {
        expect(cause.number == 99 && cause.kind == 99 && cause.place == 99 && cause.side == 99, "a refused command that wrote");
        return;
    }
    expect(cause.number <= 14 && cause.kind <= ZENDURAI_KIND_ROUTE && cause.place <= 3 && cause.side <= ZENDURAI_RIGHT, "a cause");
    if (!cause.number && (asked.command == CLOSE || asked.command == OPEN)) closes(asked.command == CLOSE);
    causes[cause.number]++;
    steps(now);
}

static void looks_at_what_is_closed(uint32_t kind, size_t place, uint32_t side) {
    uint32_t value = 99, is_point = kind == ZENDURAI_KIND_POINT, is_side = side == ZENDURAI_LEFT || side == ZENDURAI_RIGHT;
    uint32_t answer = zendurai_interlocking_closed(&ixl, kind, place, side, &value);
    expect(answer == (kind < ZENDURAI_KIND_NODE && (!is_point || is_side) ? ZENDURAI_OK : ZENDURAI_VALUE), "closed");
    if (!answer) expect(value == (place < 4 ? shut[kind][place][is_point ? side : 0] : 0), "what is closed");
    closed_seen += !answer && value;
}

/* What is asked for a display changes nothing, and may be asked at any place. */
static void looks(uint64_t now) {
    struct zendurai_authority authority;
    size_t place = one_in(4) ? drawn() : drawn() % 6, count = 0, size = 0, found = 99;
    uint32_t value = 99, kind = (uint32_t)(drawn() % 6);
    uint8_t name[20];
    expect(!zendurai_interlocking_authority(&ixl, place, &authority) && authority.given <= 1 && (place < 3 || !authority.given), "authority");
    expect(!zendurai_interlocking_indicated(&ixl, place, &value) && value <= 3 && (place < 3 || value == 3), "indicated");
    expect(!zendurai_interlocking_section(&ixl, place, &value) && value <= 2 && (place < 4 || value == 2), "section");
    expect(!zendurai_interlocking_point(&ixl, place, &value) && value <= 2 && (place < 1 || !value), "point");
    expect(!zendurai_interlocking_route(&ixl, place, &value) && value <= 1 && (place < 3 || !value), "route");
    expect(!zendurai_interlocking_link(&ixl, place, &value) && value <= 1 && ((place && place < NODES) || !value), "link");
    seen[0] += value;
    expect(!zendurai_interlocking_readiness(&ixl, now, &value) && value <= 2, "readiness");
    uint32_t answer = zendurai_interlocking_count(&ixl, kind, &count);
    expect(answer == (kind < 5 ? ZENDURAI_OK : ZENDURAI_VALUE), "count");
    answer = zendurai_interlocking_name(&ixl, kind, place, name, sizeof name, &size);
    expect(answer == (kind == 5 ? ZENDURAI_VALUE : place < count ? ZENDURAI_OK : ZENDURAI_PLACE), "name");
    if (!answer) expect(!zendurai_interlocking_place(&ixl, kind, name, size, &found) && found == place, "place");
    expect(zendurai_interlocking_place(&ixl, ZENDURAI_KIND_ROUTE, name, 0, &found) == ZENDURAI_PLACE, "no place");
    looks_at_what_is_closed(kind, place, (uint32_t)(drawn() % 4));
}

static void careless(void) {
    uint8_t noise[300];
    uint64_t now = one_in(4) ? latest - 1 - drawn() % 100 : latest;
    size_t size = drawn() % sizeof noise;
    for (size_t i = 0; i < size; i++) noise[i] = (uint8_t)drawn();
    switch (drawn() % 6) {
    case 0: answered(tick(now), wants_reading(now), "tick"); if (now >= latest) steps(now); break;
    case 1: hears(now, noise, size, true_now); break;
    case 2: takes_all(now); break;
    case 3: if (now < latest) answered(zendurai_interlocking_empty(&ixl, now), ZENDURAI_CLOCK, "empty"); break;
    case 4: commands(now); break;
    default: looks(now); break;
    }
}

static void interlocking(void) {
    struct datagram it;
    if (one_in(200000)) start_interlocking();
    if (one_in(20000)) stopped_until[IXL] = true_now + drawn() % 3000;
    if (true_now < stopped_until[IXL]) return;
    uint64_t now = clock_of(IXL);
    while (receive(IXL, &it)) hears(now, it.bytes, it.size, it.made);
    if (!one_in(64)) answered(zendurai_interlocking_empty(&ixl, now), wants_reading(now), "empty"), latest = found_empty = now, was_empty = 1;
    if (one_in(100)) commands(now);
    if (one_in(2)) careless();
    if (one_in(64)) return;
    answered(tick(now), ZENDURAI_OK, "tick");
    steps(now);
}

static void weather(void) {
    lost = one_in(2) ? 0 : (unsigned)(one_in(8) ? 100 : drawn() % 30);
    repeated = damaged = lost ? 10 : 0;
    delay = lost ? (unsigned)(drawn() % 900) : 40;
}

int main(int argc, char **argv) {
    if (argc < 4) return 2;
    FILE *layout = fopen(argv[1], "rb");
    if (!layout) return perror(argv[1]), 2;
    text_length = fread(text, 1, sizeof text, layout);
    fclose(layout);
    unsigned long all = strtoul(argv[2], NULL, 10);
    state = strtoull(argv[3], NULL, 10);
    for (int node = 0; node < NODES; node++) offsets[node] = drawn() % 1000000;
    start_interlocking();
    for (int node = S1; node < NODES; node++) start_controller(node);
    size_t most = 0;
    for (unsigned long rounds = 0; calls < all; rounds++) {
        if (rounds % 3000 == 0) weather();
        true_now += 10;
        interlocking();
        for (int node = S1; node < NODES; node++) controller(node);
        judge();
    }
    for (int node = 0; node < NODES; node++)
        for (size_t i = 0; i < 64; i++) expect(memory[node].before[i] == 0xa5 && memory[node].after[i] == 0xa5, "a canary");
    for (size_t i = 0; i < sizeof memory[IXL].room; i++) if (memory[IXL].room[i] != 0xa5) most = i + 1;
    printf("station: %lu calls of its interlocking; refused:", calls);
    for (int i = 1; i < 16; i++) if (refused[i]) printf(" %d %lu times", i, refused[i]);
    printf("; causes:");
    for (int i = 0; i < 15; i++) printf(" %lu", causes[i]);
    printf("; %lu datagrams; %lu looks at a proceed; %zu bytes of its room, %zu of its memory\n", left, proceeds, most, most_used[IXL]);
    tell_stack(argc > 4 ? strtoul(argv[4], NULL, 10) : 0);
    fflush(stdout);
    expect(proceeds > 0 && causes[0] > 0 && seen[0] > 0 && closed_seen > 0, "no signal was cleared");
    return 0;
}
