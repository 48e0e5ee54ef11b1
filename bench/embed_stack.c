/* How deep the stack of each call of a signal gets, over a stored record, on a painted stack of its own. usage: embed_stack RECORD MOST */
#define _DEFAULT_SOURCE
#include "zendurai.h"

#include <stdio.h>
#include <stdlib.h>
#include <string.h>
#include <ucontext.h>

enum { START, HEAR, TICK, ORDER, NEXT, CALLS };
static const char *const names[CALLS] = {"start", "hear", "tick", "order", "next"};
static _Alignas(16) uint8_t stack[256 * 1024], room[ZENDURAI_ROOM_BYTES];
static ucontext_t here, there;
static struct zendurai_signal sig = {room, 0};
static struct zendurai_setup setup = {11, 1, {0x67452301, 0xefcdab89, 0x98badcfe, 0x10325476}, 0, 2};
static uint8_t datagram[512];
static size_t length, most[CALLS];
static uint64_t now;
static int which;

static void body(void) {
    uint8_t out[ZENDURAI_DATAGRAM_BYTES];
    struct zendurai_lamp lamp;
    size_t size = 1;
    switch (which) {
    case START: zendurai_signal_start(&sig, sizeof room, &setup, (const uint8_t *)"A", 1, (const uint8_t *)"HALDEN", 6, now); break;
    case HEAR: zendurai_signal_hear(&sig, now, datagram, length); break;
    case TICK: zendurai_signal_tick(&sig, now); break;
    case ORDER: zendurai_signal_order(&sig, now, &lamp); break;
    case NEXT: while (size && !zendurai_signal_next(&sig, now, out, sizeof out, &size)) continue; break;
    }
}

static void call(int w) {
    memset(stack, 0x5a, sizeof stack);
    getcontext(&there);
    there.uc_stack.ss_sp = stack, there.uc_stack.ss_size = sizeof stack, there.uc_link = &here;
    which = w;
    makecontext(&there, body, 0);
    swapcontext(&here, &there);
    size_t i = 0;
    while (stack[i] == 0x5a) i++;
    if (sizeof stack - i > most[w]) most[w] = sizeof stack - i;
}

int main(int argc, char **argv) {
    if (argc < 3) return 2;
    FILE *record = fopen(argv[1], "r");
    static char text[1024];
    int comes = 0;
    unsigned long long at;
    if (!record) return 2;
    while (fgets(text, sizeof text, record)) {
        if (!strncmp(text, "node ", 5)) setup.first_sequence_number = (uint32_t)strtoul(strrchr(text, ' ') + 1, NULL, 10);
        else if (!strncmp(text, "from ", 5)) {
            const char *hex = strrchr(text, ' ') + 1;
            for (length = 0; sscanf(hex + 2 * length, "%2hhx", &datagram[length]) == 1; length++) continue;
            comes = 1;
        } else if (sscanf(text, "at %llu", &at) == 1) {
            now = at;
            if (!sig.state) call(START);
            if (comes) zendurai_signal_empty(&sig, now);
            call(comes ? HEAR : TICK), comes = 0;
            call(ORDER);
            zendurai_signal_done(&sig);
            call(NEXT);
        }
    }
    int over = 0;
    printf("stack:");
    for (int w = 0; w < CALLS; w++) printf(" %s %zu", names[w], most[w]), over |= most[w] > strtoul(argv[2], NULL, 10);
    printf(" bytes\n");
    return over;
}
