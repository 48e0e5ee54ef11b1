/* A light signal with a lamp on the terminal, over UDP in one network or two: S1 of examples/small.toml.
   usage: signal NAME ID STATION STATION-ID OWN-PORT PARTNER-ADDRESS PARTNER-PORT [OWN-PORT PARTNER-ADDRESS PARTNER-PORT] */
#include "udp.h"
#include "zendurai.h"
#include <signal.h>

static _Alignas(ZENDURAI_ROOM_ALIGN) uint8_t room[ZENDURAI_ROOM_BYTES];
static struct zendurai_signal signal_1 = {room, 0};

/* ---- the lamp: in a real unit a relay, and a timer of the hardware */

static const char *const names[] = {"stop", "proceed", "slow"};
static volatile sig_atomic_t shown;
static timer_t fall;

static void tell(unsigned aspect) {
    char line[64];
    int n = snprintf(line, sizeof line, "%llu %s\n", (unsigned long long)clock_ms(), names[aspect]);
    if (aspect != (unsigned)shown) (void)!write(1, line, (size_t)n);
    shown = (sig_atomic_t)aspect;
}

static void falls(int signal) {
    (void)signal;
    tell(ZENDURAI_STOP);
}

/* The lamp shows this, and from `until` on stop, by a timer that needs no loop. The timer is set first, and waits until the lamp
   shows it: so it can't fall before it was put up. */
static void show(struct zendurai_lamp lamp) {
    struct itimerspec at = {{0, 0}, {(time_t)(lamp.until / 1000), (long)(lamp.until % 1000) * 1000000}};
    sigset_t falling;
    sigemptyset(&falling);
    sigaddset(&falling, SIGALRM);
    sigprocmask(SIG_BLOCK, &falling, NULL);
    timer_settime(fall, TIMER_ABSTIME, &at, NULL);
    tell(lamp.aspect);
    sigprocmask(SIG_UNBLOCK, &falling, NULL);
}

/* ---- the loop */

static void after_step(uint64_t now) {
    struct zendurai_lamp lamp;
    uint8_t out[ZENDURAI_DATAGRAM_BYTES];
    size_t size;
    if (zendurai_signal_order(&signal_1, now, &lamp) != ZENDURAI_OK) return;
    show(lamp);
    zendurai_signal_done(&signal_1);
    while (zendurai_signal_next(&signal_1, clock_ms(), out, sizeof out, &size) == ZENDURAI_OK && size) send_to(0, out, size);
}

static void hear_all(void) {
    uint8_t in[512];
    for (;;) {
        uint64_t before = clock_ms();
        size_t size = receive(in, sizeof in);
        if (!size) {
            zendurai_signal_empty(&signal_1, before);
            return;
        }
        uint64_t now = clock_ms();
        if (zendurai_signal_hear(&signal_1, now, in, size) == ZENDURAI_OK) after_step(now);
    }
}

int main(int argc, char **argv) {
    if (argc != 8 && argc != 11) return fprintf(stderr, "usage: signal NAME ID STATION STATION-ID OWN-PORT PARTNER-ADDRESS PARTNER-PORT ..\n"), 2;
    struct sigevent by_signal = {.sigev_notify = SIGEV_SIGNAL, .sigev_signo = SIGALRM};
    struct sigaction falling = {.sa_handler = falls, .sa_flags = SA_RESTART};
    sigaction(SIGALRM, &falling, NULL);
    timer_create(CLOCK_MONOTONIC, &by_signal, &fall);
    open_networks(argc - 5, argv + 5);
    struct zendurai_setup setup = {(uint32_t)atoi(argv[2]), (uint32_t)atoi(argv[4]), {0x67452301, 0xefcdab89, 0x98badcfe, 0x10325476},
                                   (uint32_t)time(NULL), 1};
    uint32_t answer = zendurai_signal_start(&signal_1, sizeof room, &setup, (const uint8_t *)argv[1], strlen(argv[1]),
                                            (const uint8_t *)argv[3], strlen(argv[3]), clock_ms());
    if (answer) return fprintf(stderr, "no start: %u\n", (unsigned)answer), 1;
    for (;;) {
        poll(sockets, networks, 10);
        hear_all();
        uint64_t now = clock_ms();
        if (zendurai_signal_tick(&signal_1, now) == ZENDURAI_OK) after_step(now);
    }
}
