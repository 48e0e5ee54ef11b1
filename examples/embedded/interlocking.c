/* The interlocking of a station over UDP, with an operator on the terminal: of examples/small.toml, say. The words are those of `station
   node`: it tells `link S1 ready`, `signal S1 proceed R1`, `indicates S1 proceed`, `section GA occupied`, `point P1 right`, `route R1 set`;
   and it is told `resume`, `set R1`, `cancel R1`.
   usage: interlocking LAYOUT OWN-PORT NAME ADDRESS PORT .. with these three words for each controller */
#include "udp.h"
#include "zendurai.h"
#include <stdarg.h>

static _Alignas(ZENDURAI_ROOM_ALIGN) uint8_t room[ZENDURAI_INTERLOCKING_ROOM_BYTES];
static struct zendurai_interlocking ixl = {room, 0};

/* ---- what is told: a line for each thing, printed where it has changed */

enum { LINES = 1024 };
static char lines[LINES][80];

static __attribute__((format(printf, 2, 3))) void tell(size_t line, const char *format, ...) {
    char text[80];
    va_list words;
    va_start(words, format);
    vsnprintf(text, sizeof text, format, words);
    va_end(words);
    if (line >= LINES || !strcmp(text, lines[line])) return;
    strcpy(lines[line], text);
    printf("%s\n", text), fflush(stdout);
}

static const char *name_of(uint32_t kind, size_t place) {
    static char names[4][24]; /* so many in one line */
    static size_t turn;
    size_t size = 0;
    char *name = names[turn++ % 4];
    zendurai_interlocking_name(&ixl, kind, place, (uint8_t *)name, 20, &size);
    name[size] = 0;
    return name;
}

static size_t count_of(uint32_t kind) {
    size_t count = 0;
    zendurai_interlocking_count(&ixl, kind, &count);
    return count;
}

static void tell_signal(size_t line, size_t place) {
    static const char *const aspects[] = {"stop", "proceed", "slow"};
    struct zendurai_authority authority;
    uint32_t indicated;
    const char *name = name_of(ZENDURAI_KIND_SIGNAL, place);
    zendurai_interlocking_authority(&ixl, place, &authority);
    zendurai_interlocking_indicated(&ixl, place, &indicated);
    if (authority.given) tell(line, "signal %s %s %s", name, aspects[authority.aspect], name_of(ZENDURAI_KIND_ROUTE, authority.route));
    else tell(line, "signal %s stop -", name);
    if (indicated < ZENDURAI_NOT_INDICATED) tell(line + 1, "indicates %s %s", name, aspects[indicated]);
}

static void tell_all(uint64_t now) {
    static const char *const states[] = {"clear", "occupied", "unknown"}, *const sides[] = {"unknown", "left", "right"};
    static const char *const ready[] = {"holding", "waiting for resume", "taking requests"};
    size_t line = 0;
    uint32_t value;
    if (!zendurai_interlocking_readiness(&ixl, now, &value)) tell(line++, "%s", ready[value]);
    for (size_t i = 1; i < count_of(ZENDURAI_KIND_NODE) && !zendurai_interlocking_link(&ixl, i, &value); i++)
        tell(line++, "link %s %s", name_of(ZENDURAI_KIND_NODE, i), value ? "ready" : "lost");
    for (size_t i = 0; i < count_of(ZENDURAI_KIND_SIGNAL); i++) tell_signal(line, i), line += 2;
    for (size_t i = 0; i < count_of(ZENDURAI_KIND_POINT) && !zendurai_interlocking_point(&ixl, i, &value); i++)
        tell(line++, "point %s %s", name_of(ZENDURAI_KIND_POINT, i), sides[value]);
    for (size_t i = 0; i < count_of(ZENDURAI_KIND_SECTION) && !zendurai_interlocking_section(&ixl, i, &value); i++)
        tell(line++, "section %s %s", name_of(ZENDURAI_KIND_SECTION, i), states[value]);
    for (size_t i = 0; i < count_of(ZENDURAI_KIND_ROUTE) && !zendurai_interlocking_route(&ixl, i, &value); i++)
        tell(line++, "route %s %s", name_of(ZENDURAI_KIND_ROUTE, i), value ? "set" : "free");
}

/* ---- the loop */

static void after_step(uint64_t now) {
    uint8_t out[ZENDURAI_DATAGRAM_BYTES];
    size_t size, to;
    while (zendurai_interlocking_next(&ixl, clock_ms(), out, sizeof out, &size, &to) == ZENDURAI_OK && size) send_to(to, out, size);
    tell_all(now);
}

static void hear_all(void) {
    uint8_t in[512];
    for (;;) {
        uint64_t before = clock_ms();
        size_t size = receive(in, sizeof in);
        if (!size) {
            zendurai_interlocking_empty(&ixl, before);
            return;
        }
        uint64_t now = clock_ms();
        if (zendurai_interlocking_hear(&ixl, now, in, size) == ZENDURAI_OK) after_step(now);
    }
}

static void obey_all(void) {
    for (char *line; (line = read_line());) {
        struct zendurai_cause cause = {0};
        char word[8] = "", name[24] = "";
        size_t route = 0;
        sscanf(line, "%7s %20s", word, name);
        uint32_t found = zendurai_interlocking_place(&ixl, ZENDURAI_KIND_ROUTE, (const uint8_t *)name, strlen(name), &route);
        uint64_t now = clock_ms();
        uint32_t answer = !strcmp(word, "resume") ? zendurai_interlocking_resume(&ixl, now, &cause)
                        : found                   ? found
                        : !strcmp(word, "set")    ? zendurai_interlocking_request(&ixl, now, route, &cause)
                        : !strcmp(word, "cancel") ? zendurai_interlocking_cancel(&ixl, now, route, &cause)
                        : !strcmp(word, "release") ? zendurai_interlocking_release(&ixl, now, route, &cause)
                                                   : (uint32_t)ZENDURAI_VALUE;
        if (answer) printf("no command: %s\n", line);
        else if (cause.number) printf("refused %u\n", (unsigned)cause.number);
        else printf("accepted\n");
        fflush(stdout);
        if (!answer) after_step(now);
    }
}

/* ---- the start */

static size_t read_layout(const char *file, uint8_t *text, size_t most) {
    FILE *layout = fopen(file, "rb");
    if (!layout) perror(file), exit(1);
    size_t length = fread(text, 1, most, layout);
    fclose(layout);
    return length;
}

int main(int argc, char **argv) {
    static uint8_t text[1 << 20], told[80];
    if (argc < 3 || argc % 3) return fprintf(stderr, "usage: interlocking LAYOUT OWN-PORT NAME ADDRESS PORT ..\n"), 2;
    size_t length = read_layout(argv[1], text, sizeof text), count = 0;
    uint32_t answer = zendurai_interlocking_start(&ixl, sizeof room, text, length, (uint32_t)time(NULL), clock_ms(), told, sizeof told, &count);
    if (answer) return fprintf(stderr, "no start: %u %.*s\n", (unsigned)answer, (int)count, (const char *)told), 1;
    open_udp(argv[2]);
    for (int i = 3; i < argc; i += 3) {
        size_t node = 0;
        if (zendurai_interlocking_place(&ixl, ZENDURAI_KIND_NODE, (const uint8_t *)argv[i], strlen(argv[i]), &node) || !node)
            return fprintf(stderr, "no controller: %s\n", argv[i]), 1;
        add_partner(node, argv[i + 1], argv[i + 2]);
    }
    fcntl(0, F_SETFL, O_NONBLOCK);
    for (;;) {
        poll(sockets, networks, 10);
        hear_all();
        obey_all();
        uint64_t now = clock_ms();
        if (zendurai_interlocking_tick(&ixl, now) == ZENDURAI_OK) after_step(now);
    }
}
