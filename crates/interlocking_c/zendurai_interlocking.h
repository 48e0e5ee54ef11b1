/* The proved interlocking of a station, for a program of one's own, in C and C++. bench/embed.sh leaves libzendurai.a, which has it
   beside the controllers. docs/EMBEDDED.md says what is proved, and what stays to be done.

   The loop. All readings are those of one clock of yours, in milliseconds, which never falls and never stands still while the program
   does.

       static void after_step(void)                             // after each accepted hear, tick or command
       {
           while (zendurai_interlocking_next(&ixl, clock_ms(), out, sizeof out, &size, &to) == ZENDURAI_OK && size)
               send(to, out, size);                             // at once, to the controller of this node
       }

       for (;;) {
           wait_for_a_datagram_or_10_ms();
           for (;;) {
               before = clock_ms();                             // BEFORE the receive that may find nothing
               if (!receive(in, &length)) { zendurai_interlocking_empty(&ixl, before); break; }
               now = clock_ms();                                // AFTER the datagram has come
               if (zendurai_interlocking_hear(&ixl, now, in, length) == ZENDURAI_OK) after_step();
           }
           if (the_operator_wants_a_route && zendurai_interlocking_request(&ixl, clock_ms(), route, &cause) == ZENDURAI_OK) {
               if (cause.number) tell(cause); after_step();
           }
           if (zendurai_interlocking_tick(&ixl, clock_ms()) == ZENDURAI_OK) after_step();
       }

   What a call keeps to, whoever calls: what waited for 500 ms since its step doesn't leave; what may have waited for more than 400 ms
   before it was read isn't heard; a clock that falls is refused; and for 2000 ms after its start it hears and sends nothing. It takes no
   request for 6000 ms, and then only once it was told to resume. docs/OPERATING.md says what an operator has to look at before that.

   A handle is used by one thread at a time, and by no interrupt that may fall into a call of it. No pointer is null, also where its
   length is 0. What a pointer to const points to doesn't change during a call. Nothing but these functions touches the room of a handle
   once it was started, and it is never given back. */
#ifndef ZENDURAI_INTERLOCKING_H
#define ZENDURAI_INTERLOCKING_H

#include "zendurai_controllers.h" /* the answers, and the numbers of aspects, sides and states */

#ifdef __cplusplus
extern "C" {
#endif

/* Two answers of a start beside those of the controllers. */
enum {
    ZENDURAI_LAYOUT = 12, /* the text is no layout, or its control table isn't sound: its first fault is told */
    ZENDURAI_UTF8 = 13    /* the text isn't UTF-8 */
};

enum { ZENDURAI_INTERLOCKING_ROOM_BYTES = 2048 };
enum { ZENDURAI_NOT_INDICATED = 3, ZENDURAI_UNKNOWN = 2 }; /* in the place of an aspect, and of the state of a section */
enum { ZENDURAI_HOLDS = 0, ZENDURAI_WAITS_FOR_RESUME = 1, ZENDURAI_TAKES_REQUESTS = 2 };

/* The kinds of things. The first of a kind in the layout's text has place 0. The node at place 0 is the interlocking, and those of the
   controllers follow: signals, points, detectors. */
enum {
    ZENDURAI_KIND_SIGNAL = 0,
    ZENDURAI_KIND_POINT = 1,
    ZENDURAI_KIND_SECTION = 2,
    ZENDURAI_KIND_ROUTE = 3,
    ZENDURAI_KIND_NODE = 4
};

/* A handle has room of at least ZENDURAI_INTERLOCKING_ROOM_BYTES, aligned to ZENDURAI_ROOM_ALIGN. state is 0 before the start, and
   nobody else's afterwards. struct zendurai_interlocking ixl = {room, 0}; */
struct zendurai_interlocking {
    void *room;
    uint32_t state;
};

/* Why a command is refused: 0 it is obeyed, else 1 to 14 as docs/OPERATING.md lists them; and the kind and the place of the route (5, 14),
   the section (6), the point (7) or the closed thing (13) that it names, else 0 and 0. A closed point has its side beside it, which is
   ZENDURAI_NEITHER for all else. */
struct zendurai_cause {
    uint32_t number;
    uint32_t kind;
    size_t place;
    uint32_t side;
};

struct zendurai_authority {
    uint32_t given;  /* 1 where a route has authority from the signal */
    uint32_t aspect; /* of the route, else 0 */
    size_t route;    /* its place, else 0 */
};

/* Starts an interlocking in the room of a handle, of the text of a layout: OK, STARTED, TOO_SMALL, UTF8, LAYOUT or MEMORY. No later call
   takes memory. With LAYOUT the first fault is told at the front of `told`, as `station check` tells it, and *count says in how many
   bytes; there are at most 61. */
uint32_t zendurai_interlocking_start(struct zendurai_interlocking *interlocking, size_t room, const uint8_t *text, size_t length,
                                     uint32_t first_sequence_number, uint64_t now, uint8_t *told, size_t told_room, size_t *count);

/* A datagram came from a controller, and then the clock was read: OK, NOT_STARTED, CLOCK, SOON or OLD. */
uint32_t zendurai_interlocking_hear(struct zendurai_interlocking *interlocking, uint64_t now, const uint8_t *bytes, size_t length);

/* The clock goes on, every 10 ms: OK, NOT_STARTED or CLOCK. */
uint32_t zendurai_interlocking_tick(struct zendurai_interlocking *interlocking, uint64_t now);

/* A receive found nothing, and before it the clock read `before`: OK, NOT_STARTED or CLOCK. With no such call nothing is heard. */
uint32_t zendurai_interlocking_empty(struct zendurai_interlocking *interlocking, uint64_t before);

/* The operator wants a route to be set or cancelled, or requests to be taken, and then the clock was read: OK, NOT_STARTED or CLOCK. With OK
   *cause says why the interlocking refuses it, if it does. */
uint32_t zendurai_interlocking_request(struct zendurai_interlocking *interlocking, uint64_t now, size_t route, struct zendurai_cause *cause);
uint32_t zendurai_interlocking_cancel(struct zendurai_interlocking *interlocking, uint64_t now, size_t route, struct zendurai_cause *cause);
uint32_t zendurai_interlocking_resume(struct zendurai_interlocking *interlocking, uint64_t now, struct zendurai_cause *cause);

/* The operator wants a route that has ended its authority, and was cancelled, to be freed 120000 ms later; a point to be moved to LEFT or
   RIGHT; or a signal, a section, a route, or a point at LEFT, at RIGHT or at both (NEITHER) to be closed or opened; and then the clock was
   read: OK, NOT_STARTED, VALUE (no such side of a point, or no such kind) or CLOCK. With OK *cause says why the interlocking refuses it, if it does.
   Closings live as long as the interlocking: a program that starts one anew gives it `close` for each thing that was closed before. */
uint32_t zendurai_interlocking_release(struct zendurai_interlocking *interlocking, uint64_t now, size_t route, struct zendurai_cause *cause);
uint32_t zendurai_interlocking_move(struct zendurai_interlocking *interlocking, uint64_t now, size_t point, uint32_t side,
                                    struct zendurai_cause *cause);
uint32_t zendurai_interlocking_close(struct zendurai_interlocking *interlocking, uint64_t now, uint32_t kind, size_t place, uint32_t side,
                                     struct zendurai_cause *cause);
uint32_t zendurai_interlocking_open(struct zendurai_interlocking *interlocking, uint64_t now, uint32_t kind, size_t place, uint32_t side,
                                    struct zendurai_cause *cause);

/* The next datagram of the last step, its size, 0 where none is left, and the node to which it goes: OK, NOT_STARTED, TOO_SMALL, CLOCK or
   SOON. */
uint32_t zendurai_interlocking_next(struct zendurai_interlocking *interlocking, uint64_t now, uint8_t *out, size_t room, size_t *size,
                                    size_t *to);

/* How many things of a kind there are, which of them has a name, and the name of the one at a place, of 20 bytes at most: OK, NOT_STARTED,
   VALUE (no such kind), PLACE (none there) or TOO_SMALL. */
uint32_t zendurai_interlocking_count(struct zendurai_interlocking *interlocking, uint32_t kind, size_t *count);
uint32_t zendurai_interlocking_place(struct zendurai_interlocking *interlocking, uint32_t kind, const uint8_t *name, size_t length,
                                     size_t *place);
uint32_t zendurai_interlocking_name(struct zendurai_interlocking *interlocking, uint32_t kind, size_t place, uint8_t *out, size_t room,
                                    size_t *size);

/* Whether a signal, a section, a route, or a point at LEFT or RIGHT is closed: OK, NOT_STARTED or VALUE (no such side of a point, or no such kind). */
uint32_t zendurai_interlocking_closed(struct zendurai_interlocking *interlocking, uint32_t kind, size_t place, uint32_t side,
                                      uint32_t *closed);

/* For a display, each OK or NOT_STARTED: which route has authority from a signal; the aspect that a signal told last, or NOT_INDICATED;
   whether a section is CLEAR, OCCUPIED or UNKNOWN; whether a point is known to lie LEFT or RIGHT, or NEITHER; whether a route is set;
   whether the initialisation of a node's controller is completed in its present connection; and whether requests are taken. */
uint32_t zendurai_interlocking_authority(struct zendurai_interlocking *interlocking, size_t signal, struct zendurai_authority *authority);
uint32_t zendurai_interlocking_indicated(struct zendurai_interlocking *interlocking, size_t signal, uint32_t *aspect);
uint32_t zendurai_interlocking_section(struct zendurai_interlocking *interlocking, size_t section, uint32_t *state);
uint32_t zendurai_interlocking_point(struct zendurai_interlocking *interlocking, size_t point, uint32_t *side);
uint32_t zendurai_interlocking_route(struct zendurai_interlocking *interlocking, size_t route, uint32_t *set);
uint32_t zendurai_interlocking_link(struct zendurai_interlocking *interlocking, size_t node, uint32_t *linked);
uint32_t zendurai_interlocking_readiness(struct zendurai_interlocking *interlocking, uint64_t now, uint32_t *readiness);

#ifdef __cplusplus
}
static_assert(sizeof(struct zendurai_interlocking) == 16 && sizeof(struct zendurai_cause) == 24 && sizeof(struct zendurai_authority) == 16,
              "a 64-bit target");
#else
_Static_assert(sizeof(struct zendurai_interlocking) == 16 && sizeof(struct zendurai_cause) == 24 && sizeof(struct zendurai_authority) == 16,
               "a 64-bit target");
#endif
#endif
