/* The proved controllers of signals, points and detectors, for equipment of one's own, in C and C++. bench/embed.sh leaves
   libzendurai.a, which has the interlocking and the codecs, too; zendurai.h declares all. docs/EMBEDDED.md says what is proved, and what
   stays to be done.

   THE SENTENCE THAT MATTERS MOST: `order` says until when it holds. From `until` on the lamp shows stop, and the motor is off, by a
   timer of its own, whether the loop below still runs or not.

   The loop. All readings are those of one clock of yours, in milliseconds, which never falls and never stands still while the
   program does.

       static void after_step(uint64_t now)                     // after each accepted hear, tick or reached
       {
           if (zendurai_signal_order(&signal, now, &lamp) != ZENDURAI_OK) return;
           show(lamp.aspect, lamp.until);                       // and arm the lamp's own timer for lamp.until
           zendurai_signal_done(&signal);                       // only once the lamp shows it: a datagram may confirm stop
           while (zendurai_signal_next(&signal, clock_ms(), out, sizeof out, &size) == ZENDURAI_OK && size)
               send(out, size);                                 // at once, to the interlocking alone
       }

       for (;;) {
           wait_for_a_datagram_or_10_ms();
           for (;;) {
               before = clock_ms();                             // BEFORE the receive that may find nothing
               if (!receive(in, &length)) { zendurai_signal_empty(&signal, before); break; }
               now = clock_ms();                                // AFTER the datagram has come
               if (zendurai_signal_hear(&signal, now, in, length) == ZENDURAI_OK) after_step(now);
           }
           now = clock_ms();
           if (zendurai_signal_tick(&signal, now) == ZENDURAI_OK) after_step(now);
       }

   A point has a motor in the lamp's place, and `reached` for what its contacts tell, once they bounce no more. A detector has no
   order: it has `report`, and after each accepted call `next` until nothing is left.

   What a call keeps to, whoever calls: nothing leaves before `done`; what waited for 500 ms since its step doesn't leave; what may
   have waited for more than 400 ms before it was read isn't heard; a clock that falls is refused; and for 2000 ms after its start a
   controller hears and sends nothing. So a driver that forgets a call stands still, restrictive.

   A handle is used by one thread at a time, and by no interrupt that may fall into a call of it. Handles share nothing but the
   memory that a start takes. No pointer is null, also where its length is 0. What a pointer to const points to doesn't change
   during a call. Nothing but these functions touches the room of a handle once it was started, and it is never given back. */
#ifndef ZENDURAI_CONTROLLERS_H
#define ZENDURAI_CONTROLLERS_H

#include <stddef.h>
#include <stdint.h>

#ifdef __cplusplus
extern "C" {
#endif

/* The answers. Any but ZENDURAI_OK changed nothing. */
enum {
    ZENDURAI_OK = 0,
    ZENDURAI_NOT_STARTED = 1, /* no controller of this kind was started in the handle */
    ZENDURAI_STARTED = 2,     /* one was */
    ZENDURAI_TOO_SMALL = 3,   /* less room than ZENDURAI_ROOM_BYTES, or than ZENDURAI_DATAGRAM_BYTES */
    ZENDURAI_NAME = 4,        /* a name isn't one: 1 to 20 of A to Z, a to z, 0 to 9 and - */
    ZENDURAI_MEMORY = 5,      /* memory was refused, by rattle_alloc */
    ZENDURAI_CLOCK = 6,       /* the reading is before one that an earlier call brought */
    ZENDURAI_SOON = 7,        /* fewer than 2000 ms after the start */
    ZENDURAI_OLD = 8,         /* what came may have waited for more than 400 ms: throw it away, and go on */
    ZENDURAI_NOT_DONE = 9,    /* the order of the last step isn't in force */
    ZENDURAI_PLACE = 10,      /* no such section, or no list of sections */
    ZENDURAI_VALUE = 11       /* a number that stands for no position, or for no state */
};

enum { ZENDURAI_ROOM_BYTES = 1024, ZENDURAI_ROOM_ALIGN = 16, ZENDURAI_DATAGRAM_BYTES = 256 };
enum { ZENDURAI_STOP = 0, ZENDURAI_PROCEED = 1, ZENDURAI_SLOW = 2 };
enum { ZENDURAI_NEITHER = 0, ZENDURAI_LEFT = 1, ZENDURAI_RIGHT = 2 }; /* where a point lies, and to where it is driven */
enum { ZENDURAI_CLEAR = 0, ZENDURAI_OCCUPIED = 1 };
enum { ZENDURAI_LINK_CLOSED = 0, ZENDURAI_LINK_OPENING = 1, ZENDURAI_LINK_UP = 2 };

/* Handles, of which each has room of at least ZENDURAI_ROOM_BYTES, aligned to ZENDURAI_ROOM_ALIGN. state is 0 before the start, and
   nobody else's afterwards. struct zendurai_signal signal = {room, 0}; */
struct zendurai_signal {
    void *room;
    uint32_t state;
};
struct zendurai_point {
    void *room;
    uint32_t state;
};
struct zendurai_detector {
    void *room;
    uint32_t state;
};

struct zendurai_setup {
    uint32_t own, partner; /* the identities of the controller and of its interlocking */
    uint32_t key[4];       /* the key of the network */
    uint32_t first_sequence_number; /* another one at each start, as a clock or a counter gives it */
    uint8_t version;       /* of the telegrams: 1, or 2 with the aspect slow */
};

struct zendurai_lamp {
    uint32_t aspect;
    uint64_t until; /* from this reading on stop, with no call in between */
};

struct zendurai_drive {
    uint32_t side;
    uint64_t until; /* from this reading on off, with no call in between */
};

/* Starts a controller in the room of a handle: OK, STARTED, TOO_SMALL, NAME, for a point VALUE, for a detector PLACE, or MEMORY, the
   first that holds. No later call takes memory. A point is told where it lies. A detector's sections, 1 to 16, are told as bytes, one
   after another: how it stands, how many bytes its name has, and its name. "\0\2GA\1\2GP" are GA, clear, and GP, occupied. */
uint32_t zendurai_signal_start(struct zendurai_signal *signal, size_t room, const struct zendurai_setup *setup,
                               const uint8_t *own_name, size_t own_length, const uint8_t *peer_name, size_t peer_length,
                               uint64_t now);
uint32_t zendurai_point_start(struct zendurai_point *point, size_t room, const struct zendurai_setup *setup,
                              const uint8_t *own_name, size_t own_length, const uint8_t *peer_name, size_t peer_length,
                              uint32_t position, uint64_t now);
uint32_t zendurai_detector_start(struct zendurai_detector *detector, size_t room, const struct zendurai_setup *setup,
                                 const uint8_t *own_name, size_t own_length, const uint8_t *peer_name, size_t peer_length,
                                 const uint8_t *sections, size_t sections_length, uint64_t now);

/* A datagram came from the interlocking, and then the clock was read: OK, NOT_STARTED, CLOCK, SOON or OLD. */
uint32_t zendurai_signal_hear(struct zendurai_signal *signal, uint64_t now, const uint8_t *bytes, size_t length);
uint32_t zendurai_point_hear(struct zendurai_point *point, uint64_t now, const uint8_t *bytes, size_t length);
uint32_t zendurai_detector_hear(struct zendurai_detector *detector, uint64_t now, const uint8_t *bytes, size_t length);

/* The clock goes on, every 10 ms: OK, NOT_STARTED or CLOCK. */
uint32_t zendurai_signal_tick(struct zendurai_signal *signal, uint64_t now);
uint32_t zendurai_point_tick(struct zendurai_point *point, uint64_t now);
uint32_t zendurai_detector_tick(struct zendurai_detector *detector, uint64_t now);

/* A receive found nothing, and before it the clock read `before`: OK, NOT_STARTED or CLOCK. With no such call nothing is heard. */
uint32_t zendurai_signal_empty(struct zendurai_signal *signal, uint64_t before);
uint32_t zendurai_point_empty(struct zendurai_point *point, uint64_t before);
uint32_t zendurai_detector_empty(struct zendurai_detector *detector, uint64_t before);

/* The contacts tell where the point lies, or how the section at this place of the detector's own list, from 0, stands, and then the
   clock was read: OK, NOT_STARTED, PLACE, VALUE or CLOCK. */
uint32_t zendurai_point_reached(struct zendurai_point *point, uint64_t now, uint32_t position);
uint32_t zendurai_detector_report(struct zendurai_detector *detector, uint64_t now, size_t place, uint32_t state);

/* What the equipment has to do at a reading, and until when: OK, NOT_STARTED or CLOCK. */
uint32_t zendurai_signal_order(struct zendurai_signal *signal, uint64_t now, struct zendurai_lamp *lamp);
uint32_t zendurai_point_order(struct zendurai_point *point, uint64_t now, struct zendurai_drive *drive);

/* The equipment does it: OK or NOT_STARTED. */
uint32_t zendurai_signal_done(struct zendurai_signal *signal);
uint32_t zendurai_point_done(struct zendurai_point *point);

/* The next datagram of the last step, for the interlocking, and its size, 0 where none is left: OK, NOT_STARTED, TOO_SMALL, CLOCK, SOON
   or NOT_DONE. */
uint32_t zendurai_signal_next(struct zendurai_signal *signal, uint64_t now, uint8_t *out, size_t room, size_t *size);
uint32_t zendurai_point_next(struct zendurai_point *point, uint64_t now, uint8_t *out, size_t room, size_t *size);
uint32_t zendurai_detector_next(struct zendurai_detector *detector, uint64_t now, uint8_t *out, size_t room, size_t *size);

/* How the link stands at a reading, for a display: OK or NOT_STARTED. */
uint32_t zendurai_signal_link(struct zendurai_signal *signal, uint64_t now, uint32_t *link);
uint32_t zendurai_point_link(struct zendurai_point *point, uint64_t now, uint32_t *link);
uint32_t zendurai_detector_link(struct zendurai_detector *detector, uint64_t now, uint32_t *link);

#ifdef __cplusplus
}
static_assert(sizeof(struct zendurai_signal) == 16 && sizeof(struct zendurai_setup) == 32 && sizeof(struct zendurai_lamp) == 16,
              "a 64-bit target");
#else
_Static_assert(sizeof(struct zendurai_signal) == 16 && sizeof(struct zendurai_setup) == 32 && sizeof(struct zendurai_lamp) == 16,
               "a 64-bit target");
#endif
#endif
