/* The codecs of Zendurai for C: PDUs of a link, telegrams between nodes, and the texts of layouts. Link with libcodec.a, which
   `rt lib` leaves in this folder's out/, or with libzendurai.a of bench/embed.sh; and with the kit's c/liblibc_c.a.

   No pointer is null, also where its length is 0. What a pointer to const points to doesn't change during a call, and what any
   other points to is touched by nothing else meanwhile. Only zendurai_layout_read takes memory, by malloc, and it gives it
   back. docs/PROTOCOL.md has the bytes. */
#ifndef ZENDURAI_CODECS_H
#define ZENDURAI_CODECS_H

#include <stddef.h>
#include <stdint.h>

#ifdef __cplusplus
extern "C" {
#endif

/* The registers from which MD4 starts: the key of a network. RFC 1320 has 0x67452301, 0xefcdab89, 0x98badcfe, 0x10325476. */
struct zendurai_key {
    uint32_t a, b, c, d;
};

/* What stands before the payload of a PDU. The payload are its bytes from the 28th on, but for the last 8, which are the safety
   code. */
struct zendurai_pdu {
    uint16_t type; /* 6200, 6201, 6212, 6213, 6216, 6220, 6240 or 6241 */
    uint32_t receiver, sender;
    uint32_t sequence_number, confirmed_sequence_number;
    uint32_t time_stamp, confirmed_time_stamp;
};

/* 0, and *pdu is what the bytes say. Else the first fault, and *pdu is as it was: 1 fewer than 36 bytes, 2 another length than
   they say, 3 a wrong code, 4 no such type, 5 a payload that hasn't the length of its type, 6 no 1 to 3 items. */
uint32_t zendurai_pdu_read(const struct zendurai_key *key, const uint8_t *bytes, size_t length, struct zendurai_pdu *pdu);

/* Writes a PDU to the beginning of out, and answers how many bytes it has, at most 225: 0, and nothing is written, where the
   payload isn't one of the type, or there is less room. */
size_t zendurai_pdu_write(const struct zendurai_key *key, const struct zendurai_pdu *pdu, const uint8_t *payload,
                          size_t payload_length, uint8_t *out, size_t room);

/* What stands before the payload of a telegram, which are its bytes from the 43rd on. The sender's name are the first
   sender_length bytes from the 3rd on, the receiver's those from the 23rd on. */
struct zendurai_telegram {
    uint16_t type;
    uint8_t protocol; /* 0x20 train detection, 0x30 light signals, 0x40 points */
    uint8_t sender_length, receiver_length;
};

/* 0, and *telegram is what the bytes say. Else the first fault, and *telegram is as it was: 1 fewer than 43 bytes, 2 no such
   protocol, 3 a type that it hasn't, 4 a payload that hasn't the length of its type, 5 a name, 6 a value of the payload. */
uint32_t zendurai_telegram_read(const uint8_t *bytes, size_t length, struct zendurai_telegram *telegram);

/* Writes a telegram to the beginning of out, and answers how many bytes it has, at most 61: 0, and nothing is written, where
   the names or the payload aren't those of a telegram, or there is less room. */
size_t zendurai_telegram_write(uint8_t protocol, uint16_t type, const uint8_t *sender, size_t sender_length,
                               const uint8_t *receiver, size_t receiver_length, const uint8_t *payload,
                               size_t payload_length, uint8_t *out, size_t room);

/* 0 where a text is a layout. Else its first fault: 1 no TOML, 2 a missing key, 3 a value of another kind, 4 a name that isn't
   there, 5 a name used twice, 6 a port joined twice, 7 more entries than a station may have, 8 want of memory, 9 no UTF-8.
   docs/INTERLOCKING.md has the keys. */
uint32_t zendurai_layout_read(const uint8_t *text, size_t length);

#ifdef __cplusplus
}
#endif

#endif
